# help: `def` of line 2 is not closed: `end` is missing before this
def f(x) = amplify(0.5, x)
radio = f(single("a.wav"))
output.file(%wav, "o.wav", radio)
