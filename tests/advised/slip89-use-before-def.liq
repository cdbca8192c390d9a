# help: `f` is bound in line 3 alone: bind it above this
radio = f(single("a.wav"))
def f(x) = x end
output.file(%wav, "o.wav", radio)
