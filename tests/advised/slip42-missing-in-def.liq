# accepted
def f(x) amplify(0.5, x) end
radio = f(single("a.wav"))
output.file(%wav, "o.wav", radio)
