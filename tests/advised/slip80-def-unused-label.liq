# help: `x` of `f` is given by its label: `f(x=..)`
def f(~x) = amplify(x, single("a.wav")) end
radio = f(0.5)
output.file(%wav, "o.wav", radio)
