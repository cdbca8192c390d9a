# help: the call is `louder(gain=2., s)`: those with `=` are given by their label, the others without
def louder(~gain=2., s) = amplify(gain, s) end
radio = louder(0.3, single("a.wav"))
output.file(%wav, "o.wav", radio)
