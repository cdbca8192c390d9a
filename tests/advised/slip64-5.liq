# help: a decimal begins with a digit: `0.5`
radio = amplify(.5, single("a.wav"))
output.file(%wav, "o.wav", radio)
