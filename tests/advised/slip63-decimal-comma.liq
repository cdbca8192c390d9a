# help: a decimal has a point, and no comma: `0.5`
radio = amplify(0,5, single("a.wav"))
output.file(%wav, "o.wav", radio)
