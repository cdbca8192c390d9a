# help: the format stands first, without quotes: `output.file(%wav, "NAME.wav", SOURCE)`
radio = single("a.wav")
output.file("wav", "o.wav", radio)
