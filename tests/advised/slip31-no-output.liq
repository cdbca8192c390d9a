# help: write at the end `output.file(%wav, "NAME.wav", radio)`
radio = single("a.wav")
