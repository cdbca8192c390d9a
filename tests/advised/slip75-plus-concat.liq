# help: texts are not joined: write the whole text
radio = single("a" + ".wav")
output.file(%wav, "o.wav", radio)
