# help: a text holds no TAB; a file with one in its name is played by a list
radio = single("a	b.wav")
output.file(%wav, "o.wav", radio)
