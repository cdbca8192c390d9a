# help: the text that begins in line 2 is not closed: a quote is missing in this line
radio = single("a.wav)
output.file(%wav, "o.wav", radio)
