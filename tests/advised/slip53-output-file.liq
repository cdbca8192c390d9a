# help: do you mean `output.file`?
radio = single("a.wav")
output_file(%wav, "o.wav", radio)
