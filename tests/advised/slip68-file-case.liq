# help: do you mean `a.wav`?
radio = single("A.wav")
output.file(%wav, "o.wav", radio)
