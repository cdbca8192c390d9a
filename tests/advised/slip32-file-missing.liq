# help: do you mean `a.wav`?
radio = single("aa.wav")
output.file(%wav, "o.wav", radio)
