# help: do you mean `radio`?
radio = single("a.wav")
output.file(%wav, "o.wav", raadio)
