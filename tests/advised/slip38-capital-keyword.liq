# help: do you mean `single`?
radio = Single("a.wav")
output.file(%wav, "o.wav", radio)
