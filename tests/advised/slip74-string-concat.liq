# help: texts are not joined: write the whole text
d = "x" ^ "y"
radio = single("a.wav")
output.file(%wav, "o.wav", radio)
