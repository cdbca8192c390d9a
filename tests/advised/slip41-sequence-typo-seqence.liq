# help: do you mean `sequence`?
radio = seqence([single("a.wav"), blank()])
output.file(%wav, "o.wav", radio)
