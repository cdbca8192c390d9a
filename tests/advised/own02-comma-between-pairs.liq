# help: a comma is missing before this
radio = switch([({6h-22h}, single("a.wav")) ({true}, single("b.wav"))])
output.file(%wav, "o.wav", radio)
