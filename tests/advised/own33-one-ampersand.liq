# help: write `and`
radio = switch([({1w-5w & 6h-22h}, single("a.wav")), ({true}, single("b.wav"))])
output.file(%wav, "o.wav", radio)
