# help: write `-` between two times: `8h-10h`
radio = switch([({8h to 10h}, single("a.wav")), ({true}, single("b.wav"))])
output.file(%wav, "o.wav", radio)
