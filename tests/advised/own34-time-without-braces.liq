# help: times stand in braces: `{6h-22h}`
radio = switch([(6h-22h, single("a.wav")), ({true}, single("b.wav"))])
output.file(%wav, "o.wav", radio)
