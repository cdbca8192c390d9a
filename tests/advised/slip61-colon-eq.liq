# help: write `set("frame.duration", 0.02)`
settings.frame.duration := 0.02
radio = single("a.wav")
output.file(%wav, "o.wav", radio)
