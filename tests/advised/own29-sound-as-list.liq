# help: `a.wav` is a sound, and no list: write `single("a.wav")`
radio = playlist("a.wav")
output.file(%wav, "o.wav", radio)
