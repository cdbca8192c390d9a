# help: `samplesize` is 16 or 24
radio = single("a.wav")
output.file(%wav(samplesize=8), "o.wav", radio)
