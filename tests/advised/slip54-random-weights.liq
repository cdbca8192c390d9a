# help: each item is a source, without a weight: one that stands twice has twice the share
radio = random([(1, single("a.wav")), (2, single("b.wav"))])
output.file(%wav, "o.wav", radio)
