# help: not allowed is a `seed` below zero
radio = random(seed=-1, [single("a.wav")])
output.file(%wav, "o.wav", radio)
