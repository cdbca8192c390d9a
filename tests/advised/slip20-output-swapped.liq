# help: the arguments stand in another order: `output.file(%wav, "o.wav", radio)`
radio = single("a.wav")
output.file("o.wav", %wav, radio)
