# help: a comma stands between two items alone: one is too many, or an item is missing
radio = fallback([single("a.wav"),, single("b.wav")])
output.file(%wav, "o.wav", radio)
