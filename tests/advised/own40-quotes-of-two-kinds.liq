# help: this text begins with `'` and ends with `"`: the same quote stands at both ends
radio = single('a.wav")
output.file(%wav, "o.wav", radio)
