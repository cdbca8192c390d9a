# help: `duration` is a decimal: write `5.`
radio = blank(duration=5)
output.file(%wav, "o.wav", radio)
