# help: `f` is a decimal: write `440.`
radio = square(440)
output.file(%wav, "o.wav", radio)
