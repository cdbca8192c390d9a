# help: `k` is a decimal: write `1.`
radio = amplify(1, single("a.wav"))
output.file(%wav, "o.wav", radio)
