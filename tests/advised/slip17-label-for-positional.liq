# help: `k` is given in its place, without a label: `amplify(0.5, s)`
radio = amplify(k=0.5, single("a.wav"))
output.file(%wav, "o.wav", radio)
