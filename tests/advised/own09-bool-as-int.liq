# help: `normalize` is `true` or `false`: write `false`
radio = add(normalize=0, [single("a.wav"), single("bed.wav")])
output.file(%wav, "o.wav", radio)
