# help: `s` is missing: `mksafe(SOURCE)`
radio = mksafe()
output.file(%wav, "o.wav", radio)
