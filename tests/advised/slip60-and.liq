# help: write `and`
radio = mksafe(switch([({6h-9h && 1w}, single("a.wav"))]))
output.file(%wav, "o.wav", radio)
