# help: write `-` in its place
radio = mksafe(switch([({6h–22h}, single("a.wav"))]))
output.file(%wav, "o.wav", radio)
