# help: days of the week are `1w`, Monday, to `7w`: write `1w`
radio = mksafe(switch([({mon-fri}, single("a.wav"))]))
output.file(%wav, "o.wav", radio)
