# help: days of the week are `1w`, Monday, to `7w`: write `1w`
radio = switch([({monday}, single("a.wav")), ({true}, blank())])
output.file(%wav, "o.wav", radio)
