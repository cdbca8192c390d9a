# help: days of the week are `1w`, Monday, to `7w`: write `6w`
radio = switch([({sat or sun}, single("a.wav")), ({true}, single("b.wav"))])
output.file(%wav, "o.wav", radio)
