# help: `{` of line 2 is not closed: `}` is missing before this
radio = switch([({6h-22h, single("a.wav")), ({true}, blank())])
output.file(%wav, "o.wav", radio)
