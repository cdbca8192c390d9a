# help: a list stands in `[` and `]`
radio = fallback({single("a.wav"), single("b.wav")})
output.file(%wav, "o.wav", radio)
