# help: commas stand between items: write `,`
radio = fallback([single("a.wav"); single("b.wav")])
output.file(%wav, "o.wav", radio)
