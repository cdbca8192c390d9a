# help: a comma is missing before this
a = single("a.wav")
b = single("b.wav")
radio = fallback([a b])
output.file(%wav, "o.wav", radio)
