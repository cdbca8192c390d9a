# help: a comment begins with `#`
/* hi */
radio = single("a.wav")
output.file(%wav, "o.wav", radio)
