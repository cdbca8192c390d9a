# help: a backslash stands only before a quote or a backslash: write `/` between folders, and `\\` for a backslash
radio = single("C:\Music\a.wav")
output.file(%wav, "o.wav", radio)
