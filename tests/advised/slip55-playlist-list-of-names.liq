# help: `file` is one text: a list of names is a file, an `.m3u`, of which the text is the name
radio = mksafe(playlist(["a.wav","b.wav"]))
output.file(%wav, "o.wav", radio)
