# help: the format is missing: `output.file(%wav, "o.wav", radio)`
music = playlist("music.m3u")
jingle = single("jingle.wav")
radio = fallback([music, jingle])
output.file("o.wav", radio)
