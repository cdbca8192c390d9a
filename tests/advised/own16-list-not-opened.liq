# help: `[` is missing behind `fallback(`: `]` closes it
music = playlist("music.m3u")
jingle = single("jingle.wav")
radio = fallback(music, jingle])
output.file(%wav, "o.wav", radio)
