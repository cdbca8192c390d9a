# help: the arguments of a call stand in `(` and `)`: `fallback([..])`
music = playlist("music.m3u")
jingle = single("jingle.wav")
radio = fallback[music, jingle]
output.file(%wav, "o.wav", radio)
