# help: `silence` is no word of this language; in its place: `blank()`
music = playlist("music.m3u")
jingle = single("jingle.wav")
radio = fallback([music, silence()])
output.file(%wav, "o.wav", radio)
