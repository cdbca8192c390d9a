# help: `s` is one source, and no list of them: `fallback`, `sequence` or `rotate` make one of a list
music = playlist("music.m3u")
jingle = single("jingle.wav")
radio = [music, jingle]
output.file(%wav, "o.wav", radio)
