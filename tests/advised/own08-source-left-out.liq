# help: `s` is missing: `output.file(%wav, "o.wav", SOURCE)`
music = playlist("music.m3u")
jingle = single("jingle.wav")
radio = fallback([music, jingle])
output.file(%wav, "o.wav")
