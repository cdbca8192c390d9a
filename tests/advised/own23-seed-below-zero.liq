# help: not allowed is a `seed` below zero
music = playlist("music.m3u")
jingle = single("jingle.wav")
radio = random(seed=-1, [music, jingle])
output.file(%wav, "o.wav", radio)
