# help: the call is `both(x, y)`
music = playlist("music.m3u")
jingle = single("jingle.wav")
def both(x, y) = fallback([x, y, jingle]) end
radio = both(music)
output.file(%wav, "o.wav", radio)
