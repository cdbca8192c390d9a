# help: a duration is a decimal, in seconds: write `5.`
music = playlist("music.m3u")
jingle = single("jingle.wav")
radio = crossfade(duration=5s, fallback([music, jingle]))
output.file(%wav, "o.wav", radio)
