# help: `=` is missing before this: `radio = ..`
music = playlist("music.m3u")
jingle = single("jingle.wav")
radio fallback([music, jingle])
output.file(%wav, "o.wav", radio)
