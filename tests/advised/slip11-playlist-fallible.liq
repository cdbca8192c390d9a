# help: `music.m3u` may have no file that can be played: `fallback([.., single("jingle.wav")])` or `mksafe(..)` round its `playlist`
radio = playlist("music.m3u")
output.file(%wav, "o.wav", radio)
