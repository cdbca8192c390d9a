# help: `volume` is no word of this language; in its place: `amplify(0.5, s)`; a factor of 0.5 is 6 dB less
music = playlist("music.m3u")
jingle = single("jingle.wav")
radio = fallback([volume(0.5, music), jingle])
output.file(%wav, "o.wav", radio)
