# help: a share is a decimal: write `0.5`
music = playlist("music.m3u")
jingle = single("jingle.wav")
radio = fallback([amplify(50%, music), jingle])
output.file(%wav, "o.wav", radio)
