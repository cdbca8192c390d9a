# help: sources are put together by `add([.., ..])`, and not by `+`; `amplify` makes one louder
music = playlist("music.m3u")
jingle = single("jingle.wav")
radio = fallback([music, jingle]) + single("bed.wav")
output.file(%wav, "o.wav", radio)
