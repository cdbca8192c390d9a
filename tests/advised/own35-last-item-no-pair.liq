# help: each item is a pair of a predicate and a source: `({true}, jingle)`
music = playlist("music.m3u")
jingle = single("jingle.wav")
radio = switch([({6h-22h}, music), jingle])
output.file(%wav, "o.wav", radio)
