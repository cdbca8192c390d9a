# help: `let` is no word of this language; in its place: `x = ..`; tuples cannot be taken apart: bind each part by itself
let music = playlist("music.m3u")
radio = mksafe(music)
output.file(%wav, "o.wav", radio)
