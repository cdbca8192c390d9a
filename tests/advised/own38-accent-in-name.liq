# help: a name has letters from `a` to `z`, digits and `_` alone: take another one for `música`, without `ú`
música = playlist("music.m3u")
radio = mksafe(música)
output.file(%wav, "o.wav", radio)
