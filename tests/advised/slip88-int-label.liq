# help: `loop` is `true` or `false`: write `false`
radio = mksafe(playlist(loop=0, "music.m3u"))
output.file(%wav, "o.wav", radio)
