# help: `no` is written `false`
radio = mksafe(playlist(loop=no, "music.m3u"))
output.file(%wav, "o.wav", radio)
