# help: `sources` is a list of sources; write `playlist("music.m3u")` in `[` and `]`
radio = fallback("music.m3u")
output.file(%wav, "o.wav", radio)
