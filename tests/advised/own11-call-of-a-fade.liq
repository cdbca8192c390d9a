# help: `fade.in` is no word of this language; in its place: `crossfade`, or faded files; `add` with `amplify`
music = playlist("music.m3u")
jingle = single("jingle.wav")
radio = fade.in(duration=3., fallback([music, jingle]))
output.file(%wav, "o.wav", radio)
