# help: `end` is a word of the language, and no name: take another one
music = playlist("music.m3u")
jingle = single("jingle.wav")
end = fallback([music, jingle])
output.file(%wav, "o.wav", end)
