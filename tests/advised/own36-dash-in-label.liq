# help: do you mean `track_sensitive=`?
music = playlist("music.m3u")
jingle = single("jingle.wav")
radio = fallback(track-sensitive=false, [music, jingle])
output.file(%wav, "o.wav", radio)
