# help: `output.icecast` and `%mp3` are no words of this language; in their place: `output.file(%wav, "NAME.wav", s)`, into a file, or into a named pipe from which another program sends it (examples, "Recipes")
# 6: a voice over the music at each half hour
music = mksafe(playlist("music.m3u"))
voice = switch([({ 30m0s }, once(single("voice.wav")))])
radio = smooth_add(delay=0.65, p=0.15, normal=music, special=voice)
output.icecast(%mp3, mount="radio", radio)
