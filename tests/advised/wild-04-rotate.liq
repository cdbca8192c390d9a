# help: `output.icecast` and `%mp3` are no words of this language; in their place: `output.file(%wav, "NAME.wav", s)`, into a file, or into a named pipe from which another program sends it (examples, "Recipes")
# 4: a jingle each four songs
jingles = playlist("jingles.m3u")
music = playlist("music.m3u")
radio = rotate(weights=[1, 4], [jingles, music])
radio = mksafe(radio)
output.icecast(%mp3, mount="radio", radio)
