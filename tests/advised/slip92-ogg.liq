# help: `%ogg` is no word of this language; in its place: `%wav`, and encode the file or the pipe with another program
radio = single("a.wav")
output.file(%ogg(%vorbis), "o.ogg", radio)
