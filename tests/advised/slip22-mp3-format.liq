# help: `%mp3` is no word of this language; in its place: `%wav`, and encode the file or the pipe with another program
radio = single("a.wav")
output.file(%mp3, "o.mp3", radio)
