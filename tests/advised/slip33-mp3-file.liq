# help: it is MP3, and no WAV file: `ffmpeg -i x.mp3 -c:a pcm_s16le x.wav`, or `liq prepare` for a folder
radio = single("x.mp3")
output.file(%wav, "o.wav", radio)
