# help: this is an address, and nothing is fetched: save what it plays as a WAV file
radio = mksafe(playlist("http://x.org/a.m3u"))
output.file(%wav, "o.wav", radio)
