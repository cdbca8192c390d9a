# Voice over music
music = playlist("music.m3u", mode="random")
voice = single("voice.wav")
bed = amplify(lin_of_dB(-12.), single("bed.wav"))
mic = buffer(input.alsa(bufferize=false))

# compress the talk
voice = compress(attack=5., release=100., threshold=-12., ratio=4., gain=3., voice)
talk = add(normalize=false, weights=[1., 0.5], [voice, bed])
talk = source.available(talk, {55m-59m})
music = smooth_add(delay=0.65, p=0.2, normal=music, special=talk)
music = add(normalize=false, [music, mic])
vol = interactive.float("volume", 0.9)
radio = amplify(vol, music)
radio = stereo.pan(pan=0., radio)
radio = limit(threshold=-1., radio)
radio = mksafe(audio_to_stereo(radio))
output.alsa(device="hw:0", radio)
output.file(%wav(stereo=true, channels=2, samplesize=16, header=true), "check.wav", on_stop={print("done")}, radio)
