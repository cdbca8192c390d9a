#!/usr/bin/liquidsoap
# A small station, two mounts
settings.log.stdout.set(true)
settings.log.file.set(false)
settings.log.level.set(3)
settings.frame.audio.samplerate.set(44100)

myplaylist = playlist(id="music", reload=3600, reload_mode="seconds", "music.m3u")
jingles = playlist("jingles.m3u")

# Pre-loaded security file
security = single("jingle.wav")

radio = myplaylist
# Add jingles
radio = random(weights = [1, 4], [jingles, radio])
radio = crossfade(duration=3, fade_in=1., fade_out=2., radio)
radio = normalize(radio)
radio = blank.strip(max_blank=10., radio)
radio.on_metadata(fun (m) -> print("Now playing: #{m['title']}"))

# And finally the security
radio = fallback(track_sensitive = false, [radio, security])

output.icecast(%mp3(bitrate=128), host = "localhost", port = 8000, password = "hackme",
  mount = "basic-radio.mp3", name="Basic Radio", radio)
output.icecast(%vorbis(quality=0.4), host = "localhost", port = 8000, password = "hackme",
  mount = "basic-radio.ogg", radio)
