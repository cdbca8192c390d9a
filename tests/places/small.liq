# A small station: music by day, one long file at night,
# and a jingle on the hour.

set("frame.audio.samplerate", 44100)
set("frame.duration", 0.04)

# The files.
music = playlist("music.m3u")
night = single("night.wav")
jingle = single("jingle.wav")

# Day and night.
by_time = switch([
  ({22h-6h}, night),
  ({true}, music)
])

# The first minute of each hour has the jingle.
radio = switch(track_sensitive=false, [
  ({0m-1m}, jingle),
  ({true}, by_time)
])

# Never silent.
safe = mksafe(radio)

output.file(
  %wav,
  "small.wav",
  safe)
