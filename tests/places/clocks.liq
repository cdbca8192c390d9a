# A studio and a transmitter, each in a clock of its own, made of tones and silence alone.
set("frame.audio.samplerate", 22050)

# Tones.
low = square(220.)
middle = square(440.)
high = square(880.)

# What both play.
def chime(first, second) =
  sequence([first, second, blank(duration=1.)])
end

def faded(~by=2., s) =
  quiet = amplify(0.5, s)
  crossfade(duration=by, quiet)
end

# The studio.
opening = chime(low, middle)
talk = switch([
  ({9h-12h}, opening),
  ({true}, high)
])
music = faded(chime(square(330.), square(660.)))
studio = clock(id="studio", fallback([talk, music]))

# The transmitter.
spare = faded(by=1., chime(square(110.), square(165.)))
transmitter = clock(
  id="transmitter",
  add([spare, square(55.)])
)

output.file(%wav, "studio.wav", studio)
output.file(%wav, "transmitter.wav", transmitter)
output.file(%wav, "tone.wav", stereo(square(1760.)))
