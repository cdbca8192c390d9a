# Levels and pitches, worked out in the script.

base = 220.
step = 1.059463
unit = 2
pitch1 = base * step
pitch2 = pitch1 * step
pitch3 = pitch2 * step
pitch4 = pitch3 * step
pitch5 = pitch4 * step
pitch6 = pitch5 * step
pitch7 = pitch6 * step
pitch8 = pitch7 * step
pitch9 = pitch8 * step
pitch10 = pitch9 * step
pitch11 = pitch10 * step
pitch12 = pitch11 * step

# Whole numbers, for the lists below
low = 3
high = low * 4 + unit
middle = (low + high) / unit
is_wide = high - low > 10 and middle >= 8

waves = [
  square(pitch1),
  square(pitch2),
  square(pitch3),
  square(pitch4),
  square(pitch5),
  square(pitch6),
  square(pitch7),
  square(pitch8),
  square(pitch9),
  square(pitch10),
  square(pitch11),
  square(pitch12)
]

level =
  if is_wide then
    0.25
  else
    0.5
  end

soft = amplify(level, add(waves))
safe = mksafe(soft)
fade = crossfade(duration=2.5, safe)

output.file(%wav, "numbers.wav", fade)
# the end
