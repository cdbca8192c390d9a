settings.frame.duration := 0.02
settings.init.allow_root := true
dir = "shows"
# Shows
morning = playlist("#{dir}/morning.m3u")
day     = playlist(mode="normal", dir ^ "/day.m3u")
night   = playlist("#{dir}/night.m3u", mode="shuffle")
weekend = playlist("#{dir}/weekend.m3u")
news    = single('#{dir}/news.wav')
jingle  = single("it's time.wav")

radio = switch([
  ({ (6w or 7w) && 8h-20h }, weekend),      # Saturday and Sunday
  ({ 6h-10h }, morning),
  ({ 10h-18h30 }, day),
  ({ true }, night),
])

# News at the hour, jingle at half past
radio = switch(track_sensitive={false}, strict=true, single=[true, false], [
  ({ 0m-2m and not 1w }, news),
  ({ 30m0s }, once(jingle)),
  ({ true }, radio)
])
radio = mksafe(radio)
output.pulseaudio(amplify(.8, radio))
