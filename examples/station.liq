# A station of a whole week: songs by day and other ones by night, each faded into the next; the news at the full hour, for eight
# seconds; and a jingle of three seconds at each quarter.
day = crossfade(duration=3., playlist("songs/day.m3u"))
night = crossfade(duration=5., playlist("songs/night.m3u"))
music = switch([({22h-6h}, night), ({true}, day)])
news = single("songs/news.wav")
jingle = single("songs/jingle.wav")
radio = switch(track_sensitive=false, [
  ({0m0s-0m8s}, news),
  ({15m0s-15m3s or 30m0s-30m3s or 45m0s-45m3s}, jingle),
  ({true}, music)])
output.file(%wav, "station.wav", mksafe(radio))
