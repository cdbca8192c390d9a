# help: `output.icecast` and `%vorbis` are no words of this language; in their place: `output.file(%wav, "NAME.wav", s)`, into a file, or into a named pipe from which another program sends it (examples, "Recipes")
# 2: a schedule by the hour
morning = playlist("morning.m3u")
day = playlist("day.m3u")
night = playlist("night.m3u")
show = playlist(mode="normal", "show.m3u")
radio = switch([
  ({ (1w or 3w) and 20h-21h }, show),
  ({ 6h-10h }, morning),
  ({ 10h-22h }, day),
  ({ 22h-6h }, night)
])
output.icecast(%vorbis, mount="radio.ogg", mksafe(radio))
