# A week: for each day a playlist for the morning, one for the evening, and the night.

monday_morning = playlist("monday/morning.m3u")
monday_evening = playlist("monday/evening.m3u")

tuesday_morning = playlist("tuesday/morning.m3u")
tuesday_evening = playlist("tuesday/evening.m3u")

wednesday_morning = playlist("wednesday/morning.m3u")
wednesday_evening = playlist("wednesday/evening.m3u")

thursday_morning = playlist("thursday/morning.m3u")
thursday_evening = playlist("thursday/evening.m3u")

friday_morning = playlist("friday/morning.m3u")
friday_evening = playlist("friday/evening.m3u")

saturday_morning = playlist("saturday/morning.m3u")
saturday_evening = playlist("saturday/evening.m3u")

sunday_morning = playlist("sunday/morning.m3u")
sunday_evening = playlist("sunday/evening.m3u")

night = single("night.wav")

week = switch(track_sensitive=true, [
  ({1w and 6h-12h}, monday_morning),
  ({1w and 12h-22h}, monday_evening),
  ({2w and 6h-12h}, tuesday_morning),
  ({2w and 12h-22h}, tuesday_evening),
  ({3w and 6h-12h}, wednesday_morning),
  ({3w and 12h-22h}, wednesday_evening),
  ({4w and 6h-12h}, thursday_morning),
  ({4w and 12h-22h}, thursday_evening),
  ({5w and 6h-12h}, friday_morning),
  ({5w and 12h-22h}, friday_evening),
  ({6w and 6h-12h}, saturday_morning),
  ({6w and 12h-22h}, saturday_evening),
  ({7w and 6h-12h}, sunday_morning),
  ({7w and 12h-22h}, sunday_evening),
  ({true}, night)
])

# What is said between the songs
station_id = single("id.wav")
with_id = switch(track_sensitive=false, [
  ({29m50s-30m}, station_id),
  ({59m50s-60m}, station_id),
  ({true}, week)
])

output.file(
  %wav(samplesize=16),
  "week.wav",
  mksafe(with_id)
)
#
# ---
#
#
# ---
#
#
# ---
