# help: `output.icecast` and `%mp3` are no words of this language; in their place: `output.file(%wav, "NAME.wav", s)`, into a file, or into a named pipe from which another program sends it (examples, "Recipes")
# 8: functions, metadata, silence detection
def apply_metadata(m) =
  title = m["title"]
  print("Now playing: #{title}")
end
def append_title(m) =
  [("title", "#{m['artist']} - #{m['title']} on MyRadio")]
end
music = audio_to_stereo(playlist("music.m3u"))
music = on_metadata(apply_metadata, music)
music = map_metadata(append_title, music)
radio = strip_blank(max_blank=10., music)
radio = fallback(track_sensitive=false, [radio, single("jingle.wav")])
output.icecast(%mp3, mount="radio", radio)
