settings.decoder.decoders.set(["FFMPEG"])
log.level.set(4)
%ifdef settings.scheduler.generic_queues
settings.scheduler.generic_queues.set(5)
%endif

enable_replaygain_metadata()

let streams_root = "/var/www/hls"
aac_low = %ffmpeg(format="mpegts", %audio(codec="aac", channels=2, ar=44100, b="64k"))
aac_high = %ffmpeg(
  format="mpegts",
  %audio(
    codec="aac",
    channels=2,
    ar=44100,
    b="192k"
  )
)
streams = [("low", aac_low), ("high", aac_high)]

s = playlist(reload_mode="watch", "music.m3u")
s = replaygain(s)
s = crossfade(smart=true, s)
s = (s : source)
s = mksafe(s)

thread.run(every={60.}, {print("still here: #{source.remaining(s)}")})
s.on_track(fun (m) -> log.important(label="track", "#{m}"))

def on_file_change(~state, fname) =
  log("#{state}: #{fname}")
end
output.file.hls(playlist="live.m3u8", on_file_change=on_file_change, "#{streams_root}/live", streams, s)
output.url(fallible=true, url="rtmp://a.rtmp.youtube.com/live2/key", aac_high, s)
