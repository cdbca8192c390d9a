# If the studio falls silent the backup plays
set("init.daemon", false)
studio = input.http(max=30., "http://studio.example.org:8000/live")
studio = strip_blank(max_blank=30., threshold=-45., studio)

def dead() = ignore(system("/usr/local/bin/page-engineer 'dead air'")) end
def alive() = () end
backup = playlist(mode="normal", reload=600, "music.m3u")
backup = crossfade(backup)
last_resort = sine(440.)

radio = fallback(track_sensitive=false, [studio, backup, single("emergency.wav")])
radio = on_blank(max_blank=20., dead, on_noise=alive, radio)
radio = server.insert_metadata(id="meta", radio)
output.ao(fallible=true, radio)
output.icecast(%mp3.vbr(quality=4), mount="/main", radio)
