#!/usr/bin/liquidsoap -v
set("log.file.path","/tmp/<script>.log")
set("log.stdout", true)
set("server.telnet", true)
set("harbor.bind_addr","0.0.0.0")

# Authentication of the DJs
def auth(user,password) =
  ret = get_process_lines("php -q /home/radio/auth.php --user #{user} --pass #{password}")
  ret = list.hd(default="", ret)
  if ret == "true" then
    true
  else
    false
  end
end

emergency = single("emergency.wav")
music = playlist(mode="randomize", reload=1, reload_mode="rounds", "music.m3u")

live = input.harbor("live", port=8001, auth=auth, password="x")

# Transitions
def to_live(a, b) =
  add(normalize=false, [fade.initial(duration=1., b), fade.final(duration=1., a)])
end
def from_live(a, b) =
  sequence([jingle_end, b])
end

full = fallback(track_sensitive=false, transitions=[to_live, from_live], [live, music, emergency])

# Fade between songs
full = smart_crossfade(start_next=4., fade_in=2., fade_out=2., width=2., conservative=true, full)

# Record what is played
output.file(%mp3(bitrate=192), "/home/radio/archive/%Y-%m-%d-%H.mp3", reopen_when={0m}, full)
output.icecast(%mp3, mount="live.mp3", host="localhost", port=8000, password="hackme", fallible=true, full)
