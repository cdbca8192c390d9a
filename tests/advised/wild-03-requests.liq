# help: `output.icecast` and `%mp3` are no words of this language; in their place: `output.file(%wav, "NAME.wav", s)`, into a file, or into a named pipe from which another program sends it (examples, "Recipes")
# 3: requests by telnet
set("server.telnet",true)
reqs = request.queue(id="requests")
music = playlist("music.m3u")
radio = fallback([reqs, music, blank()])
output.icecast(%mp3, mount="radio", radio)
