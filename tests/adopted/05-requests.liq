# Requests by telnet, and a scheduler in PHP
set("server.telnet",true)
set("server.telnet.port",1234)

def my_request_function() =
  result = list.hd(default="", get_process_lines("php next.php"))
  log("Next: #{result}")
  request.create(result)
end

queue = request.equeue(id="queue", length=60.)
s = request.dynamic.list(id="s", {[my_request_function()]})
fall = playlist.safe(mode="normal", "music.m3u")
ads = delay(1800., playlist("ads.m3u"))
ignore(ads)

radio = fallback([queue, s, fall])
radio = map_metadata(fun (m) -> [("artist", "Wild - #{m["artist"]}")], radio)
radio = on_track(fun (m) -> ignore(system("notify " ^ quote(m["title"]))), radio)
radio = nrj(radio)

server.register(namespace="queue", description="Say hello", usage="hello <name>", "hello", fun (who) -> "hello " ^ who)

clock.assign_new(id="web", [output.icecast(%ogg(%vorbis), mount="req", radio)])
output.dummy(radio)
