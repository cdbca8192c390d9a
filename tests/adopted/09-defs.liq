# Helpers
base = "/srv"
def lists(name) =
  log("list #{name}")
  s = playlist(mode="normal", name)
  s.on_track(fun (m) -> print(m))
  amplify(1.2, s)
end
def with_jingle(~every=4, ~jingles, s) =
  rotate(weights=[1, 4], [jingles, s])
end
louder = fun (s) -> amplify(2., s)
rock = lists("rock.m3u")
pop = lists("pop.m3u")
jingles = louder(playlist("jingles.m3u"))
evening = begin
  random(weights=[2, 1], [rock, pop])
end
radio = with_jingle(jingles=jingles, evening)
radio = if true then radio else blank() end
volume = 1_000
radio = amplify(8e-1, radio)
radio = mksafe(radio)

def stream(~format, ~mount, s) =
  output.icecast(format, host="localhost", password="hackme", mount=mount, s)
end
stream(format=%mp3(bitrate=320), mount="/high.mp3", radio)
output.harbor(%opus, mount="/low.opus", port=8002, mean(radio))
