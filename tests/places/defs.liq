# Functions that call functions, with labels and defaults.

def soft(~by=0.5, s) =
  amplify(by, s)
end

def both(a, b) =
  add([a, b])
end

def faded(~seconds=3., s)
  safe = mksafe(s);
  crossfade(duration=seconds, safe)
end

def show(~opener, ~closer, ~body=playlist("body.m3u"), seconds) =
  first = sequence([opener, body, closer])
  faded(seconds=seconds, first)
end

def first_of(sources) =
  fallback(track_sensitive=false, sources)
end

opener1 = single("show1/opener.wav")
closer1 = single("show1/closer.wav")
show1 = show(opener=opener1, closer=closer1, 1.5)
opener2 = single("show2/opener.wav")
closer2 = single("show2/closer.wav")
show2 = show(opener=opener2, closer=closer2, 2.5)
opener3 = single("show3/opener.wav")
closer3 = single("show3/closer.wav")
show3 = show(opener=opener3, closer=closer3, 3.5)
opener4 = single("show4/opener.wav")
closer4 = single("show4/closer.wav")
show4 = show(opener=opener4, closer=closer4, 4.5)
opener5 = single("show5/opener.wav")
closer5 = single("show5/closer.wav")
show5 = show(opener=opener5, closer=closer5, 5.5)
opener6 = single("show6/opener.wav")
closer6 = single("show6/closer.wav")
show6 = show(opener=opener6, closer=closer6, 6.5)
opener7 = single("show7/opener.wav")
closer7 = single("show7/closer.wav")
show7 = show(opener=opener7, closer=closer7, 7.5)
opener8 = single("show8/opener.wav")
closer8 = single("show8/closer.wav")
show8 = show(opener=opener8, closer=closer8, 8.5)

all_shows = [show1, show2, show3, show4, show5, show6, show7, show8]
one = first_of(all_shows)
two = both(soft(one), soft(by=0.25, one))

if true then
  output.file(%wav, "defs.wav", two)
else
  output.file(%wav, "defs.wav", one)
end

# line 60
# line 61
# line 62
# line 63
# line 64
# line 65
# line 66
# line 67
# line 68
# line 69
# line 70
# line 71
# line 72
# line 73
# line 74
# line 75
# line 76
# line 77
# line 78
# line 79
# line 80
