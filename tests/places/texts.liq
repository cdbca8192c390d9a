# Eine Station mit Namen in vielen Schriften: Übung, ночь, 夜.
set("frame.duration", 0.04)

# Namen mit Anführungszeichen und Leerzeichen
morgen = single("größe/morgen früh.wav")
abend = single('abend "live".wav')
nacht = single("ночь.wav")
yoru = single("夜.wav")

# Ein Text mit Backslash
pfad = "c:\\musik\\liste.m3u"
liste = playlist(pfad)

def mit_titel(~titel="ohne", quelle) =
  # der Titel wird nicht gespielt
  name = titel
  amplify(1.0, quelle)
end

erste = mit_titel(titel="Früh", morgen)
zweite = mit_titel(titel="Spät", abend)
dritte = mit_titel(nacht)
vierte = mit_titel(titel='夜の歌', yoru)

alle = sequence([erste, zweite, dritte, vierte])

radio = fallback([
  liste,
  alle
])

# zwei Ausgaben
output.file(%wav, "größe.wav", radio)
output.file(%wav, "夜.wav", alle)

# Ende
ende = "fertig"
