# A long station: shows one after another, each with its music, its jingle and its level.
# What is not filled in the week goes to the last show.
# Levels are in parts of one.
# Jingles break into the music.
# Each show has seven lines here.

music1 = playlist("show1/music.m3u")
jingle1 = single("show1/jingle.wav")
level1 = 0.17
show1 = amplify(level1, switch(track_sensitive=false, [
  ({1h and 0m-1m}, jingle1),
  ({true}, mksafe(music1))]))

music2 = playlist("show2/music.m3u")
jingle2 = single("show2/jingle.wav")
level2 = 0.24
show2 = amplify(level2, switch(track_sensitive=false, [
  ({2h and 0m-1m}, jingle2),
  ({true}, mksafe(music2))]))

music3 = playlist("show3/music.m3u")
jingle3 = single("show3/jingle.wav")
level3 = 0.31
show3 = amplify(level3, switch(track_sensitive=false, [
  ({3h and 0m-1m}, jingle3),
  ({true}, mksafe(music3))]))

music4 = playlist("show4/music.m3u")
jingle4 = single("show4/jingle.wav")
level4 = 0.38
show4 = amplify(level4, switch(track_sensitive=false, [
  ({4h and 0m-1m}, jingle4),
  ({true}, mksafe(music4))]))

music5 = playlist("show5/music.m3u")
jingle5 = single("show5/jingle.wav")
level5 = 0.45
show5 = amplify(level5, switch(track_sensitive=false, [
  ({5h and 0m-1m}, jingle5),
  ({true}, mksafe(music5))]))

music6 = playlist("show6/music.m3u")
jingle6 = single("show6/jingle.wav")
level6 = 0.52
show6 = amplify(level6, switch(track_sensitive=false, [
  ({6h and 0m-1m}, jingle6),
  ({true}, mksafe(music6))]))

music7 = playlist("show7/music.m3u")
jingle7 = single("show7/jingle.wav")
level7 = 0.59
show7 = amplify(level7, switch(track_sensitive=false, [
  ({7h and 0m-1m}, jingle7),
  ({true}, mksafe(music7))]))

music8 = playlist("show8/music.m3u")
jingle8 = single("show8/jingle.wav")
level8 = 0.66
show8 = amplify(level8, switch(track_sensitive=false, [
  ({8h and 0m-1m}, jingle8),
  ({true}, mksafe(music8))]))

music9 = playlist("show9/music.m3u")
jingle9 = single("show9/jingle.wav")
level9 = 0.73
show9 = amplify(level9, switch(track_sensitive=false, [
  ({9h and 0m-1m}, jingle9),
  ({true}, mksafe(music9))]))

music10 = playlist("show10/music.m3u")
jingle10 = single("show10/jingle.wav")
level10 = 0.80
show10 = amplify(level10, switch(track_sensitive=false, [
  ({10h and 0m-1m}, jingle10),
  ({true}, mksafe(music10))]))

music11 = playlist("show11/music.m3u")
jingle11 = single("show11/jingle.wav")
level11 = 0.87
show11 = amplify(level11, switch(track_sensitive=false, [
  ({11h and 0m-1m}, jingle11),
  ({true}, mksafe(music11))]))

music12 = playlist("show12/music.m3u")
jingle12 = single("show12/jingle.wav")
level12 = 0.94
show12 = amplify(level12, switch(track_sensitive=false, [
  ({12h and 0m-1m}, jingle12),
  ({true}, mksafe(music12))]))

music13 = playlist("show13/music.m3u")
jingle13 = single("show13/jingle.wav")
level13 = 0.11
show13 = amplify(level13, switch(track_sensitive=false, [
  ({13h and 0m-1m}, jingle13),
  ({true}, mksafe(music13))]))

music14 = playlist("show14/music.m3u")
jingle14 = single("show14/jingle.wav")
level14 = 0.18
show14 = amplify(level14, switch(track_sensitive=false, [
  ({14h and 0m-1m}, jingle14),
  ({true}, mksafe(music14))]))

music15 = playlist("show15/music.m3u")
jingle15 = single("show15/jingle.wav")
level15 = 0.25
show15 = amplify(level15, switch(track_sensitive=false, [
  ({15h and 0m-1m}, jingle15),
  ({true}, mksafe(music15))]))

music16 = playlist("show16/music.m3u")
jingle16 = single("show16/jingle.wav")
level16 = 0.32
show16 = amplify(level16, switch(track_sensitive=false, [
  ({16h and 0m-1m}, jingle16),
  ({true}, mksafe(music16))]))

music17 = playlist("show17/music.m3u")
jingle17 = single("show17/jingle.wav")
level17 = 0.39
show17 = amplify(level17, switch(track_sensitive=false, [
  ({17h and 0m-1m}, jingle17),
  ({true}, mksafe(music17))]))

music18 = playlist("show18/music.m3u")
jingle18 = single("show18/jingle.wav")
level18 = 0.46
show18 = amplify(level18, switch(track_sensitive=false, [
  ({18h and 0m-1m}, jingle18),
  ({true}, mksafe(music18))]))

music19 = playlist("show19/music.m3u")
jingle19 = single("show19/jingle.wav")
level19 = 0.53
show19 = amplify(level19, switch(track_sensitive=false, [
  ({19h and 0m-1m}, jingle19),
  ({true}, mksafe(music19))]))

music20 = playlist("show20/music.m3u")
jingle20 = single("show20/jingle.wav")
level20 = 0.60
show20 = amplify(level20, switch(track_sensitive=false, [
  ({20h and 0m-1m}, jingle20),
  ({true}, mksafe(music20))]))

music21 = playlist("show21/music.m3u")
jingle21 = single("show21/jingle.wav")
level21 = 0.67
show21 = amplify(level21, switch(track_sensitive=false, [
  ({21h and 0m-1m}, jingle21),
  ({true}, mksafe(music21))]))

music22 = playlist("show22/music.m3u")
jingle22 = single("show22/jingle.wav")
level22 = 0.74
show22 = amplify(level22, switch(track_sensitive=false, [
  ({22h and 0m-1m}, jingle22),
  ({true}, mksafe(music22))]))

music23 = playlist("show23/music.m3u")
jingle23 = single("show23/jingle.wav")
level23 = 0.81
show23 = amplify(level23, switch(track_sensitive=false, [
  ({23h and 0m-1m}, jingle23),
  ({true}, mksafe(music23))]))

music24 = playlist("show24/music.m3u")
jingle24 = single("show24/jingle.wav")
level24 = 0.88
show24 = amplify(level24, switch(track_sensitive=false, [
  ({0h and 0m-1m}, jingle24),
  ({true}, mksafe(music24))]))

music25 = playlist("show25/music.m3u")
jingle25 = single("show25/jingle.wav")
level25 = 0.95
show25 = amplify(level25, switch(track_sensitive=false, [
  ({1h and 0m-1m}, jingle25),
  ({true}, mksafe(music25))]))

music26 = playlist("show26/music.m3u")
jingle26 = single("show26/jingle.wav")
level26 = 0.12
show26 = amplify(level26, switch(track_sensitive=false, [
  ({2h and 0m-1m}, jingle26),
  ({true}, mksafe(music26))]))

music27 = playlist("show27/music.m3u")
jingle27 = single("show27/jingle.wav")
level27 = 0.19
show27 = amplify(level27, switch(track_sensitive=false, [
  ({3h and 0m-1m}, jingle27),
  ({true}, mksafe(music27))]))

music28 = playlist("show28/music.m3u")
jingle28 = single("show28/jingle.wav")
level28 = 0.26
show28 = amplify(level28, switch(track_sensitive=false, [
  ({4h and 0m-1m}, jingle28),
  ({true}, mksafe(music28))]))

music29 = playlist("show29/music.m3u")
jingle29 = single("show29/jingle.wav")
level29 = 0.33
show29 = amplify(level29, switch(track_sensitive=false, [
  ({5h and 0m-1m}, jingle29),
  ({true}, mksafe(music29))]))

music30 = playlist("show30/music.m3u")
jingle30 = single("show30/jingle.wav")
level30 = 0.40
show30 = amplify(level30, switch(track_sensitive=false, [
  ({6h and 0m-1m}, jingle30),
  ({true}, mksafe(music30))]))

music31 = playlist("show31/music.m3u")
jingle31 = single("show31/jingle.wav")
level31 = 0.47
show31 = amplify(level31, switch(track_sensitive=false, [
  ({7h and 0m-1m}, jingle31),
  ({true}, mksafe(music31))]))

music32 = playlist("show32/music.m3u")
jingle32 = single("show32/jingle.wav")
level32 = 0.54
show32 = amplify(level32, switch(track_sensitive=false, [
  ({8h and 0m-1m}, jingle32),
  ({true}, mksafe(music32))]))

music33 = playlist("show33/music.m3u")
jingle33 = single("show33/jingle.wav")
level33 = 0.61
show33 = amplify(level33, switch(track_sensitive=false, [
  ({9h and 0m-1m}, jingle33),
  ({true}, mksafe(music33))]))

music34 = playlist("show34/music.m3u")
jingle34 = single("show34/jingle.wav")
level34 = 0.68
show34 = amplify(level34, switch(track_sensitive=false, [
  ({10h and 0m-1m}, jingle34),
  ({true}, mksafe(music34))]))

music35 = playlist("show35/music.m3u")
jingle35 = single("show35/jingle.wav")
level35 = 0.75
show35 = amplify(level35, switch(track_sensitive=false, [
  ({11h and 0m-1m}, jingle35),
  ({true}, mksafe(music35))]))

music36 = playlist("show36/music.m3u")
jingle36 = single("show36/jingle.wav")
level36 = 0.82
show36 = amplify(level36, switch(track_sensitive=false, [
  ({12h and 0m-1m}, jingle36),
  ({true}, mksafe(music36))]))

music37 = playlist("show37/music.m3u")
jingle37 = single("show37/jingle.wav")
level37 = 0.89
show37 = amplify(level37, switch(track_sensitive=false, [
  ({13h and 0m-1m}, jingle37),
  ({true}, mksafe(music37))]))

music38 = playlist("show38/music.m3u")
jingle38 = single("show38/jingle.wav")
level38 = 0.96
show38 = amplify(level38, switch(track_sensitive=false, [
  ({14h and 0m-1m}, jingle38),
  ({true}, mksafe(music38))]))

music39 = playlist("show39/music.m3u")
jingle39 = single("show39/jingle.wav")
level39 = 0.13
show39 = amplify(level39, switch(track_sensitive=false, [
  ({15h and 0m-1m}, jingle39),
  ({true}, mksafe(music39))]))

schedule = switch([
  ({1w and 1h}, show1),
  ({2w and 2h}, show2),
  ({3w and 3h}, show3),
  ({4w and 4h}, show4),
  ({5w and 5h}, show5),
  ({6w and 6h}, show6),
  ({7w and 7h}, show7),
  ({1w and 8h}, show8),
  ({2w and 9h}, show9),
  ({3w and 10h}, show10),
  ({4w and 11h}, show11),
  ({5w and 12h}, show12),
  ({6w and 13h}, show13),
  ({7w and 14h}, show14),
  ({true}, show39)
])

output.file(%wav, "long.wav", schedule)
# the end
# the end
