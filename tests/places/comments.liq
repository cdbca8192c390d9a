# ---- hour 1 --------------------
# "a quote in a comment, and 'another", {1h} and [brackets
hour1 = # what follows is the file
  single( # its name
    "hour1.wav" )

# ---- hour 2 --------------------
# "a quote in a comment, and 'another", {2h} and [brackets
hour2 = # what follows is the file
  single( # its name
    "hour2.wav" )

# ---- hour 3 --------------------
# "a quote in a comment, and 'another", {3h} and [brackets
hour3 = # what follows is the file
  single( # its name
    "hour3.wav" )

# ---- hour 4 --------------------
# "a quote in a comment, and 'another", {4h} and [brackets
hour4 = # what follows is the file
  single( # its name
    "hour4.wav" )

# ---- hour 5 --------------------
# "a quote in a comment, and 'another", {5h} and [brackets
hour5 = # what follows is the file
  single( # its name
    "hour5.wav" )

# ---- hour 6 --------------------
# "a quote in a comment, and 'another", {6h} and [brackets
hour6 = # what follows is the file
  single( # its name
    "hour6.wav" )

# ---- hour 7 --------------------
# "a quote in a comment, and 'another", {7h} and [brackets
hour7 = # what follows is the file
  single( # its name
    "hour7.wav" )

# ---- hour 8 --------------------
# "a quote in a comment, and 'another", {8h} and [brackets
hour8 = # what follows is the file
  single( # its name
    "hour8.wav" )

# ---- hour 9 --------------------
# "a quote in a comment, and 'another", {9h} and [brackets
hour9 = # what follows is the file
  single( # its name
    "hour9.wav" )

# ---- hour 10 --------------------
# "a quote in a comment, and 'another", {10h} and [brackets
hour10 = # what follows is the file
  single( # its name
    "hour10.wav" )

# ---- hour 11 --------------------
# "a quote in a comment, and 'another", {11h} and [brackets
hour11 = # what follows is the file
  single( # its name
    "hour11.wav" )

# ---- hour 12 --------------------
# "a quote in a comment, and 'another", {12h} and [brackets
hour12 = # what follows is the file
  single( # its name
    "hour12.wav" )

# ---- hour 13 --------------------
# "a quote in a comment, and 'another", {13h} and [brackets
hour13 = # what follows is the file
  single( # its name
    "hour13.wav" )

# ---- hour 14 --------------------
# "a quote in a comment, and 'another", {14h} and [brackets
hour14 = # what follows is the file
  single( # its name
    "hour14.wav" )

# ---- hour 15 --------------------
# "a quote in a comment, and 'another", {15h} and [brackets
hour15 = # what follows is the file
  single( # its name
    "hour15.wav" )

# ---- hour 16 --------------------
# "a quote in a comment, and 'another", {16h} and [brackets
hour16 = # what follows is the file
  single( # its name
    "hour16.wav" )

# ---- hour 17 --------------------
# "a quote in a comment, and 'another", {17h} and [brackets
hour17 = # what follows is the file
  single( # its name
    "hour17.wav" )

# ---- hour 18 --------------------
# "a quote in a comment, and 'another", {18h} and [brackets
hour18 = # what follows is the file
  single( # its name
    "hour18.wav" )

# ---- hour 19 --------------------
# "a quote in a comment, and 'another", {19h} and [brackets
hour19 = # what follows is the file
  single( # its name
    "hour19.wav" )

# ---- hour 20 --------------------
# "a quote in a comment, and 'another", {20h} and [brackets
hour20 = # what follows is the file
  single( # its name
    "hour20.wav" )

# ---- hour 21 --------------------
# "a quote in a comment, and 'another", {21h} and [brackets
hour21 = # what follows is the file
  single( # its name
    "hour21.wav" )

# ---- hour 22 --------------------
# "a quote in a comment, and 'another", {22h} and [brackets
hour22 = # what follows is the file
  single( # its name
    "hour22.wav" )

# ---- hour 23 --------------------
# "a quote in a comment, and 'another", {23h} and [brackets
hour23 = # what follows is the file
  single( # its name
    "hour23.wav" )

# ---- hour 24 --------------------
# "a quote in a comment, and 'another", {24h} and [brackets
hour24 = # what follows is the file
  single( # its name
    "hour24.wav" )

# ---- hour 25 --------------------
# "a quote in a comment, and 'another", {25h} and [brackets
hour25 = # what follows is the file
  single( # its name
    "hour25.wav" )

# ---- hour 26 --------------------
# "a quote in a comment, and 'another", {26h} and [brackets
hour26 = # what follows is the file
  single( # its name
    "hour26.wav" )

# ---- hour 27 --------------------
# "a quote in a comment, and 'another", {27h} and [brackets
hour27 = # what follows is the file
  single( # its name
    "hour27.wav" )

# ---- hour 28 --------------------
# "a quote in a comment, and 'another", {28h} and [brackets
hour28 = # what follows is the file
  single( # its name
    "hour28.wav" )

radio = sequence([hour1, # first
  hour2, # then
  hour3])
output.file(%wav,
  # the name
  "comments.wav",
  radio
  # done
)
# the end
# the end
# the end
