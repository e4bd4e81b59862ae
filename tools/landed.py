"""How far document 02 has landed. The outside program is asked for document 01 with the requests [1] to [LANDED]."""
LANDED = 2

# the words with which it is asked
LEVEL = ["--level", str(LANDED)]
