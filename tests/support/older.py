"""Arenas and pictures of boards before item 9, written out by hand."""

# What the second words of live chunks were.
OLD_MARK = 4294967295

# A block between two free chunks, as words and as a picture: damaged by now.
HELD_WORDS = [14, 2, 4, 10, 1004, 1005, 4, OLD_MARK, 1008, 1009, 4, 0, 1012, 1013]
HELD_SHOWN = (b"06000E\n"
              b"0700000000000E00000002000000040000000A000003EC000003ED00000004FFFFFFFF\n"
              b"070008000003F0000003F10000000400000000000003F4000003F5\n")

# No block, but the header of one that was freed lies about: as sound as it was.
BARE_WORDS = [10, 2, 8, 0, 1004, 1005, 4, OLD_MARK, 1008, 1009]
BARE_SHOWN = (b"06000A\n"
              b"0700000000000A000000020000000800000000000003EC000003ED00000004FFFFFFFF\n"
              b"070008000003F0000003F1\n")
