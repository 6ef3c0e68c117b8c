"""The kinds of events: what a process did to a path, or saw of it.

An event is a kind and a path; a life keeps the first place of each in the order of the trace (lives.py). A kind is one letter, so that several are a text:
`kind in LOOKS`.
"""

# Looks at a name.
READ = "R"  # a file was opened, run, linked or moved; or a link on the way was followed
SEEN = "S"  # something was there
BY_LIST = "l"  # the same, and the process had listed the folder: the list has shown it the name
ABSENT = "N"  # nothing was there; or a name could not be made, since its folder was absent
ENTERED = "U"  # a folder was entered
LISTED = "L"  # the names in a folder were listed

# Changes.
WRITTEN = "W"  # what a file holds, or what is known of it
OUTPUT = "w"  # a file that is open was written: by who opened it, or by who has the descriptor from there
REFUSED = "e"  # a name could not be made, since it was there
CREATED = "C"  # a name came; that of a folder has a slash behind it
REMOVED = "D"  # a name went
HELD = "f"  # a lock on it was taken, or it is a pipe with a name
LOCKED = "F"  # a file was opened to read it, as for a lock, and is made where it is not there
MADE = "M"  # a folder was made
MADE_BEFORE = "E"  # a folder could not be made, since the name was there
FOLDER_CHANGED = "m"  # what is known of a folder, as its mode
TIME_SET = "t"  # the time of a folder was set; or that of a file, to another time than now
FOLDER_REMOVED = "X"  # a folder went
FOLDER_FULL = "k"  # a folder could not go, as it held something

LOOKS = READ + SEEN + ABSENT
CHANGES = WRITTEN + CREATED + REMOVED + LOCKED  # guard: removals-are-writes
MAKES = MADE + MADE_BEFORE  # a folder is there behind it
TREE_CHANGES = CHANGES + MADE + FOLDER_REMOVED
INSIDE = OUTPUT + HELD  # what counts between the processes of one recipe alone
