"""What `install` does, in parts: building the program, what goes where, and putting and removing it."""
