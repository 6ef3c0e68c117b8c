"""Missing inputs: what make knows in a later build, and the tasks of an old tree."""
