"""What known tools keep for themselves: byte code, caches, marks that a folder is there."""
