"""What processes did: strace's lines, and the name space in which they are replayed."""
