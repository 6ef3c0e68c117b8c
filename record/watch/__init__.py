"""What GNU make says while a build is recorded: a library in make (watch.c), how it comes there, and its files."""
