"""Plain models: what a broker, a copy of a partition and a kept directory must come to; nothing is shared with the program."""
