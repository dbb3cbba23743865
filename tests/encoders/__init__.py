"""What the program is given and must give, as bytes by the documentation of their formats; nothing is shared with the program."""
