"""What tools/fuzz is made of: random files, their damage, and what has to hold for the program on them."""
