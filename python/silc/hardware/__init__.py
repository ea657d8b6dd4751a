"""What tools/verilog is made of: structural hazards, ranges of words, columns of the microprogram, text."""
