"""What the designer's bench is made of: filters in real numbers, their coefficients as words, sources, and rows of
silc."""
