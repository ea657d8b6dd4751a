"""The pictures of tools/draw, a module each, and what they share."""
