"""The language server: what a source says of its names, and messages to an editor."""
