"""The linker: one plain source of a source that uses blocks, and the library of blocks (docs/LIBRARY.md)."""
