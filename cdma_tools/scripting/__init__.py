"""Scripts of cells: what is wrong with one, in words, and how to begin a new one (docs/FORMATS.md, "Script")."""
