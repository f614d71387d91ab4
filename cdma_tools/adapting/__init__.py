"""Adapters for receivers that don't read standard input: by files and arguments of their own, or at a TCP port."""
