"""Descriptions of the crates, made from the repository's own files."""
