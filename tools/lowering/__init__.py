"""Rewrites assembly of a C compiler into the instructions of docs/INSTRUCTIONS.md."""
