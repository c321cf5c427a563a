"""A codec and a painter that were written from docs/PROTOCOL.md alone, and what compares them with the program."""
