"""Attacks on members of the live board."""
