"""The cases of tests/host."""
