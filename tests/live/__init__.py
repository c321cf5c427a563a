"""Tests of the live board, over its ports on 127.0.0.1 alone."""
