"""Sessions of whiteboard hosts in virtual time, over a network that is worked out and not waited for."""
