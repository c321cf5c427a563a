"""What moves datagrams between members: `carrier.py` says what a carrier is, `opening.py` opens the one that the words ask for."""
