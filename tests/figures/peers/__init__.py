"""wb beside what people would pick in its place: Yjs for what a member does with drawings that come in, and NORM for what is lost on the way.

docs/PEERS.md has the method, and what of it is unfair to whom. Yjs and NORM are Debian's. If one is not installed, a line says so, and it
is left out. All datagrams go to 127.0.0.1.
"""
