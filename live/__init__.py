"""A live board: a session of wb held by people, in a browser or a terminal, each with a proved host as a child process."""
