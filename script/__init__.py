"""What the script `kiasan` says in words, and where it finds class files: Python of the standard library alone."""
