"""Every order of a system, searched state by state: small, slow, and written apart from the program."""
