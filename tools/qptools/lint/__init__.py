"""What a system that the program takes may have got wrong all the same."""
