"""Scripts of calls and lines for the program, made from a seed."""
