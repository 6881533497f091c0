"""Plain models of the programs. The tests compare the programs with them."""
