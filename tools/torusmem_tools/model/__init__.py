"""Models of the machine, of networks, of operations and of runs, and what judges by them."""
