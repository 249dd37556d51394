"""Many runs of one script with other values in it: the grid, the engine that spreads the runs, and what is measured."""
