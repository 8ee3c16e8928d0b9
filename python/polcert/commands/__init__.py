"""The commands, one in each module: `main` returns the exit status."""
