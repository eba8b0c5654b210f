"""A reference for what the programs of this repository answer, in plain Python: see README.md."""
