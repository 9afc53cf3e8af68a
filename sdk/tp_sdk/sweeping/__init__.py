"""Sweeps: an image run many times with other values in it, and what its domains tell of a secret then."""
