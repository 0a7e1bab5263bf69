"""A listing that is watched while it grows."""
