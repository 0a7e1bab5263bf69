"""Debian packages: their versions, and indices, packed or not."""
