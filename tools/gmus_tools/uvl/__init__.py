"""Feature models in UVL."""
