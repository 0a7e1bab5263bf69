"""Plain programs that gmus and its tools are compared with. They are slow, and share nothing with gmus."""
