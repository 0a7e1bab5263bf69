"""SMT-LIB 2: its text, and its terms as formulas."""
