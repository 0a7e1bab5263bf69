"""Checkers of evidence, of LRAT proofs and of journals, which share nothing with gmus."""
