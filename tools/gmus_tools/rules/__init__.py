"""The language of rules, and the clauses that they become."""
