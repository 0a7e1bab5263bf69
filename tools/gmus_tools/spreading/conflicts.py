"""Which conflict refutes which group of a correction.

A correction meets each conflict. One that it meets in a single group refutes that group: with it the conflict is whole again.
Which conflicts these are is found for all groups of a correction at once, by words of bits with a bit for each conflict.
"""


class Conflicts:
    """Conflicts in the order in which they are added, from place 0 on."""

    def __init__(self):
        self.count, self.having = 0, {}

    def add(self, groups):
        bit = 1 << self.count
        for group in groups:
            self.having[group] = self.having.get(group, 0) | bit
        self.count += 1

    def serving(self, correction):
        """For each group of a correction, the least place of a conflict that refutes it, or None."""
        all_having, once, more = [self.having.get(group, 0) for group in correction], 0, 0
        for having in all_having:
            more |= once & having
            once |= having
        alone = once & ~more
        # the place of the lowest bit that is set
        return [(bits & -bits).bit_length() - 1 if (bits := alone & having) else None for having in all_having]
