"""All records that were believed, each once. They are only added, in the order in which they came, so what a machine was told is a
front part of them."""
import re

from gmus_tools.spreading.conflicts import Conflicts
from gmus_tools.spreading.records import CONFLICT, CORRECTION, head_of, name_in, with_references

SET = re.compile(rb"([um])((?: [0-9]+)*) 0")


class Found:
    """The records: `texts` in their order, in version 2."""

    def __init__(self, sizes):
        self.sizes, self.texts, self.names = sizes, [], set()
        self.conflicts, self.numbers = Conflicts(), []

    def __len__(self):
        return len(self.texts)

    def counts(self):
        """How many conflicts and how many corrections."""
        return self.conflicts.count, len(self.texts) - self.conflicts.count

    def add(self, texts):
        """Adds the records that are new, and tells how many these were. References are to the others of these texts or to
        records that are there."""
        before = len(self)
        for text in texts:
            name = name_in(text)
            if name not in self.names:
                self.names.add(name)
                self.add_one(text)
        return len(self) - before

    def add_one(self, text):
        kind, groups = head_of(text)
        if kind == CONFLICT:
            self.texts.append(text)
            self.conflicts.add(groups)
            self.numbers.append(len(self.texts))
        else:
            numbers = [None if at is None else self.numbers[at] for at in self.conflicts.serving(groups)]
            self.texts.append(with_references(text, groups, numbers))

    def report(self):
        """The report of the sets, as a partial one."""
        sets = {CONFLICT: [], CORRECTION: []}
        for name in self.names:
            kind, groups = SET.fullmatch(name).groups()
            sets[kind].append(list(map(int, groups.split())))
        lines = [f"p gmus {self.sizes.groups}", "s PARTIAL"]
        for kind in sets:
            lines += [" ".join(map(str, [kind.decode(), *groups, 0])) for groups in sorted(sets[kind])]
        return "\n".join([*lines, f"e {len(sets[CONFLICT])} {len(sets[CORRECTION])}", ""])
