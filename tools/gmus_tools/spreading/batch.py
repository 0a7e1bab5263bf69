"""Batches: the records that a task gives back, as evidence that can be judged by itself.

In a journal each refutation stands in full, for each group of each correction. In a batch a group names a conflict that
refutes it, wherever there is one: of the batch, or of those that the task was told, of which the batch then has the record too.
"""
from gmus_tools.spreading.conflicts import Conflicts
from gmus_tools.spreading.records import CONFLICT, Reference, Refutation, evidence_of, head_of, record_of, referring


class Known:
    """The conflicts that a task was told, with the texts of their records, which stay as they are. If the records of the batch
    are under other numbers, `groups` has those of the groups."""

    def __init__(self, texts=(), groups=None):
        self.texts, self.conflicts = [text for text in texts if text[:1] == CONFLICT], Conflicts()
        for text in self.texts:
            members = head_of(text)[1]
            self.conflicts.add(map(groups.__getitem__, members) if groups else members)

    def serving(self, correction):
        return [None if at is None else self.texts[at] for at in self.conflicts.serving(correction)]


class Batch:
    """The conflicts of a batch, the known ones that are needed behind them, and then the corrections."""

    def __init__(self, texts, known, back):
        self.known, self.conflicts, self.numbers, self.texts = known, Conflicts(), {}, []
        for text in texts:
            if text[:1] == CONFLICT:
                self.conflicts.add(head_of(text)[1])
                self.texts.append(back(record_of(text)).text())
        self.behind = [back(referring(text, self.serving(head_of(text)[1]))).text() for text in texts if text[:1] != CONFLICT]

    def serving(self, correction):
        """For each group of a correction, the number in the batch of a conflict that refutes it, or None."""
        both = zip(self.conflicts.serving(correction), self.known.serving(correction))
        return [own + 1 if own is not None else None if told is None else self.number(told) for own, told in both]

    def number(self, told):
        """The number of a known conflict in the batch."""
        if told not in self.numbers:
            self.texts.append(told)
            self.numbers[told] = len(self.texts)
        return self.numbers[told]


def batch_of(sizes, texts, known, back=lambda record: record):
    """The text of a batch with these records, each led `back` to the numbers of the problem. A reference among them is to what
    stands in the batch or is known."""
    batch = Batch(texts, known, back)
    return evidence_of(sizes, batch.texts + batch.behind)


class TooLong(Exception):
    """Records are longer in full than is wanted."""


def in_full(texts, most=None):
    """Records as a journal has them: in the place of each reference to an earlier conflict stands its refutation. If all are
    longer than `most` bytes, which they may be by far, nothing is made."""
    refuted, found, length = {}, [], 0
    for number, text in enumerate(texts, 1):
        record = record_of(text)
        length += len(text)
        if record.kind == CONFLICT:
            refuted[number] = record.refutations[0]
        else:
            record = record._replace(refutations=[
                Refutation(it.group, *refuted[it.number][1:]) if isinstance(it, Reference) else it for it in record.refutations])
            length += sum(len(it.steps) for it in record.refutations)
        if most is not None and length > most:
            raise TooLong
        found.append(record)
    return [record.text() for record in found]
