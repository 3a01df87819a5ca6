"""How many words of store a program needs: the highest cell that a run by porting/python/intcode.py reads or writes."""
import os
import sys

sys.path.insert(0, os.path.join(os.path.dirname(os.path.abspath(__file__)), '..', 'python'))
import intcode      # noqa: E402


class Store(list):
    """A store that remembers its highest cell that was used."""

    highest = 0

    def __getitem__(self, at):
        self.highest = max(self.highest, at)
        return list.__getitem__(self, at)

    def __setitem__(self, at, word):
        self.highest = max(self.highest, at)
        list.__setitem__(self, at, word)


class Bytes:
    """An input, or an output, that is a list of bytes."""

    def __init__(self, content=b''):
        self.content, self.at, self.written = content, 0, bytearray()

    def read(self, _):
        self.at += 1
        return self.content[self.at - 1:self.at]

    def write(self, content):
        self.written += content

    def writable(self):
        return True

    def flush(self):
        pass


def machine_of(items, inputs, outputs):
    """A machine with these items, inputs (each a name and bytes) and names of outputs; its store counts from here on."""
    store, base = intcode.place(items)
    store = Store(store)
    store.highest = base
    tables = [[intcode.Stream(name, Bytes(content)) for name, content in inputs], [intcode.Stream(name, Bytes()) for name in outputs]]
    return intcode.Machine(store, base, intcode.Table(tables[0]), intcode.Table(tables[1]))


def end_of_segments(items):
    """The address after the last segment, whether or not it is one that a store has."""
    where = intcode.SEGMENTS
    for segment in intcode.segments_of(items):
        where = intcode.lay(segment, lambda item: 0 if item.is_label else item.number, where, lambda *_: None)
    return where


def items_of(texts):
    """The items of the primitives and of texts."""
    return [item for text in [intcode.PRIMITIVES] + texts for item in intcode.Reader(text).read_text()]


def words_needed(case):
    """The words of store that a case of porting/check needs. A case that doesn't run needs those of its segments."""
    try:
        items = items_of(case.texts)
    except intcode.Refusal:
        return 0
    words = end_of_segments(items)
    if case.ending is None:
        return min(words, 65536)
    named = [(name.encode('latin-1'), content) for name, content in [('SYSIN', case.input)] + case.inputs]
    machine = machine_of(items, named, [name.encode('latin-1') for name in ['SYSPRINT'] + case.outputs])
    try:
        for _ in range(case.steps):
            machine.step()
    except intcode.Ended:
        pass
    return machine.store.highest + 1
