#!/usr/bin/env python3
"""An independent model of free steps, by moving items through queues, and the cases that it works out.

    tools/forecast_cases.py    prints what the program forecast_cases has to print

Each channel holds a number of items: 1 at first if it comes from a block, and none if it comes from a relay station. A module is
ready if every channel to it has an item and every channel from it has at most as many items as its queue size. In a free step all
modules that are ready fire at once: each takes an item from every channel to it, and puts one into every channel from it.
"""
LIMIT = 1_000_000
AMPLE = 67


class Netlist:
    """Modules 1 to `modules`, the first of them blocks and the others relay stations, and channels (source, sink)."""

    def __init__(self, modules, blocks, channels):
        self.modules, self.blocks, self.channels = modules, blocks, channels

    def ready(self, items, sizing):
        """The modules that no channel holds up."""
        held_up = {sink for (_, sink), k in zip(self.channels, items) if k == 0}
        held_up |= {source for (source, _), k, q in zip(self.channels, items, sizing) if k > q}
        return set(range(1, self.modules + 1)) - held_up

    def firings(self, sizing, steps):
        """The counts after so many free steps. Once the items are as they were before, whole turns are counted at once."""
        items = tuple(1 if source <= self.blocks else 0 for source, _ in self.channels)
        counts, at, seen = [0] * self.modules, 0, {}
        while at < steps:
            if items in seen:
                before, then = seen[items]
                turns, more = divmod(steps - at, at - before)
                rest = self.firings_from(items, sizing, more)
                return [c + turns * (c - b) + r for c, b, r in zip(counts, then, rest)]
            seen[items] = at, counts
            fired = self.ready(items, sizing)
            items = self.moved(items, fired)
            counts = [count + (v in fired) for v, count in enumerate(counts, 1)]
            at += 1
        return counts

    def firings_from(self, items, sizing, steps):
        counts = [0] * self.modules
        for _ in range(steps):
            fired = self.ready(items, sizing)
            items = self.moved(items, fired)
            counts = [count + (v in fired) for v, count in enumerate(counts, 1)]
        return counts

    def moved(self, items, fired):
        return tuple(k + (source in fired) - (sink in fired) for (source, sink), k in zip(self.channels, items))


def refusal(netlist, sizing, steps, room):
    if len(sizing) != len(netlist.channels):
        return 9, 0
    for channel, size in enumerate(sizing, 1):
        if not 1 <= size <= 16:
            return 9, channel
    if steps > LIMIT:
        return 15, 0
    if room < netlist.modules:
        return 16, netlist.modules
    return None


def verdict(netlist, sizing, steps, room):
    refused = refusal(netlist, sizing, steps, room)
    if refused:
        return "refused {} at {}, list kept".format(*refused)
    return f"firings {' '.join(map(str, netlist.firings(sizing, steps)))}, rest kept"


def pairs(text):
    """Channels from a text such as '1-2 2-3'."""
    return [tuple(map(int, channel.split("-"))) for channel in text.split()]


TRIANGLE = Netlist(3, 2, pairs("1-3 3-2 1-2"))
DIAMOND = Netlist(4, 3, pairs("1-2 2-3 1-4 4-3"))
RING = [(k, k + 1) for k in range(1, 64)] + [(1 + k % 63, 1) for k in range(128)] + [(64, 1)]


def worked_by_hand():
    """What the diamond has produced before step 0 to 5, by hand: firings, and one more for a block."""
    rows = ["1 2 3 3 4 5", "1 2 2 3 4 5", "1 1 2 3 4 4", "0 1 2 3 3 4"]
    for v, row in enumerate(rows, 1):
        produced = [DIAMOND.firings([1] * 4, steps)[v - 1] + (v <= 3) for steps in range(6)]
        assert produced == list(map(int, row.split())), (v, produced)


def cases():
    for steps in range(11):
        yield "F", TRIANGLE, [1] * 3, steps, AMPLE
    for steps in range(11):
        yield "D", DIAMOND, [1] * 4, steps, AMPLE
    for steps in range(6):
        yield "D, more on 2 to 3", DIAMOND, [1, 2, 1, 1], steps, AMPLE
    yield "one block", Netlist(1, 1, []), [], LIMIT, 1
    yield "one block to itself", Netlist(1, 1, [(1, 1)]), [1], 9, 1
    yield "one channel", Netlist(2, 2, [(1, 2)]), [3], 5, 2
    yield "ring of 3", Netlist(3, 2, pairs("1-2 2-3 3-1")), [1] * 3, 100, AMPLE
    for blocks, steps in (31, 0), (31, 1), (31, 100), (63, 1000), (1, 20_000), (33, LIMIT):
        yield f"ring of 64, blocks to {blocks}", Netlist(64, blocks, RING), [16] * 192, steps, 64
    yield "one size less", DIAMOND, [1] * 3, 2, AMPLE
    yield "size 17", DIAMOND, [1, 17, 1, 1], 2, AMPLE
    yield "beyond the limit", DIAMOND, [1] * 4, LIMIT + 1, AMPLE
    yield "list of 3", DIAMOND, [1] * 4, 2, 3
    yield "list of 4", DIAMOND, [1] * 4, 2, 4
    yield "no list", DIAMOND, [1] * 4, 2, 0
    yield "no list, beyond the limit", DIAMOND, [1] * 4, 2**32 - 1, 0
    yield "all three", DIAMOND, [1, 1, 1, 0], LIMIT + 1, 3
    yield "full, list of 63", Netlist(64, 31, RING), [16] * 192, 1, 63


if __name__ == "__main__":
    worked_by_hand()
    for label, netlist, sizing, steps, room in cases():
        print(f"{label}, {steps} steps: {verdict(netlist, sizing, steps, room)}")
