#!/usr/bin/env python3
"""An independent model of ratings, by brute force from the rules of places, cycles and potentials, and the cases that it works out.

    tools/rating_cases.py    prints what the program rating_cases has to print

A channel e of queue size q from a to b gives two places: 2e - 1 from a to b, with 1 token if a is a block and 0 otherwise, and 2e from
b to a, with q + 1 tokens less those of place 2e - 1. The rate is the least of 1 and the means (tokens over places) of all cycles. The
potential of a module at the rate P/L is the least of 0 and the sums of L * tokens - P over all walks that end there.
"""
from fractions import Fraction

SAMPLE = bytes.fromhex("00 03 00 01 41 00 01 42 01 02 72 73 00 03 01 03 03 02 01 02 00 03 01 01 01")
AMPLE = (66, 67)


class Netlist:
    """Modules 1 to `modules` and channels (source, sink). `blocks` are the numbers of the blocks, or how many of the first modules
    are blocks; the others are relay stations."""

    def __init__(self, modules, blocks, channels):
        self.modules, self.channels = modules, channels
        self.blocks = set(range(1, blocks + 1)) if isinstance(blocks, int) else set(blocks)
        assert self.blocks and self.blocks <= set(range(1, modules + 1)) and modules <= 64 and len(channels) <= 192
        assert all(1 <= end <= modules for channel in channels for end in channel)
        self.check()

    def check(self):
        """A netlist that would be refused before it is rated is no case."""
        relays = set(range(1, self.modules + 1)) - self.blocks
        for relay in relays:
            assert [sink for _, sink in self.channels].count(relay) == 1
            assert any(source == relay for source, _ in self.channels)
        joined = {1}
        for _ in range(self.modules):
            joined |= {end for channel in self.channels if joined & set(channel) for end in channel}
        assert len(joined) == self.modules
        bare = relays
        while bare:  # takes away the relay stations that no other of them feeds; on a ring none would go
            fed = {sink for source, sink in self.channels if source in bare} & bare
            assert fed != bare
            bare = fed

    def places(self, sizing):
        """The places in the order of their numbers, each (from, to, tokens)."""
        places = []
        for (source, sink), size in zip(self.channels, sizing):
            items = 1 if source in self.blocks else 0
            places += [(source, sink, items), (sink, source, size + 1 - items)]
        return places


def least_mean(modules, places):
    """The least mean of all cycles by Karp's theorem, or None without a cycle. least[k][v] is the fewest tokens on a walk of k
    places that ends at v, from anywhere."""
    none = float("inf")
    least = [[0] * (modules + 1)]
    for _ in range(modules):
        row = [none] * (modules + 1)
        for start, end, tokens in places:
            row[end] = min(row[end], least[-1][start] + tokens)
        least.append(row)
    means = []
    for v in range(1, modules + 1):
        if least[modules][v] != none:
            known = [k for k in range(modules) if least[k][v] != none]
            means.append(max(Fraction(least[modules][v] - least[k][v], modules - k) for k in known))
    return min(means, default=None)


def simple_walks(places, start, low):
    """All walks from a module along modules from `low` on that pass none twice, but that may end at the first: (end, tokens, length)."""

    def go(at, tokens, length, passed):
        for begin, end, more in places:
            if begin == at and (end == start or end >= low and end not in passed):
                yield end, tokens + more, length + 1
                if end != start:
                    yield from go(end, tokens + more, length + 1, passed | {end})

    return go(start, 0, 0, {start})


def least_mean_by_listing(modules, places):
    """The same by listing every cycle that passes no module twice, from its lowest module; all others are made of these."""
    return min((Fraction(tokens, length) for start in range(1, modules + 1)
                for end, tokens, length in simple_walks(places, start, start) if end == start), default=None)


def potentials(modules, places, rate):
    """By Bellman and Ford: rounds of single places until nothing falls, which is soon, as no cycle is below the rate."""
    p, l = rate.numerator, rate.denominator
    values = [0] * (modules + 1)
    for _ in range(modules):
        for start, end, tokens in places:
            values[end] = min(values[end], values[start] + l * tokens - p)
    assert all(values[end] <= values[start] + l * tokens - p for start, end, tokens in places)
    return values[1:]


def potentials_by_listing(modules, places, rate):
    """The same by listing every walk that passes no module twice."""
    values = [0] * (modules + 1)
    for start in range(1, modules + 1):
        for end, tokens, length in simple_walks(places, start, 1):
            values[end] = min(values[end], rate.denominator * tokens - rate.numerator * length)
    return values[1:]


def refusal(netlist, sizing, rooms):
    if len(sizing) != len(netlist.channels):
        return 9, 0
    for channel, size in enumerate(sizing, 1):
        if not 1 <= size <= 16:
            return 9, channel
    if min(rooms) < netlist.modules:
        return 16, netlist.modules
    return None


def verdict(netlist, sizing, rooms):
    refused = refusal(netlist, sizing, rooms)
    if refused:
        return "refused {} at {}, lists kept".format(*refused)
    modules, places = netlist.modules, netlist.places(sizing)
    mean = least_mean(modules, places)
    rate = min(Fraction(1), Fraction(1) if mean is None else mean)
    values = potentials(modules, places, rate)
    if modules < 20:
        assert mean == least_mean_by_listing(modules, places)
        assert values == potentials_by_listing(modules, places, rate)
    cycle = "no cycle" if rate == 1 else "cycle holds"
    return f"rate {rate.numerator}/{rate.denominator}, {cycle}, potentials {' '.join(map(str, values))}, rest kept"


def sample():
    """The modules, channels and sizes of the sample file."""
    at, kinds = 2, []
    for _ in range(SAMPLE[1]):
        kinds.append(SAMPLE[at])
        at += 2 + SAMPLE[at + 1]
    assert kinds == sorted(kinds)
    count = SAMPLE[at + 1]
    ends = SAMPLE[at + 2:at + 2 + 2 * count]
    return Netlist(len(kinds), kinds.count(0), list(zip(ends[::2], ends[1::2]))), list(SAMPLE[-count:])


def pairs(text):
    """Channels from a text such as '1-2 2-3'."""
    return [tuple(map(int, channel.split("-"))) for channel in text.split()]


DIAMOND = Netlist(4, 3, pairs("1-2 2-3 1-4 4-3"))
TEN = Netlist(8, 5, pairs("1-7 7-6 6-4 1-2 2-4 2-3 4-5 5-8 8-3 3-4"))
VIDEO = Netlist(17, 15, pairs("1-2 2-17 17-3 3-4 4-5 5-6 6-7 7-8 8-9 9-16 16-11 9-10 11-10 10-8 10-3 "
                              "11-12 12-13 13-14 14-15 15-5 2-11"))
CHAIN = Netlist(64, 62, [(1 + k % 61, 2 + k % 61) for k in range(188)] + pairs("61-63 63-64 64-62 61-62"))
RING = [(k, k + 1) for k in range(1, 64)] + [(1 + k % 63, 1) for k in range(128)] + [(64, 1)]


def sizes(netlist, size, **changes):
    """The same size for all channels, but for those that are named, as c1_2 for the channel from 1 to 2."""
    named = {tuple(map(int, name[1:].split("_"))): value for name, value in changes.items()}
    return [named.get(channel, size) for channel in netlist.channels]


def examples():
    yield ("F", *sample(), AMPLE)
    yield "one channel", Netlist(2, 2, [(1, 2)]), [3], AMPLE
    yield "one block", Netlist(1, 1, []), [], AMPLE
    yield "one block to itself", Netlist(1, 1, [(1, 1)]), [1], AMPLE
    yield "ring of 3", Netlist(3, 2, pairs("1-2 2-3 3-1")), [1] * 3, AMPLE
    yield "D", DIAMOND, [1] * 4, AMPLE
    yield "ten channels", TEN, sizes(TEN, 1, c3_4=2), AMPLE
    yield "ten channels, more on 1 to 2", TEN, sizes(TEN, 1, c3_4=2, c1_2=2), AMPLE
    yield "video decoder", VIDEO, sizes(VIDEO, 1), AMPLE
    yield "video decoder, more on 10 to 3", VIDEO, sizes(VIDEO, 1, c10_3=2), AMPLE
    yield "video decoder, more on 9 to 10", VIDEO, sizes(VIDEO, 1, c10_3=2, c9_10=2), AMPLE


def tables():
    for last in (1, 2, 3, 16):
        yield f"chain, queue {last} at the end", CHAIN, [16] * 191 + [last], AMPLE
    for blocks, size in ((1, 16), (31, 16), (31, 15), (33, 16), (63, 16)):
        sizing = [16] * 93 + [size] + [16] * 98
        yield f"ring of 64, blocks to {blocks}, queue {size}", Netlist(64, blocks, RING), sizing, (64, 64)


def refusals():
    yield "one size less", DIAMOND, [1] * 3, AMPLE
    yield "one size more", DIAMOND, [1] * 5, AMPLE
    yield "no sizes", DIAMOND, [], AMPLE
    yield "one size more, and a size 0", DIAMOND, [1, 0, 1, 1, 1], AMPLE
    yield "size 0", DIAMOND, [0, 1, 1, 1], AMPLE
    yield "size 17, then size 0", DIAMOND, [1, 17, 0, 1], AMPLE
    yield "size 255", DIAMOND, [16, 16, 16, 255], AMPLE
    for rooms in ((4, 4), (3, 4), (4, 3), (0, 0), (3, 67), (66, 3)):
        yield "lists of {} and {}".format(*rooms), DIAMOND, [1] * 4, rooms
    yield "no lists, and a size 0", DIAMOND, [1, 1, 1, 0], (0, 0)
    yield "no lists, and one size less", DIAMOND, [1] * 3, (0, 0)
    ring = Netlist(64, 31, RING)
    for last, *rooms in ((17, 64, 64), (0, 63, 63), (16, 63, 64), (16, 64, 63)):
        yield "last size {}, lists of {} and {}".format(last, *rooms), ring, [16] * 191 + [last], rooms
    yield "191 sizes", ring, [16] * 191, AMPLE
    yield "193 sizes", ring, [16] * 193, AMPLE


if __name__ == "__main__":
    for cases in examples, tables, refusals:
        for label, netlist, sizing, rooms in cases():
            print(f"{label}: {verdict(netlist, sizing, rooms)}")
