#!/usr/bin/env python3
"""An independent model of sizings, from the rules of candidates and rates, and the cases that it works out.

    tools/sizing_cases.py    prints what the program sizing_cases has to print

A candidate has each queue from its present byte to its cap, and at most M added slots in all. It reaches the target A/B if no cycle has
a mean below it. Only the places of even number gain tokens from deeper queues, one for each slot of their channel. So a cycle that
passes no place twice and lacks some tokens asks for so many slots in all at the channels of its even places, and a sizing reaches the
target exactly if it does what every such cycle asks. The model collects what cycles ask, looks for the fewest slots that do all of that,
and collects again while the sizing found still has a slow cycle: then the fewest that do what some cycles ask do what all ask.
"""
from fractions import Fraction
from itertools import combinations, combinations_with_replacement

from rating_cases import CHAIN, DIAMOND, Netlist, RING, TEN, least_mean, pairs, sizes


def rate(netlist, sizing):
    mean = least_mean(netlist.modules, netlist.places(sizing))
    return min(Fraction(1), Fraction(1) if mean is None else mean)


def slow_cycle(netlist, sizing, a, b):
    """The indices of the places of a cycle whose sum of b * tokens - a is below 0, which passes no module twice, by Bellman and Ford."""
    places = netlist.places(sizing)
    values, last = [0] * (netlist.modules + 1), [None] * (netlist.modules + 1)
    fallen = None
    for _ in range(netlist.modules):
        fallen = None
        for index, (start, end, tokens) in enumerate(places):
            if values[start] + b * tokens - a < values[end]:
                values[end], last[end], fallen = values[start] + b * tokens - a, index, end
    if fallen is None:
        return None
    for _ in range(netlist.modules):  # back onto the cycle
        fallen = places[last[fallen]][0]
    cycle, at = [], fallen
    while not cycle or at != fallen:
        cycle.append(last[at])
        at = places[last[at]][0]
    assert sum(b * places[index][2] - a for index in cycle) < 0
    assert len({places[index][0] for index in cycle}) == len(cycle)
    return cycle


def fewest(asked, rooms, most):
    """The slots by channel that give each set of channels what is asked of it, with the fewest slots in all, or None."""

    def open_parts(slots):
        return [(channels, missing) for channels, lack in asked if (missing := lack - sum(slots.get(e, 0) for e in channels)) > 0]

    def fill(slots, left):
        parts = open_parts(slots)
        if not parts:
            return slots
        apart, seen = 0, set()
        for channels, missing in parts:  # sets without a channel in common want slots of their own
            if not seen & channels:
                apart, seen = apart + missing, seen | channels
        if apart > left:
            return None
        for e in sorted(parts[0][0]):
            if slots.get(e, 0) < rooms[e]:
                found = fill({**slots, e: slots.get(e, 0) + 1}, left - 1)
                if found is not None:
                    return found
        return None

    return next((found for slots in range(most + 1) if (found := fill({}, slots)) is not None), None)


def best(netlist, target, caps, most, sizing):
    """The slots by channel index of a candidate that reaches the target with the fewest, or None."""
    a, b = target
    rooms = [cap - size for cap, size in zip(caps, sizing)]
    asked, present = [], netlist.places(sizing)
    while True:
        slots = fewest(asked, rooms, most)
        if slots is None:
            return None
        deeper = [size + slots.get(e, 0) for e, size in enumerate(sizing)]
        cycle = slow_cycle(netlist, deeper, a, b)
        if cycle is None:
            assert rate(netlist, deeper) >= Fraction(a, b)
            return slots
        lack = Fraction(a * len(cycle), b) - sum(present[index][2] for index in cycle)
        asked.append(({index // 2 for index in cycle if index % 2 == 1}, -(-lack.numerator // lack.denominator)))


def best_by_trying(netlist, target, caps, most, sizing):
    """The same number by trying every candidate."""
    for count in range(most + 1):
        for added in combinations_with_replacement(range(len(sizing)), count):
            deeper = [size + added.count(e) for e, size in enumerate(sizing)]
            if all(size <= cap for size, cap in zip(deeper, caps)) and rate(netlist, deeper) >= Fraction(*target):
                return count
    return None


def only(netlist, target, caps, most, sizing, slots):
    """Whether no other candidate does with so few: with any of these queues a slot less deep it takes more."""
    for e, count in slots.items():
        lower = [sizing[e] + count - 1 if k == e else cap for k, cap in enumerate(caps)]
        if best(netlist, target, lower, sum(slots.values()), sizing) is not None:
            return False
    return True


def refusal(netlist, target, caps, most, sizing):
    a, b = target
    if not (1 <= b <= 64 and 1 <= a <= b):
        return 8, 0
    if len(sizing) != len(netlist.channels):
        return 9, 0
    for channel, size in enumerate(sizing, 1):
        if not 1 <= size <= 16:
            return 9, channel
    if len(caps) != len(netlist.channels):
        return 9, 0
    for channel, (size, cap) in enumerate(zip(sizing, caps), 1):
        if not size <= cap <= 16:
            return 9, channel
    return (10, 0) if most > 8 else None


def verdict(netlist, target, caps, most, sizing):
    """What is printed: where the candidate is the only one with so few slots, the queues that become deeper too."""
    refused = refusal(netlist, target, caps, most, sizing)
    if refused:
        return "refused {} at {}, table kept".format(*refused)
    slots = best(netlist, target, caps, most, sizing)
    count = None if slots is None else sum(slots.values())
    if len(sizing) <= 4 or len(sizing) <= 10 and count is not None and count <= 2:
        assert count == best_by_trying(netlist, target, caps, most, sizing)
    if slots is None:
        return "refused 11 at 0, table kept"
    return f"added {count}, table holds"


def deeper(netlist, target, caps, most, sizing):
    """The queues that become deeper, where that is not open."""
    slots = best(netlist, target, caps, most, sizing)
    assert only(netlist, target, caps, most, sizing, slots)
    return "".join(f", channel {e + 1} by {count}" for e, count in sorted(slots.items()))


class Draft:
    """A netlist that is drawn up module by module."""

    def __init__(self):
        self.modules, self.blocks, self.channels = 0, set(), []

    def run(self, start, block, count):
        """So many modules one after another, from a module on; the number of the last."""
        for _ in range(count):
            self.modules += 1
            if block:
                self.blocks.add(self.modules)
            if start:
                self.channels.append((start, self.modules))
            start = self.modules
        return start

    def way(self, start, block, count, end):
        self.channels.append((self.run(start, block, count), end))

    def netlist(self):
        return Netlist(self.modules, self.blocks, self.channels)


def reconvergent(count, blocks, relays):
    """Pairs of ways one after another, one of each through blocks and one through relay stations."""
    draft = Draft()
    at = draft.run(None, True, 1)
    for _ in range(count):
        end = draft.run(None, True, 1)
        draft.way(at, True, blocks, end)
        draft.way(at, False, relays, end)
        at = end
    return draft.netlist()


PETERSEN = [(v, (v + 1) % 5) for v in range(5)] + [(v, v + 5) for v in range(5)] + [(5 + v, 5 + (v + 2) % 5) for v in range(5)]


def cover(vertices, edges):
    """A channel for each vertex, two ways through a relay station for each edge, and a ring of the rate 5/6: for that rate each edge
    asks for a slot at one of its two vertices."""
    draft, ends = Draft(), []
    for _ in range(vertices):
        source = draft.run(None, True, 1)
        ends.append((source, draft.run(source, True, 1)))
    for u, v in edges:
        draft.way(ends[u][0], False, 1, ends[v][1])
        draft.way(ends[v][0], False, 1, ends[u][1])
    first = draft.run(None, True, 1)
    last = draft.run(first, True, 4)
    draft.way(last, False, 1, first)
    draft.channels.append((first, ends[0][0]))
    return draft.netlist()


def least_cover(vertices, edges):
    """The fewest vertices such that each edge has one, by trying every set."""
    return next(count for count in range(vertices + 1) for some in combinations(range(vertices), count)
                if all(u in some or v in some for u, v in edges))


ALONE = Netlist(1, 1, [])
ROUND = Netlist(3, 2, pairs("1-2 2-3 3-1"))


def flat(netlist, size):
    return [size] * len(netlist.channels)


def diamond():
    for most in (1, 0, 8):
        yield f"D, at most {most}", DIAMOND, (1, 1), [2] * 4, most, [1] * 4
    yield "D, caps as present, 3/4", DIAMOND, (3, 4), [1] * 4, 8, [1] * 4
    yield "D, caps as present, 1/1", DIAMOND, (1, 1), [1] * 4, 8, [1] * 4
    yield "D, other caps as present", DIAMOND, (1, 1), [1, 2, 1, 1], 8, [1] * 4
    yield "D, 1/64", DIAMOND, (1, 64), [16] * 4, 8, [1] * 4
    yield "D, 64/64", DIAMOND, (64, 64), [16] * 4, 8, [1] * 4


def refusals():
    for target in ((0, 1), (1, 0), (0, 0), (2, 1), (1, 65), (65, 65), (4294967295, 4294967295)):
        yield "target {}/{}".format(*target), DIAMOND, target, [2] * 4, 1, [1] * 4
    yield "target 2/1, all else wrong", DIAMOND, (2, 1), [], 9, [0, 17]
    yield "3 sizes", DIAMOND, (1, 1), [2] * 4, 1, [1] * 3
    yield "5 sizes, one of them 0", DIAMOND, (1, 1), [2] * 5, 1, [0] + [1] * 4
    yield "size 0, caps and allowance wrong", DIAMOND, (1, 1), [0] * 5, 9, [1, 1, 0, 1]
    yield "size 17, then size 0", DIAMOND, (1, 1), [16] * 4, 1, [1, 17, 0, 1]
    yield "3 caps", DIAMOND, (1, 1), [2] * 3, 1, [1] * 4
    yield "5 caps, one of them 17", DIAMOND, (1, 1), [17] + [2] * 4, 1, [1] * 4
    yield "cap 17", DIAMOND, (1, 1), [16, 16, 16, 17], 1, [1] * 4
    yield "cap below the size", DIAMOND, (1, 1), [2, 1, 2, 0], 9, [2] * 4
    yield "at most 9", DIAMOND, (1, 1), [2] * 4, 9, [1] * 4
    yield "at most 18446744073709551615", DIAMOND, (1, 1), [1] * 4, 18446744073709551615, [1] * 4


def small():
    for target in ((2, 3), (3, 4)):
        yield "ring of 3, {}/{}".format(*target), ROUND, target, [16] * 3, 8, [1] * 3
    yield "one block", ALONE, (1, 1), [], 0, []
    yield "a size without channels", ALONE, (1, 1), [], 0, [1]
    yield "a cap without channels", ALONE, (1, 1), [1], 0, []
    present = sizes(TEN, 1, c3_4=2)
    for target in ((3, 5), (3, 4), (4, 5)):
        yield "ten channels, {}/{}".format(*target), TEN, target, [16] * 10, 8, present
    yield "ten channels, caps as present", TEN, (3, 4), present, 8, present


def tables():
    last = flat(CHAIN, 16)[:-1] + [1]
    yield "chain, queue 1 at the end", CHAIN, (1, 1), [16] * 192, 8, last
    yield "chain, queue 1 at the end, at most 1", CHAIN, (1, 1), [16] * 192, 1, last
    for most in (8, 7):
        yield f"chain of queues 1, at most {most}", CHAIN, (1, 1), [16] * 192, most, [1] * 192
    for blocks, target in ((1, (1, 64)), (1, (1, 63)), (63, (63, 64))):
        yield "ring of 64, blocks to {}, {}/{}".format(blocks, *target), Netlist(64, blocks, RING), target, [16] * 192, 8, [16] * 192
    ring, lower = Netlist(64, 31, RING), [16] * 93 + [14] + [16] * 98
    yield "ring of 64, queue 14", ring, (31, 64), [16] * 192, 8, lower
    yield "ring of 64, queue 14, at most 1", ring, (31, 64), [16] * 192, 1, lower
    yield "ring of 64, last cap 15", ring, (31, 64), [16] * 191 + [15], 8, [16] * 192


def chains():
    for count, blocks, relays in ((4, 10, 3), (7, 6, 2), (9, 5, 1), (2, 10, 3), (4, 6, 2), (8, 5, 1)):
        netlist = reconvergent(count, blocks, relays)
        case = netlist, (1, 1), flat(netlist, 16), 8, flat(netlist, 1)
        slots = best(*case)
        assert slots is None and count * relays > 8 or sum(slots.values()) == count * relays
        yield f"{count} pairs of {blocks} blocks and {relays} relay stations", *case


def covers():
    netlist = cover(10, PETERSEN)
    assert least_cover(10, PETERSEN) == sum(best(netlist, (5, 6), flat(netlist, 16), 8, flat(netlist, 1)).values()) == 6
    for most, cap in ((8, 16), (6, 2), (5, 16)):
        yield f"Petersen, at most {most}, cap {cap}", netlist, (5, 6), flat(netlist, cap), most, flat(netlist, 1)
    yield "Petersen, 1/1", netlist, (1, 1), flat(netlist, 16), 8, flat(netlist, 1)


# Cases whose answer is the only one with so few slots.
SETTLED = "ten channels, 3/4", "D, other caps as present", "chain, queue 1 at the end", "chain of queues 1, at most 8", "ring of 64, queue 14"

if __name__ == "__main__":
    for cases in diamond, refusals, small, tables, chains, covers:
        for label, *case in cases():
            print(f"{label}: {verdict(*case)}{deeper(*case) if label in SETTLED else ''}")
