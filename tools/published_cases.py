#!/usr/bin/env python3
"""What the published netlists, full tables and each refusal come to, by the models of the other tools/*_cases.py and by the rules.

    tools/published_cases.py    prints what the program published_cases has to print

The means of the five named cycles and the rates of the video decoder are those of the publications; the models are held against them.
"""
from fractions import Fraction
from itertools import combinations_with_replacement
from math import gcd
from random import Random

import forecast_cases
from rating_cases import Netlist, SAMPLE, TEN, VIDEO, least_mean, pairs, potentials, sample, sizes
from sizing_cases import best, rate, refusal

CYCLES = [("C1", "1 7 6 4 2 1", "3/5"), ("C2", "1 7 6 4 5 8 3 2 1", "5/8"), ("C3", "4 5 8 3 4", "3/4"), ("C4", "4 5 8 3 2 4", "4/5"),
          ("C5", "1 7 6 4 3 2 1", "5/6")]


def slow_cycles(modules, places, mean):
    """The place numbers of all cycles of a mean that pass no module twice, each from its lowest module."""

    def go(start, at, walk, passed):
        for number, (begin, end, _) in enumerate(places, 1):
            if begin == at and end == start:
                yield walk + [number]
            elif begin == at and end > start and end not in passed:
                yield from go(start, end, walk + [number], passed | {end})

    for start in range(1, modules + 1):
        for walk in go(start, start, [], {start}):
            if Fraction(sum(places[number - 1][2] for number in walk), len(walk)) == mean:
                yield walk


def names():
    """The names in the sample file."""
    at = 2
    for _ in range(SAMPLE[1]):
        yield SAMPLE[at + 2:at + 2 + SAMPLE[at + 1]].decode()
        at += 2 + SAMPLE[at + 1]


def rating_lines():
    netlist, sizing = sample()
    places = netlist.places(sizing)
    mean = least_mean(netlist.modules, places)
    walk, = slow_cycles(netlist.modules, places, mean)  # one alone, so that it is the one shown
    yield f"rate {mean.numerator}/{mean.denominator}"
    yield "places " + " ".join(map(str, walk))
    for number, (name, value) in enumerate(zip(names(), potentials(netlist.modules, places, mean)), 1):
        yield f"module {number} {name} {value}"


def cycles():
    places = TEN.places(sizes(TEN, 1, c3_4=2))
    for label, walk, mean in CYCLES:
        walk = list(map(int, walk.split()))
        tokens = 0
        for step in zip(walk, walk[1:]):
            (there,) = [tokens for *ends, tokens in places if tuple(ends) == step]
            tokens += there
        assert Fraction(tokens, len(walk) - 1) == Fraction(mean) and walk[0] == walk[-1]
        yield f"{label}: {tokens} tokens on {len(walk) - 1} places, mean {mean}"
    assert least_mean(TEN.modules, places) == min(Fraction(mean) for *_, mean in CYCLES)


def smallest(target, caps, most):
    """All sizings of the video decoder that reach the target with the fewest slots, by trying every one."""
    for count in range(most + 1):
        found = []
        for added in combinations_with_replacement(range(21), count):
            table = [1 + added.count(e) for e in range(21)]
            if all(size <= cap for size, cap in zip(table, caps)) and rate(VIDEO, table) >= Fraction(*target):
                found.append(table)
        if found:
            return found
    return []


def sized(target, caps, most):
    slots = best(VIDEO, target, caps, most, [1] * 21)
    if slots is None:
        return "refused 11 at 0", []
    added = sum(slots.values())
    tables = smallest(target, caps, added)
    assert all(sum(table) == 21 + added for table in tables)
    (reached,) = {rate(VIDEO, table) for table in tables}  # of all of them, so that it is not open
    return f"added {added}, {21 + added} slots in all, rate {reached.numerator}/{reached.denominator}", tables


def video_decoder():
    caps = [3] * 21
    for a, b, most in ((5, 7, 8), (3, 4, 8), (4, 5, 8), (4, 5, 2), (3, 4, 0), (5, 6, 8)):
        yield f"video decoder, {a}/{b}, at most {most}: {sized((a, b), caps, most)[0]}"
    assert rate(VIDEO, sizes(VIDEO, 1)) == Fraction(5, 7)
    assert rate(VIDEO, sizes(VIDEO, 1, c10_3=2)) == Fraction(3, 4)
    published = sizes(VIDEO, 1, c10_3=2, c9_10=2)
    assert rate(VIDEO, published) == Fraction(4, 5)
    assert published in sized((4, 5), caps, 8)[1]
    text, tables = sized((4, 5), caps[:20] + [1], 8)
    assert tables == [published]
    yield f"video decoder, 4/5, 2 to 11 kept: {text}" + "".join(f", channel {e} has {q}" for e, q in enumerate(published, 1) if q > 1)


def family():
    """A line of blocks, relay stations on a way from its first block to its last, and the first link of the line as often as channels are
    left. A slow cycle goes along the relay stations and back along the line, so it lacks a token for each relay station for the rate 1, and
    a slot on any link but the first adds one. Which links are chosen is open, so the firings are worked out for many choices."""
    chooser = Random(1)
    for relays in 1, 4, 8, 9:
        blocks = 64 - relays
        line = [(v, v + 1) for v in range(1, blocks)]
        way = [1, *range(blocks + 1, 65), blocks]
        channels = line + list(zip(way, way[1:]))
        channels += [(1, 2)] * (192 - len(channels))
        netlist, model, ones = Netlist(64, blocks, channels), forecast_cases.Netlist(64, blocks, channels), [1] * 192
        assert rate(netlist, ones) == Fraction(blocks, 64)
        firings = model.firings(ones, 1000)
        slots = best(netlist, (1, 1), [2] * 192, 8, ones)
        assert slots is None and relays > 8 or sum(slots.values()) == relays
        label, rated = f"full table, relay stations {relays}", f"rate {blocks // gcd(blocks, 64)}/{64 // gcd(blocks, 64)}"
        text = f"{rated}, firings {firings[0]} and {firings[63]}"
        yield f"{label}: {text}"
        if slots is None:  # the table is as it was
            yield f"{label}, for 1/1: refused 11 at 0, then {text}"
            continue
        for links in [list(slots), *(chooser.sample(range(1, blocks - 1), relays) for _ in range(20))]:
            table = [1 + (e in links) for e in range(192)]
            firings = model.firings(table, 1000)
            assert rate(netlist, table) == 1 and (firings[0], firings[63]) == (1000, 1001 - relays)
        yield f"{label}, for 1/1: added {relays}, then rate 1/1, firings 1000 and {1001 - relays}"


def of_files():
    """By the layout: the sample has 25 bytes, its channel count is at 12, its first channel at 14, of modules that are to be 1 to 3."""
    assert len(SAMPLE) == 25 and SAMPLE[12:16] == bytes([0, 3, 1, 3])
    yield "F cut to 24 bytes", (1, 24)
    yield "F with 193 channels", (2, 12)
    yield "F with byte 14 set to 4", (3, 14)
    yield "F with a byte more", (4, 25)


def check_refusal(modules, blocks, channels):
    """By the rules of the check: number and lowest module."""
    relays = range(blocks + 1, modules + 1)
    for relay in relays:
        if [sink for _, sink in channels].count(relay) != 1 or all(source != relay for source, _ in channels):
            return 5, relay
    joined = {1}
    for _ in range(modules):
        joined |= {end for channel in channels if joined & set(channel) for end in channel}
    for module in range(1, modules + 1):
        if module not in joined:
            return 6, module
    for relay in relays:
        reached = {relay}
        for _ in range(modules):
            after = {sink for source, sink in channels if source in reached and source in relays and sink in relays}
            if relay in after:
                return 7, relay
            reached |= after
    return None


def of_checks():
    yield "a relay station without an output", check_refusal(3, 2, pairs("1-2 2-3"))
    yield "two blocks without a channel", check_refusal(2, 2, [])
    yield "a ring of relay stations", check_refusal(3, 1, pairs("2-3 3-2 2-1"))


def of_sizes():
    for label, target, caps, most in (("65/65", (65, 65), [3] * 21, 8), ("20 caps", (4, 5), [3] * 20, 8),
                                      ("last cap 17", (4, 5), [3] * 20 + [17], 8), ("at most 9", (4, 5), [3] * 21, 9),
                                      ("at most 1", (4, 5), [3] * 21, 1)):
        refused = refusal(VIDEO, target, caps, most, [1] * 21)
        if refused is None:
            assert best(VIDEO, target, caps, most, [1] * 21) is None
            refused = 11, 0
        yield f"video decoder, {label}", refused


def of_runs():
    """By the rules of runs: the sample has modules 1 to 3, channels 1 to 3, and q + 1 items for each channel, which are six."""
    netlist, sizing = sample()
    assert netlist.modules == len(netlist.channels) == 3
    items = sum(size + 1 for size in sizing)
    assert items == 6
    for label in "hold before prime", "step before prime", "front before prime", "a second prime":
        yield label, (12, 0)
    for label in "hold of module 4", "firings of module 0", "fill of channel 4", "front of channel 0":
        yield label, (13, 0)
    for label in "prime with 5 items", "step with 5 items", "front with no items":
        yield label, (14, items)


def of_limits():
    yield "video decoder, 1000001 steps", (15, 0)
    yield "F into 2 sizes", (16, len(sample()[0].channels))
    yield "video decoder, cycle of 16", (16, VIDEO.modules)
    yield "video decoder, firings of 16", (16, VIDEO.modules)


if __name__ == "__main__":
    for lines in rating_lines, cycles, video_decoder, family:
        print("\n".join(lines()))
    for cases in of_files, of_checks, of_sizes, of_runs, of_limits:
        for label, (number, place) in cases():
            print(f"{label}: refused {number} at {place}")
