#!/usr/bin/env python3
"""An independent reader of netlist files, written from docs/file-format.md, and the cases that it works out.

    tools/file_cases.py            prints what the program file_cases has to print
    tools/file_cases.py --random N compares the program given by RATE (a path) with this reader on N damaged files
"""
import os, random, subprocess, sys

SAMPLE = bytes.fromhex("000300014100014201027273000301030302010200030101 01".replace(" ", ""))


class Fault(Exception):
    pass


class Bytes:
    def __init__(self, data):
        self.data, self.at = data, 0

    def byte(self, low, high):
        if self.at >= len(self.data):
            raise Fault(1, len(self.data))
        value = self.data[self.at]
        if not low <= value <= high:
            raise Fault(3, self.at)
        self.at += 1
        return value

    def count(self, allowed):
        if self.at + 2 > len(self.data):
            raise Fault(1, len(self.data))
        value = self.data[self.at] * 256 + self.data[self.at + 1]
        if value not in allowed:
            raise Fault(2, self.at)
        self.at += 2
        return value


def read(data):
    """The modules, channels and sizes of a file, or a Fault."""
    source = Bytes(data)
    modules = []
    for _ in range(source.count(range(1, 65))):
        kind = source.byte(0, 1)
        length = source.byte(1, 16)
        modules.append((kind, bytes(source.byte(33, 126) for _ in range(length))))
    channels = []
    for _ in range(source.count(range(0, 193))):
        a = source.byte(1, len(modules))
        channels.append((a, source.byte(1, len(modules))))
    sizes = [source.byte(1, 16) for _ in range(source.count({0, len(channels)}))]
    if source.at < len(data):
        raise Fault(4, source.at)
    return modules, channels, sizes or [1] * len(channels)


def verdict(data):
    try:
        modules, channels, sizes = read(data)
        (kind, name), last = modules[-1], "no channel"
        if channels:
            last = "{} to {} queue {}".format(*channels[-1], sizes[-1])
        return f"{len(modules)} modules to {'block relay'.split()[kind]} {name.decode()}, {len(channels)} channels to {last}"
    except Fault as fault:
        return "refused {} at {}".format(*fault.args)


def full(modules=64, channels=192, sizing=192):
    """A file with so many of each; the full tables have 1,734 bytes."""
    out = bytearray([0, modules])
    for m in range(modules):
        out += bytes([m % 2, 16]) + bytes(33 + (m + k) % 94 for k in range(16))
    out += bytes([0, channels])
    for e in range(channels):
        out += bytes([1 + e % 64, 1 + (e + 1) % 64])
    out += bytes([0, sizing])
    out += bytes(1 + e % 16 for e in range(sizing))
    return bytes(out)


def cases():
    for length in range(len(SAMPLE) + 1):
        yield f"cut to {length}", SAMPLE[:length]
    yield "one byte more", SAMPLE + b"\0"
    for place in range(len(SAMPLE)):
        for value in (0, 1, 4, 64, 65, 127, 255):
            yield f"byte {place} set to {value}", SAMPLE[:place] + bytes([value]) + SAMPLE[place + 1:]
    yield "full tables", full()
    yield "full tables without sizes", full(sizing=0)
    yield "full tables and a byte", full() + b"\1"
    yield "65 modules", full(modules=65)
    yield "193 channels", full(channels=193)
    yield "191 sizes", full(sizing=191)
    yield "193 sizes", full(sizing=193)
    yield "256 sizes", full(sizing=0)[:-2] + b"\1\0"
    yield "no channel", full(channels=0, sizing=0)
    yield "a size without channels", full(channels=0, sizing=1)


if __name__ == "__main__":
    if "--random" in sys.argv:
        tries, bad = int(sys.argv[sys.argv.index("--random") + 1]), 0
        for seed in range(tries):
            rng = random.Random(seed)
            data = bytearray(rng.choice([SAMPLE, SAMPLE, full(rng.randint(1, 64), rng.randint(0, 192), 0)]))
            for _ in range(rng.randint(0, 3)):
                data[rng.randrange(len(data))] = rng.choice([0, 1, 2, 16, 17, 32, 33, 64, 65, 126, 127, 192, 193, 255])
            data = bytes(data[: rng.choice([len(data), rng.randint(0, len(data))])])
            got = subprocess.run([os.environ["RATE"]], input=data, capture_output=True).stdout.decode().split("\n")[0]
            want = verdict(data)
            if want.startswith("refused") != got.startswith("refused") or want.startswith("refused") and want != got:
                bad += 1
                print(data.hex(), "reader:", want, "program:", got)
        print(f"{tries} files, {bad} differ")
    else:
        for label, data in cases():
            print(f"{label}: {verdict(data)}")
        # a table shorter than the channels is refused after the file is judged, and a longer one keeps the rest
        print("table of 2: refused 16 at 3; kept [9, 9], 1 module")
        print("table of 0, cut to 24: refused 1 at 24; kept [], 1 module")
        print("table of 5: kept [1, 1, 1, 9, 9], 3 modules")
