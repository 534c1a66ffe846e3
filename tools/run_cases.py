#!/usr/bin/env python3
"""An independent model of runs, and the cases that it works out.

    tools/run_cases.py    prints what the program run_cases has to print

Nothing is queued here. Firings are counted: a channel's fill is its source's firings, plus 1 if that is a block, less its sink's, and a
step fires each module that is not marked and has an item in each channel to it and at most q items in each channel from it. Items come
from the strict machine, in which all blocks step together and there are no queues: in step n every block absorbs item n - 1 of the origin
of each channel to it, in channel order, and emits its item n. A channel's entries of the item table then hold the last item that fell on
them, item k on entry k modulo q + 1.
"""
WORD = 2 ** 32
ALL = 2 ** 64 - 1
LIMIT = 100_000_000


class Sums:
    """Cores that add up what they absorb, and their own number at each emit."""

    def start(self, v):
        return 0

    def reset(self, v):
        return 0

    def absorb(self, v, state, item):
        return (state + item) % WORD

    def emit(self, v, state):
        state = (state + v) % WORD
        return state, state

    def fresh(self, index):
        return 1000 + index

    def item_numbers(self, item):
        return [item]

    state_numbers = item_numbers

    def text(self, item):
        return str(item)

    state_text = text


class Origins:
    """Cores that number what they emit: an item is (module, serial), a state the serial last emitted and the item last absorbed."""

    def start(self, v):
        return 0, (v, 0)

    def reset(self, v):
        return v, 0

    def absorb(self, v, state, item):
        return state[0], item

    def emit(self, v, state):
        serial = (state[0] + 1) % WORD
        return (v, serial), (serial, state[1])

    def fresh(self, index):
        return 200, index

    def item_numbers(self, item):
        return list(item)

    def state_numbers(self, state):
        return [state[0], *state[1]]

    def text(self, item):
        return "%d.%d" % item

    def state_text(self, state):
        return "%d<%s" % (state[0], self.text(state[1]))


class Net:
    """Modules 1 to `modules`, the first of them blocks, channels (source, sink) and their queue sizes."""

    def __init__(self, modules, blocks, channels, sizing):
        assert len(channels) == len(sizing) and all(1 <= q <= 16 for q in sizing)
        self.modules, self.blocks, self.channels, self.sizing = modules, blocks, channels, sizing
        self.entries = sum(q + 1 for q in sizing)
        self.origins = [self.origin(e) for e in range(len(channels))]
        self.into = {v: [e for e, (_, sink) in enumerate(channels) if sink == v] for v in range(1, modules + 1)}
        self.out_of = {v: [e for e, (source, _) in enumerate(channels) if source == v] for v in range(1, modules + 1)}

    def is_block(self, v):
        return v <= self.blocks

    def origin(self, e):
        source = self.channels[e][0]
        if self.is_block(source):
            return source
        (feeder,) = [d for d, (_, sink) in enumerate(self.channels) if sink == source]
        return self.origin(feeder)


class Strict:
    """Item n of each block, and each block's state after strict step n."""

    def __init__(self, net, cores):
        self.net, self.cores = net, cores
        blocks = range(1, net.blocks + 1)
        self.items = [{v: cores.reset(v) for v in blocks}]
        self.states = [{v: cores.start(v) for v in blocks}]

    def until(self, n):
        while len(self.items) <= n:
            items, states = {}, {}
            for v in range(1, self.net.blocks + 1):
                state = self.states[-1][v]
                for e in self.net.into[v]:
                    state = self.cores.absorb(v, state, self.items[-1][self.net.origins[e]])
                items[v], states[v] = self.cores.emit(v, state)
            self.items.append(items)
            self.states.append(states)

    def item(self, v, n):
        self.until(n)
        return self.items[n][v]

    def state(self, v, n):
        self.until(n)
        return self.states[n][v]


class Run:
    """The counts of a run."""

    def __init__(self, net):
        self.net = net
        self.primed, self.steps, self.marks = False, 0, set()
        self.fired = [0] * (net.modules + 1)

    def fill(self, e):
        if not self.primed:
            return 0
        source, sink = self.net.channels[e]
        return self.fired[source] + self.net.is_block(source) - self.fired[sink]

    def put(self, e):
        """How many items have come into a channel."""
        source = self.net.channels[e][0]
        return self.fired[source] + self.net.is_block(source) if self.primed else 0

    def ready(self, v):
        return all(self.fill(e) >= 1 for e in self.net.into[v]) and all(self.fill(e) <= self.net.sizing[e] for e in self.net.out_of[v])

    def refusal(self, name, number, lent):
        """The number and the place of the refusal of a call, or None."""
        if name == "prime" and self.primed or name in ("hold", "step", "front") and not self.primed:
            return 12, 0
        if name in ("hold", "firings") and not 1 <= number <= self.net.modules:
            return 13, 0
        if name in ("fill", "front") and not 1 <= number <= len(self.net.channels):
            return 13, 0
        if name in ("prime", "step", "front") and lent < self.net.entries:
            return 14, self.net.entries
        if name == "step" and self.steps >= LIMIT:
            return 15, 0
        return None

    def step(self):
        for v in [v for v in range(1, self.net.modules + 1) if v not in self.marks and self.ready(v)]:
            self.fired[v] += 1
        self.marks.clear()
        self.steps += 1

    def free_steps(self, n):
        """The same n times without marks, with the fills carried along, for long runs."""
        fills = [self.fill(e) for e in range(len(self.net.channels))]
        for _ in range(n):
            firing = [
                v
                for v in range(1, self.net.modules + 1)
                if all(fills[e] for e in self.net.into[v]) and all(fills[e] <= self.net.sizing[e] for e in self.net.out_of[v])
            ]
            for v in firing:
                self.fired[v] += 1
                for e in self.net.into[v]:
                    fills[e] -= 1
                for e in self.net.out_of[v]:
                    fills[e] += 1
        self.steps += n
        assert fills == [self.fill(e) for e in range(len(self.net.channels))]

    def table(self, strict, before):
        """The item table that was `before`."""
        table, base = list(before), 0
        for e, q in enumerate(self.net.sizing):
            for k in range(max(0, self.put(e) - q - 1), self.put(e)):
                table[base + k % (q + 1)] = strict.item(self.net.origins[e], k)
            base += q + 1
        return table


def mix(total, number):
    return (total ^ number) * 16777619 % WORD


class Outcome:
    """What becomes of a list of requests (name, number, lent) on a net over a set of cores, with so many entries in the table."""

    def __init__(self, net, cores, requests, entries):
        self.cores, self.answers = cores, []
        run, strict = Run(net), Strict(net, cores)
        for name, number, lent in requests:
            refusal = run.refusal(name, number, min(lent, entries))
            if refusal:
                self.answers.append(("refused", refusal))
            elif name == "firings":
                self.answers.append(("number", run.fired[number]))
            elif name == "fill":
                self.answers.append(("number", run.fill(number - 1)))
            elif name == "front":
                e = number - 1
                taken = run.fired[net.channels[e][1]]
                self.answers.append(("item", strict.item(net.origins[e], taken)) if run.fill(e) else ("empty", None))
            else:
                if name == "prime":
                    run.primed = True
                elif name == "hold":
                    run.marks.add(number)
                else:
                    run.step()
                self.answers.append(("done", None))
        modules = range(1, net.modules + 1)
        self.states = [strict.state(v, run.fired[v]) if net.is_block(v) else cores.start(v) for v in modules]
        self.table = run.table(strict, [cores.fresh(i) for i in range(entries)])

    def answer_text(self, answer):
        kind, value = answer
        if kind == "item":
            return self.cores.text(value)
        return {"done": "ok", "empty": "-", "number": str(value), "refused": "r%d@%d" % value if kind == "refused" else ""}[kind]

    def text(self):
        words = [self.answer_text(answer) for answer in self.answers] + ["; states"]
        words += [self.cores.state_text(state) for state in self.states] + ["; table"] + [self.cores.text(item) for item in self.table]
        return " ".join(words).replace(" ;", ";")

    def sums(self):
        answers = 0
        for kind, value in self.answers:
            answers = mix(answers, {"done": 1, "number": 2, "item": 3, "empty": 4, "refused": 5}[kind])
            numbers = {"number": lambda: [value], "item": lambda: self.cores.item_numbers(value), "refused": lambda: list(value)}
            for number in numbers.get(kind, list)():
                answers = mix(answers, number)
        states = table = 0
        for number in (n for state in self.states for n in self.cores.state_numbers(state)):
            states = mix(states, number)
        for number in (n for item in self.table for n in self.cores.item_numbers(item)):
            table = mix(table, number)
        return f"{answers} {states} {table}"


def show(label, net, requests, entries):
    print(f"{label}, sums: {Outcome(net, Sums(), requests, entries).text()}")
    print(f"{label}, origins: {Outcome(net, Origins(), requests, entries).text()}")


def show_sums(label, net, requests, entries):
    print(f"{label}: {Outcome(net, Sums(), requests, entries).sums()}, {Outcome(net, Origins(), requests, entries).sums()}")


PRIME, STEP = ("prime", 0, ALL), ("step", 0, ALL)


def hold(v):
    return "hold", v, 0


def firings(v):
    return "firings", v, 0


def fill(e):
    return "fill", e, 0


def front(e, lent=ALL):
    return "front", e, lent


def sample():
    net = Net(3, 2, [(1, 3), (3, 2), (1, 2)], [1, 1, 1])
    requests = [PRIME] + 3 * [STEP] + [call(n) for call in (front, firings, fill) for n in (1, 2, 3)]
    outcome = Outcome(net, Sums(), requests, 8)
    # worked out by hand: item 2 in channels 1 and 3, none in channel 2, and block 2 has the state 6
    assert outcome.answers[4:7] == [("item", 2), ("empty", None), ("item", 2)] and outcome.states[1] == 6
    show("F after 3 steps", net, requests, 8)


DIAMOND = [(1, 2), (2, 3), (1, 4), (4, 3)]


def produced(label, sizing, held, steps, published=None):
    run = Run(Net(4, 3, DIAMOND, sizing))
    run.primed = True
    run.marks |= {1} if held else set()
    rows = [[run.fired[v] + run.net.is_block(v)] for v in (1, 2, 3, 4)]
    for _ in range(steps - 1):
        run.step()
        for v in (1, 2, 3, 4):
            rows[v - 1].append(run.fired[v] + run.net.is_block(v))
    text = " / ".join(" ".join(map(str, row)) for row in rows)
    assert published is None or text == published
    print(f"{label}: {text}")


def traces():
    # two of the three as they are published
    produced("D", [1, 1, 1, 1], False, 6, "1 2 3 3 4 5 / 1 2 2 3 4 5 / 1 1 2 3 4 4 / 0 1 2 3 3 4")
    produced("D, 1 held first", [1, 1, 1, 1], True, 5, "1 1 2 3 4 / 1 2 2 3 3 / 1 1 2 2 3 / 0 1 1 2 3")
    produced("D, queue 2 on channel 2", [1, 2, 1, 1], False, 9)


def small():
    requests = [PRIME] + 8 * [STEP] + [firings(1), firings(2)] + [call(n) for call in (fill, front) for n in (1, 2, 3)]
    for label, modules, blocks, channels, sizing in (
        ("one block, no table", 1, 1, [], []),
        ("one block to itself", 1, 1, [(1, 1)], [1]),
        ("one block twice to itself", 1, 1, [(1, 1), (1, 1)], [1, 3]),
        ("without inputs to without outputs", 2, 2, [(1, 2)], [2]),
        ("three side by side", 2, 2, [(1, 2)] * 3, [1, 2, 16]),
        ("there and back", 2, 2, [(1, 2), (2, 1), (2, 2)], [1, 1, 1]),
        ("around by a relay station", 2, 1, [(1, 2), (2, 1)], [1, 2]),
    ):
        net = Net(modules, blocks, channels, sizing)
        show(label, net, requests, {"without inputs to without outputs": 4}.get(label, net.entries))


def refused():
    net = Net(4, 3, DIAMOND, [1] * 4)
    requests = [hold(0), hold(1), ("step", 0, 0), STEP, front(0, 0), front(1)]
    requests += [firings(0), firings(4), firings(5), fill(0), fill(4), fill(5)]
    requests += [("prime", 0, 7), hold(1), ("prime", 0, 8), ("prime", 0, 0), PRIME, hold(0), hold(5), hold(255)]
    requests += [front(0, 0), front(5, 0), front(1, 7), front(1, 8), hold(1), ("step", 0, 0), ("step", 0, 7), ("step", 0, 8)]
    requests += [firings(1), firings(2), STEP, firings(1), firings(2)]
    show("refusals", net, requests, 9)
    show("a table too short", net, requests, 7)


def chain():
    channels = [(1 + number % 61, 2 + number % 61) for number in range(188)]
    return channels + [(61, 63), (63, 64), (64, 62), (61, 62)]


def full():
    requests = [PRIME] + 200 * [STEP] + [call(e) for e in range(1, 193) for call in (fill, front)]
    for last in (1, 2, 16):
        net = Net(64, 62, chain(), [16] * 191 + [last])
        for less in (0, 1):
            show_sums(f"chain, queue {last} at the end, {less} short", net, requests, net.entries - less)
        run = Run(net)
        run.primed = True
        run.free_steps(20_000)
        total = 0
        for item in run.table(Strict(net, Sums()), [7] * 3264):
            total = mix(total, item)
        print(f"chain, queue {last} at the end, long: {run.steps} {run.fired[1]} {run.fired[64]} {total}")


class Dice:
    def __init__(self, seed):
        self.state = seed

    def below(self, n):
        self.state = (self.state * 1664525 + 1013904223) % WORD
        return self.state // 65536 % n

    def lent(self):
        return self.below(40) if self.below(8) == 0 else ALL

    def request(self, modules, channels):
        kind, v, e = self.below(16), self.below(modules + 2), self.below(channels + 2)
        lent = self.lent()
        names = ["prime"] + 2 * ["hold"] + 2 * ["firings"] + 2 * ["fill"] + 3 * ["front"] + 6 * ["step"]
        name = names[kind]
        return name, e if name in ("fill", "front") else v, lent


def random_netlists():
    for seed in range(100):
        dice = Dice(seed)
        modules = dice.below(8) + 1
        blocks = dice.below(modules) + 1
        channels = [(dice.below(min(v - 1, blocks) if v <= blocks else v - 1) + 1, v) for v in range(2, modules + 1)]
        channels += [(v, dice.below(blocks) + 1) for v in range(blocks + 1, modules + 1)]
        for _ in range(dice.below(7)):
            source = dice.below(modules) + 1
            channels.append((source, dice.below(blocks) + 1))
        entries = dice.below(3)
        sizing = [dice.below(4) + 1 for _ in channels]
        net = Net(modules, blocks, channels, sizing)
        requests = [dice.request(modules, len(channels)) for _ in range(60)]
        requests[3] = PRIME
        show_sums(f"random {seed}", net, requests, entries + net.entries)


sample()
traces()
small()
refused()
full()
random_netlists()
