"""Another scheduler: works each answer of a story out from scratch.

    python3 stories.py scripts    the cases, for the program's standard input
    python3 stories.py reports    what it should write

No table is kept. Each question is a shortest-path question about the records of the ledger,
answered by relaxing all legs until nothing changes (Bellman and Ford), with rows as tuples.
"""
import random
import sys

CAUSES = {
    10: "the pins are not 1 to 64",
    11: "the memory is too short",
    13: "a pin is not one of the sheet's",
    14: "the two pins are one",
    15: "there is neither a low nor a high end",
    16: "a number of an end is too large",
    17: "low is above high",
    18: "there is no free place for the record",
    19: "no schedule meets the records and this one",
}
OPEN_19 = "no schedule meets the records up to this one"
NO_CALL = {
    "enter": "the sheet is no draft",
    "open": "the sheet is no draft",
    "commit": "the sheet is not open",
    "range": "the sheet is not open",
    "finish": "the sheet is not open",
    "take-up": "the sheet is not final",
}


def plus(a, b):
    return tuple(x + y for x, y in zip(a, b))


def minus(a):
    return tuple(-x for x in a)


def show(row):
    return "none" if row is None else ",".join(map(str, row))


def legs(records):
    for i, j, low, high in records:
        if low is not None:
            yield i, j, minus(low)
        if high is not None:
            yield j, i, high


def reach(n, k, records, start):
    """Least lengths from the start pins, or None where they fall for ever."""
    zero = (0,) * k
    best = {u: zero for u in start}
    edges = list(legs(records))
    for turn in range(n + 1):
        changed = False
        for u, v, w in edges:
            if u in best:
                way = plus(best[u], w)
                if v not in best or way < best[v]:
                    best[v] = way
                    changed = True
        if not changed:
            return best
    return None


def feasible(n, k, records):
    return reach(n, k, records, range(1, n + 1)) is not None


class Sheet:
    def __init__(self, k, cells, places):
        self.k, self.cells, self.places = k, cells, places
        self.state, self.n, self.records = None, 0, []

    def record_cause(self, r):
        i, j, low, high = r
        if not (1 <= i <= self.n and 1 <= j <= self.n):
            return 13
        if i == j:
            return 14
        if low is None and high is None:
            return 15
        for end in (low, high):
            if end is not None and any(abs(x) > 1_000_000_000 for x in end):
                return 16
        if low is not None and high is not None and low > high:
            return 17
        if len(self.records) >= 512 or len(self.records) >= self.places:
            return 18
        return None

    def refused(self, cause):
        return f"refused {cause}: {CAUSES[cause]}"

    def call(self, name, args):
        need = {"enter": "draft", "open": "draft", "commit": "open", "range": "open", "finish": "open", "take-up": "final"}
        if name != "begin" and self.state != need[name]:
            return f"no call: {NO_CALL[name]}"
        return getattr(self, name.replace("-", "_"))(*args)

    def begin(self, n):
        if not 1 <= n <= 64:
            return self.refused(10)
        self.state, self.n, self.records = "draft", n, []
        return "draft"

    def enter(self, *r):
        cause = self.record_cause(r)
        if cause:
            return self.refused(cause)
        self.records.append(r)
        return f"record {len(self.records)}"

    def open(self):
        if self.cells < self.n * self.n:
            return self.refused(11)
        for m in range(1, len(self.records) + 1):
            if not feasible(self.n, self.k, self.records[:m]):
                return f"refused 19 at record {m}: {OPEN_19}"
        self.state = "open"
        return "open"

    def commit(self, *r):
        cause = self.record_cause(r)
        if cause:
            return self.refused(cause)
        if not feasible(self.n, self.k, self.records + [r]):
            return self.refused(19)
        self.records.append(r)
        return f"record {len(self.records)}"

    def range(self, i, j):
        if not (1 <= i <= self.n and 1 <= j <= self.n):
            return self.refused(13)
        if i == j:
            return self.refused(14)
        there = reach(self.n, self.k, self.records, [i]).get(j)
        back = reach(self.n, self.k, self.records, [j]).get(i)
        return f"{show(None if there is None else minus(there))} to {show(back)}"

    def finish(self, places=64):
        if places < self.n:
            return self.refused(11)
        best = reach(self.n, self.k, self.records, range(1, self.n + 1))
        self.state = "final"
        return "times " + " ".join(show(best[v]) for v in range(1, self.n + 1))

    def take_up(self):
        self.state = "draft"
        return "draft"


def words(call):
    name, args = call
    return " ".join([name] + [show(a) if a is None or isinstance(a, tuple) else str(a) for a in args])


def play(k, memory, calls):
    cells, places = memory or (4096, 512)
    sheet = Sheet(k, cells, places)
    return [f"{words(c)} -> {sheet.call(*c)}" for c in calls]


def end(rng, k, near):
    if rng.random() < 0.02:
        return tuple([rng.choice([-1, 1]) * (1_000_000_000 + rng.randint(0, 1))] + [0] * (k - 1))
    if rng.random() < 0.01:
        return tuple([0] * (k - 1) + [rng.choice([-1, 1]) * (1_000_000_000 + rng.randint(0, 1))])
    return tuple([rng.randint(-near, near)] + [rng.randint(-1, 1) for _ in range(k - 1)])


def ends(rng, k, near):
    low = end(rng, k, near) if rng.random() < 0.8 else None
    high = end(rng, k, near) if rng.random() < 0.85 else None
    if low is not None and high is not None and low > high and rng.random() < 0.9:
        low, high = high, low
    return low, high


def pair(rng, n):
    if rng.random() < 0.04:
        return rng.randint(0, n + 1), rng.randint(0, n + 1)
    i = rng.randint(1, n)
    j = rng.randint(1, n)
    if i == j and n > 1 and rng.random() < 0.95:
        j = i % n + 1
    return i, j


def story(rng, k, length, pins, near, memory):
    calls = []
    sheet = Sheet(k, *(memory or (4096, 512)))

    def make(name, *args):
        calls.append((name, list(args)))
        sheet.call(name, args)

    while len(calls) < length:
        stuck = calls and calls[-1][0] == "open" and sheet.state == "draft"
        if sheet.state is None or rng.random() < (0.5 if stuck else 0.01):
            make("begin", rng.choice([0, 65]) if rng.random() < 0.1 else rng.choice(pins))
            continue
        n = sheet.n
        odd = rng.random()
        if odd < 0.03:
            name = rng.choice(["enter", "open", "commit", "range", "finish", "take-up"])
        elif sheet.state == "draft":
            name = "enter" if rng.random() < 0.8 and len(sheet.records) < n + 2 else "open"
        elif sheet.state == "open":
            name = rng.choices(["commit", "range", "finish"], [5, 5, 0.4])[0]
        else:
            name = "take-up"
        if name in ("enter", "commit"):
            make(name, *pair(rng, n), *ends(rng, k, near))
        elif name == "range":
            make(name, *pair(rng, n))
        elif name == "finish":
            make(name, *([] if rng.random() < 0.7 else [rng.randint(max(0, n - 1), n + 1)]))
        else:
            make(name)
    return calls


def edges(k):
    """Each cause at its edge, and each two neighbouring causes at once: the first decides."""
    def row(x, guard=0):
        return tuple([x] + [guard] * (k - 1))
    most = 1_000_000_000
    yield "begin", [0]
    yield "begin", [65]
    yield "enter", [1, 2, row(0), None]
    yield "begin", [64]
    yield "begin", [1]
    yield "enter", [1, 1, row(0), row(0)]
    yield "enter", [1, 2, row(0), row(0)]
    yield "begin", [2]
    yield "enter", [3, 3, None, None]
    yield "begin", [3]
    yield "commit", [1, 2, row(0), None]
    yield "range", [1, 2]
    yield "enter", [3, 3, None, None]
    yield "enter", [0, 1, row(0), None]
    yield "enter", [1, 4, None, row(0)]
    yield "enter", [1, 2, None, None]
    yield "enter", [1, 2, row(most + 1), row(0)]
    yield "enter", [1, 2, row(0), row(most + 1)]
    yield "enter", [1, 2, row(-most - 1), row(0)]
    yield "enter", [1, 2, row(0, most + 1 if k > 1 else 0), None]
    yield "enter", [1, 2, row(1), row(0)]
    yield "enter", [1, 2, row(-most), row(most)]
    yield "enter", [2, 3, row(0), row(0)]
    yield "enter", [2, 3, row(1), row(0)]
    yield "enter", [2, 3, row(0), row(1)]
    yield "finish", []
    yield "take-up", []
    yield "open", []
    yield "open", []
    yield "enter", [1, 2, row(0), None]
    yield "commit", [2, 3, row(1), row(1)]
    yield "commit", [3, 3, row(1), row(1)]
    yield "range", [0, 1]
    yield "range", [4, 4]
    yield "range", [1, 1]
    yield "range", [2, 3]
    yield "range", [1, 3]
    yield "finish", [2]
    yield "finish", [3]
    yield "range", [1, 2]
    yield "finish", [3]
    yield "begin", [65]
    yield "take-up", []
    yield "take-up", []
    yield "open", []


def cases():
    rng = random.Random(20261118)
    for k in (1, 2):
        yield k, (9, 2), list(edges(k))
        yield k, (8, 2), [("begin", [3]), ("open", []), ("begin", [2]), ("open", []), ("finish", [])]
    for case in range(60):
        k = 1 + case % 2
        memory = None if rng.random() < 0.7 else (rng.choice([0, 1, 3, 4, 9, 16, 25, 64]), rng.choice([0, 1, 2, 5, 9]))
        pins = [rng.randint(1, 8) for _ in range(3)]
        yield k, memory, story(rng, k, rng.randint(20, 60), pins, rng.choice([3, 10, 100]), memory)
    for k in (1, 2):
        yield k, None, story(rng, k, 300, [5, 9, 12], 60, None)
    # record 512 enters, the next one gets 18
    full = [("begin", [64])] + [("enter", [i % 64 + 1, (i + 1 + i // 64) % 64 + 1, (-1000 - i,), (1000 + i,)]) for i in range(513)]
    full = [c for c in full if c[0] == "begin" or c[1][0] != c[1][1]]
    while sum(c[0] == "enter" for c in full) < 514:
        full.append(("enter", [1, 2, (-5000,), (5000,)]))
    yield 1, None, full + [("open", []), ("range", [1, 64]), ("commit", [1, 64, (0,), (0,)]), ("finish", [63]), ("finish", [64])]
    # a chain through 64 pins: the longest shortest way
    far = [("begin", [64])] + [("enter", [i, i + 1, (-1_000_000_000,), (1_000_000_000,)]) for i in range(1, 64)]
    yield 1, None, far + [("open", []), ("range", [1, 64]), ("range", [64, 1]), ("commit", [64, 1, (1_000_000_000,), None]), ("range", [1, 2]), ("finish", [])]


def main():
    out = []
    for k, memory, calls in cases():
        out.append("case " + ("plain" if k == 1 else "guarded"))
        if sys.argv[1] == "scripts":
            if memory:
                out.append(f"memory {memory[0]} {memory[1]}")
            out += [words(c) for c in calls]
        else:
            out += play(k, memory, calls)
    print("\n".join(out))


if __name__ == "__main__":
    main()
