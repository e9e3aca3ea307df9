"""Tests for the programs of `programs/`: inputs that are drawn, and answers that are found in another way than there.

Each function takes a source of random numbers and a size from 0 to 1, and gives the texts of an input and an answer.
"""

import datetime
import functools
import itertools
import re
from bisect import bisect_right, insort
from collections import Counter
from fractions import Fraction

MASK = (1 << 64) - 1


def lines(*parts):
    return "".join(" ".join(map(str, part)) + "\n" if isinstance(part, (list, tuple)) else f"{part}\n" for part in parts)


def signed(value, bits=64):
    value &= (1 << bits) - 1
    return value - (1 << bits) if value >> (bits - 1) else value


def fractions(draw, size):
    parts = [(draw.randrange(-50, 51), draw.randrange(1, 31)) for _ in range(1 + int(size * 40))]
    total = sum(Fraction(a, b) for a, b in parts)
    return lines(len(parts), *parts), f"{total.numerator}/{total.denominator}\n"


def inversions(draw, size):
    values = [draw.randrange(-500, 500) for _ in range(2 + int(size * 3000))]
    seen, count = [], 0
    for value in values:
        count += len(seen) - bisect_right(seen, value)
        insort(seen, value)
    return lines(len(values), values), lines(count)


def route(draw, size):
    n = 3 + int(size * 250)
    roads = [(draw.randrange(1, n + 1), draw.randrange(1, n + 1), draw.randrange(1, 10**9)) for _ in range(int(n * (1 + 4 * size)))]
    best = {1: 0}
    changed = True
    while changed:
        changed = False
        for a, b, length in roads + [(b, a, length) for a, b, length in roads]:
            if a in best and best[a] + length < best.get(b, 10**15):
                best[b] = best[a] + length
                changed = True
    return lines((n, len(roads)), *roads), lines(best.get(n, -1))


def islands(draw, size):
    side = 3 + int(size * 70)
    rows = ["".join(draw.choice("##..#.") for _ in range(side)) for _ in range(side)]
    island = {(r, c): (r, c) for r in range(side) for c in range(side) if rows[r][c] == "#"}

    def root(place):
        while island[place] != place:
            place = island[place]
        return place

    for r, c in list(island):
        for other in [(r + 1, c), (r, c + 1)]:
            if other in island:
                island[root(other)] = root((r, c))
    sizes = Counter(root(place) for place in island)
    return lines((side, side), *rows), lines((len(sizes), max(sizes.values(), default=0)))


def knapsack(draw, size):
    things = [(draw.randrange(1, 60), draw.randrange(1, 1000)) for _ in range(3 + int(size * 50))]
    room = 20 + int(size * 1200)
    # The greatest value for each weight that can be had exactly.
    reached = {0: 0}
    for weight, value in things:
        for w, v in list(reached.items()):  # as they were before this thing
            if w + weight <= room:
                reached[w + weight] = max(reached.get(w + weight, 0), v + value)
    return lines((len(things), room), *things), lines(max(reached.values()))


def product(draw, size):
    digits = 1 + int(size * 300)
    a, b = (draw.choice([-1, 1]) * draw.randrange(10 ** (digits - 1), 10**digits) for _ in range(2))
    if size < 0.1:
        a, b = -abs(a), 0
    return lines(a, b), lines(a * b)


def matches(draw, size):
    word = draw.choice(["aa", "aba", "abab", "aabaa" * 3])
    text = "".join(draw.choice([word, word[:-1], "a", "b"]) for _ in range(2 + int(size * 1500)))[:20000]
    found = [match.start() + 1 for match in re.finditer(f"(?={word})", text)]
    return lines(word, text), lines(*found) + f"matches {len(found)}\n"


def words(draw, size):
    known = ["".join(draw.choice("abcdefg") for _ in range(draw.randrange(1, 12))) for _ in range(5 + int(size * 150))]
    text = [draw.choice(known) for _ in range(10 + int(size * 2500))]
    counts = sorted(Counter(text).items(), key=lambda item: (-item[1], item[0]))
    rows = [" ".join(text[k : k + 9]) for k in range(0, len(text), 9)]
    return lines(*rows), lines(*counts)


def mixing(draw, size):
    seed, n = draw.randrange(-(1 << 63), 1 << 63), 3 + int(size * 2500)
    x, total = seed & MASK, 0
    for _ in range(n):
        x = (x + 0x9E3779B97F4A7C15) & MASK
        y = ((x ^ x >> 30) * 0xBF58476D1CE4E5B9) & MASK
        y = ((y ^ y >> 27) * 0x94D049BB133111EB) & MASK
        y ^= y >> 31
        total = ((total << 7 | total >> 57) + y % (y >> 40 | 1) + y // (x >> 33 | 1)) & MASK
    part = abs(signed(total)) // 1000
    return lines((seed, n)), lines((total, part if signed(total) >= 0 else -part))


def expression(draw, size):
    def made(depth):
        """A text, its value, and how tightly it binds: 0 a sum, 1 a product, 2 a number."""
        if depth == 0 or draw.random() < 0.15:
            number = draw.randrange(1000)
            return str(number), number, 2
        what = draw.choice("+-*/+-")
        (left, a, x), (right, b, y) = made(depth - 1), made(depth - 1)
        bind = what in "*/"
        if what == "/" and b == 0:
            right, b, y = "7", 7, 2
        if what == "*" and abs(a * b) >= 1 << 40:
            what, bind = "-", False
        if x < bind:
            left = f"({left})"
        if y <= bind:
            right = f"({right})"
        value = {"+": a + b, "-": a - b, "*": a * b}.get(what)
        if what == "/":
            value = abs(a) // abs(b) * (1 if (a < 0) == (b < 0) else -1)
        text = f"{left}{what}{right}"
        return (f"-({text})", -value, 2) if draw.random() < 0.1 else (text, value, int(bind))

    all_made = [made(2 + int(size * 6)) for _ in range(2 + int(size * 20))]
    return lines(*(text for text, _, _ in all_made)), lines(*(value for _, value, _ in all_made))


def distance(draw, size):
    length = 2 + int(size * 250)
    a = "".join(draw.choice("abc") for _ in range(length))
    b = "".join(draw.choice(["", c, c, c, c + "b", "c"]) for c in a) or "a"
    # The furthest row of each diagonal that so many changes reach (Ukkonen).
    reached, changes = {0: 0}, 0

    def slid(i, d):
        while i < len(a) and i + d < len(b) and a[i] == b[i + d]:
            i += 1
        return i

    reached = {0: slid(0, 0)}
    while reached.get(len(b) - len(a), -1) < len(a):
        changes += 1
        further = {}
        for d in range(-changes, changes + 1):
            i = max(reached.get(d, -9) + 1, reached.get(d - 1, -9), reached.get(d + 1, -9) + 1)
            i = min(i, len(a), len(b) - d)
            if i >= 0 and i + d >= 0:
                further[d] = slid(i, d)
        reached = further
    return lines(a, b), lines(changes)


def order(draw, size):
    n = 3 + int(size * 400)
    tasks = draw.sample(range(1, n + 1), n)
    pairs = [sorted(draw.sample(range(n), 2)) for _ in range(2 * n)]
    rules = [(tasks[i], tasks[j]) for i, j in pairs]
    if draw.random() < 0.4:
        i, j = sorted(draw.sample(range(n), 2))
        rules += [(tasks[i], tasks[j]), (tasks[j], tasks[i])]
        draw.shuffle(rules)
    behind = {}
    for a, b in rules:
        behind.setdefault(a, []).append(b)
    state, done = {}, []
    for start in range(1, n + 1):
        stack = [(start, iter(behind.get(start, [])))] if start not in state else []
        while stack:
            at, rest = stack[-1]
            state[at] = "open"
            task = next(rest, None)
            if task is None:
                state[at] = "done"
                done.append(at)
                stack.pop()
            elif state.get(task) == "open":
                return lines((n, len(rules)), *rules), "cycle\n"
            elif task not in state:
                stack.append((task, iter(behind.get(task, []))))
    return lines((n, len(rules)), *rules), lines(done[::-1])


def patching(draw, size):
    def operation():
        what = draw.choice(["add", "xor", "shl", "and", "add", "xor"])
        return what, draw.randrange(1, 4) if what == "shl" else draw.choice([-1, -2, -3, 0x7FF]) if what == "and" else draw.randrange(-2048, 2048)

    operations = [operation() for _ in range(2 + int(size * 1500))]
    given, answer = [f"{len(operations)}"] + [f"{what} {c}" for what, c in operations], []
    for _ in range(3 + int(size * 150)):
        if draw.random() < 0.6:
            at = draw.randrange(len(operations))
            operations[at] = operation()
            given.append(f"set {at + 1} {operations[at][0]} {operations[at][1]}")
        x = draw.randrange(-(1 << 31), 1 << 31)
        given.append(f"run {x}")
        for what, c in operations:
            x = x + c if what == "add" else x ^ c if what == "xor" else x << c if what == "shl" else x & c
            x &= 0xFFFFFFFF
        answer.append(signed(x, 32))
    return lines(*given), lines(*answer)


def recurrence(draw, size):
    rows, members = [], []
    for _ in range(1 + int(size * 40)):
        factors = [draw.randrange(-9, 10) for _ in range(3)]
        start = [draw.randrange(-99, 100) for _ in range(3)]
        n = draw.choice([0, 1, 2, 3, 50, 2000, draw.randrange(10**15)])
        # The power of the unknown modulo the characteristic polynomial.
        power, base = [1, 0, 0], [0, 1, 0]
        for bit in bin(n)[2:] if n else "":
            power = reduced(power, power, factors)
            if bit == "1":
                power = reduced(power, base, factors)
        rows.append(factors + start + [n])
        members.append(sum(p * s for p, s in zip(power, start)) & MASK)
    return lines(len(rows), *rows), lines(*members)


def reduced(p, q, factors):
    wide = [0] * 5
    for i, j in itertools.product(range(3), repeat=2):
        wide[i + j] += p[i] * q[j]
    for degree in (4, 3):
        for k in range(3):
            wide[degree - 1 - k] += wide[degree] * factors[k]
        wide[degree] = 0
    return [value & MASK for value in wide[:3]]


def queens(draw, size):
    n = 3 + int(size * 5)
    rows = ["".join(draw.choice(".......#") for _ in range(n)) for _ in range(n)]
    ways = sum(
        len({c + r for r, c in enumerate(columns)}) == n == len({c - r for r, c in enumerate(columns)}) and all(rows[r][c] == "." for r, c in enumerate(columns))
        for columns in itertools.permutations(range(n))
    )
    return lines(n, *rows), lines(ways)


def calendar(draw, size):
    rows, answers = [], []
    for _ in range(2 + int(size * 300)):
        a, b = (datetime.date(1600, 1, 1) + datetime.timedelta(draw.randrange(250_000)) for _ in range(2))
        rows.append((a.isoformat(), b.isoformat()))
        answers.append(((b - a).days, b.strftime("%A")))
    return lines(len(rows), *rows), lines(*answers)


def area(draw, size):
    # Corners from left to right below, and back above. The trapezes under the sides add up, in either direction.
    places = sorted(draw.sample(range(-(10**5), 10**5), 3 + int(size * 300)))
    ring = [(x, draw.randrange(-(10**5), 0)) for x in places] + [(x, draw.randrange(1, 10**5)) for x in reversed(places)]
    if draw.random() < 0.5:
        ring.reverse()
    twice = abs(sum((bx - ax) * (ay + by) for (ax, ay), (bx, by) in zip(ring, ring[1:] + ring[:1])))
    return lines(len(ring), *ring), f"{twice // 2}.{5 * (twice % 2)}\n"


def readings(draw, size):
    values = [draw.randrange(-10**6, 10**6) for _ in range(1 + int(size * 200_000))]
    # Some stand twice in a row, so that a run that does not fall is longer than one that rises.
    for at in draw.sample(range(len(values)), len(values) // 3):
        values[at] = values[at - 1]
    falls = [0, *(at for at in range(1, len(values)) if values[at] < values[at - 1]), len(values)]
    longest = max(b - a for a, b in itertools.pairwise(falls))
    return lines(len(values), *values), lines((min(values), max(values), sum(values), longest))


# A problem's tests are those of its function; what its package says besides stands here.
MORE = {
    "area": "validator_flags: float_tolerance 1e-9\n",
    "calendar": "validator_flags: case_sensitive\n",
    "matches": "validator_flags: space_change_sensitive\n",
    "order": "validation: custom\n",
}
NAMES = ["area", "calendar", "distance", "expression", "fractions", "inversions", "islands", "knapsack", "matches", "mixing", "order",
         "patching", "product", "queens", "readings", "recurrence", "route", "words"]
# The sizes of a problem's tests, and its time limit in seconds. The readings are as large as a real package's tests are.
SIZES = {"readings": [0.001, 0.3, 0.5, 0.7, 0.8, 0.9, 1.0, 1.0, 1.0, 1.0, 1.0, 1.0]}
SIZES_OF_OTHERS = [0.02, 0.1, 0.3, 0.6, 1.0]
SECONDS = {"readings": 40}
SECONDS_OF_OTHERS = 2
