#!/usr/bin/env python3
"""Writes the stored sheets of sheets/ and the reports expected of them.

The reports come from a model of its own, written after the description of stored sheets, books, settle and the report: exact
whole-number arithmetic, and the smallest box of a rule found by trying every choice. It shares no code with the crates.
Run it without arguments; it rewrites sheets/*.sheet and sheets/*.report.
"""
from fractions import Fraction
from pathlib import Path

ALLOWANCE = 100_000


# Drives: the size of a half code, and the two operations of each drive. Over is top + 1.

def size(code):
    exponent, fraction = divmod(code, 1024)
    return fraction if exponent == 0 else (1024 + fraction) << (exponent - 1)


SIZES = [size(code) for code in range(31745)]


def rounded(exact, mode):
    """The code that the mode gives for an exact result in units."""
    low, high = 0, 31744                     # the greatest code up to 31744 whose size is not above the result
    while low < high:
        middle = (low + high + 1) // 2
        if SIZES[middle] <= exact:
            low = middle
        else:
            high = middle - 1
    if mode == 0:
        return min(low, 31743)
    if mode == 2:
        if low == 31744 or SIZES[low] == exact:
            return low
        return low + 1
    if low == 31744:
        return 31744
    below, above = exact - SIZES[low], SIZES[low + 1] - exact
    if below != above:
        return low if below < above else low + 1
    return low if low % 2 == 0 else low + 1


def half(mode):
    return {
        "top": 31743,
        2: lambda a, b: rounded(Fraction(SIZES[a] * SIZES[b], 1 << 24), mode),
        3: lambda a, b: rounded(Fraction(SIZES[a] + SIZES[b]), mode),
        4: max,
    }


def counter():
    return {
        "top": 65535,
        2: lambda a, b: min(a * b // 1000, 65536),
        3: lambda a, b: min(a + b, 65536),
        4: max,
    }


# The smallest box: every choice is tried. Two kinds with plain choices are worked out from their description: not after, and a
# counter sum of windows too wide to try.

def sum_box(windows):
    """The smallest box of a + b = c: each code's least and greatest partner is at the ends of the other two windows."""
    (a, b), (c, d), (e, f) = windows
    closed = [(max(a, e - d), min(b, f - c)), (max(c, e - b), min(d, f - a)), (max(e, a + c), min(f, b + d))]
    return closed if all(low <= high for low, high in closed) else None


def box(book, kind, windows):
    """The smallest box around the choices in the windows, or None."""
    if kind == 5:
        (a, b), (c, d) = windows
        return None if a > d else [(a, min(b, d)), (max(a, c), d)]
    (a, b), (c, d), (e, f) = windows
    if (b - a + 1) * (d - c + 1) > 3000:
        if kind == 3 and book["top"] == 65535:
            return sum_box(windows)
        if (b - a + 1) * (d - c + 1) > 3_000_000:
            raise SystemExit("too many choices to try")
    firsts, seconds, thirds = [], [], []
    for x in range(a, b + 1):
        for y in range(c, d + 1):
            z = book[kind](x, y)
            if e <= z <= f:
                firsts.append(x)
                seconds.append(y)
                thirds.append(z)
    if not firsts:
        return None
    return [(min(l), max(l)) for l in (firsts, seconds, thirds)]


def settle(book, lines, rules, allowance):
    """The answer of settle, and the windows after it."""
    windows, count = list(lines), 0
    while True:
        moved = False
        for number, (kind, named) in enumerate(rules, 1):
            present = [windows[line - 1] for line in named]
            closed = box(book, kind, present)
            if closed is None:
                return f"barren {number}", list(lines)
            if closed != present:
                if count == allowance:
                    return f"spent {allowance}", windows
                count, moved = count + 1, True
                for line, window in zip(named, closed):
                    windows[line - 1] = window
        if not moved:
            return f"standing {count}", windows


# Load, call by call.

def line_fault(book, lines, lower, upper):
    if lower > upper or upper > book["top"]:
        return 1
    return 5 if len(lines) == 64 else None


def rule_fault(lines, rules, kind, a, b, c):
    named = [a, b] if kind == 5 else [a, b, c]
    if any(not 1 <= line <= len(lines) for line in named) or (kind == 5 and c != 0):
        return 2
    if len(set(named)) < len(named):
        return 3
    return 5 if len(rules) == 128 else None


def load(data):
    """The book, lines and rules of a stored sheet; or the number of a refusal and the index."""
    if len(data) == 0 or len(data) > 2048 or len(data) % 8 != 0:
        return 10, 0
    head = data[:8]
    if head[2] == 0 and head[3] <= 2:
        book = half(head[3])
    elif head[2] == 1 and head[3] == 0:
        book = counter()
    else:
        return 11, 0
    if head[0] != 1 or any(head[4:]):
        return 11, 0
    count, lines, rules, taken, at = len(data) // 8, [], [], 0, head[1]
    while at != 0:
        if at >= count or taken == count - 1:
            return 12, at
        record = data[8 * at:8 * at + 8]
        kind = record[0]
        if kind == 1 and not any(record[6:]):
            lower, upper = record[2] + 256 * record[3], record[4] + 256 * record[5]
            fault = line_fault(book, lines, lower, upper)
            if fault:
                return fault, at
            lines.append((lower, upper))
        elif 2 <= kind <= 5 and not any(record[5:]):
            fault = rule_fault(lines, rules, kind, *record[2:5])
            if fault:
                return fault, at
            rules.append((kind, list(record[2:4]) if kind == 5 else list(record[2:5])))
        else:
            return 13, at
        taken, at = taken + 1, record[1]
    return book, lines, rules


def report(data):
    loaded = load(data)
    if len(loaded) == 2:
        return "refused %d at %d\n" % loaded
    answer, windows = settle(*loaded, ALLOWANCE)
    return answer + "\n" + "".join(f"{n} {w[0]} {w[1]}\n" for n, w in enumerate(windows, 1))


# Writing stored sheets.

def head(first, drive, mode=0):
    return bytes([1, first, drive, mode, 0, 0, 0, 0])


def line(after, lower, upper):
    return bytes([1, after, lower % 256, lower // 256, upper % 256, upper // 256, 0, 0])


def rule(after, kind, a, b, c=0):
    return bytes([kind, after, a, b, c, 0, 0, 0])


def sheet(drive, mode, lines, rules):
    count = len(lines) + len(rules)
    after = [index + 1 if index < count else 0 for index in range(1, count + 1)]
    records = [line(n, *w) for n, w in zip(after, lines)] + [rule(n, *r) for n, r in zip(after[len(lines):], rules)]
    return head(1 if count else 0, drive, mode) + b"".join(records)


TRAVEL = [(2, 1, 2, 3)]
CHAIN = [(0, 1023), (1, 1), (0, 1023)], [(3, 1, 2, 3), (5, 3, 1)]
LINES = [(1, 9), (2, 8)]

SHEETS = {
    "report": bytes.fromhex("01010100000000000102030004000000" "0103E803DC0500000104050005000000" "01057805B80B00000206010203000000" "0500040200000000"),
    "travel-gap": sheet(1, 0, [(3000, 3002), (1500, 1501), (4502, 4505)], TRAVEL),
    "travel-middle": sheet(1, 0, [(3, 4), (1000, 1500), (5, 5)], TRAVEL),
    "travel-none": sheet(1, 0, [(1700, 1701), (1900, 1901), (3232, 3232)], TRAVEL),
    "chain-barren": sheet(1, 0, *CHAIN),
    "chains-spent": sheet(1, 0, [(0, 65535), (1, 1), (0, 65535)] * 2, [(3, 1, 2, 3), (5, 3, 1), (3, 4, 5, 6), (5, 6, 4)]),
    "half-toward-zero": sheet(0, 0, [(15361, 15361), (15872, 15872), (0, 31743)], TRAVEL),
    "half-nearest": sheet(0, 1, [(15361, 15361), (15872, 15872), (0, 31743)], TRAVEL),
    "half-up": sheet(0, 2, [(15361, 15361), (15360, 15362), (0, 31743)], TRAVEL),
    "half-sum-up": sheet(0, 2, [(31740, 31741), (10000, 19500), (31741, 31742)], [(3, 1, 2, 3)]),
    "half-over": sheet(0, 1, [(31743, 31743), (19456, 19456), (0, 31743)], [(3, 1, 2, 3)]),
    "later": sheet(1, 0, [(3, 9), (5, 7), (2, 6)], [(4, 1, 2, 3)]),
    "empty": sheet(1, 0, [], []),
    "widest": sheet(1, 0, [(10000 + n, 65535 - n) for n in range(64)], []),
    "two-thousand-bytes": sheet(1, 0, LINES, []) + bytes(2048 - 24),
    "damaged-length-none": b"",
    "damaged-length-odd": sheet(1, 0, LINES, [])[:-1],
    "damaged-length-over": sheet(1, 0, LINES, []) + bytes(2056 - 24),
    "damaged-length-before-head": bytes([9]) * 9,
    "damaged-head": b"\x02" + sheet(1, 0, LINES, [])[1:],
    "damaged-head-byte": sheet(1, 0, LINES, [])[:7] + b"\x01" + sheet(1, 0, LINES, [])[8:],
    "damaged-drive": sheet(2, 0, LINES, []),
    "damaged-counter-mode": sheet(1, 1, LINES, []),
    "damaged-half-mode": sheet(0, 3, LINES, []),
    "damaged-chain-leaves": head(9, 1) + line(0, 1, 9),
    "damaged-chain-turns-back": head(1, 1) + line(1, 1, 9),
    "damaged-record-kind": head(1, 1) + bytes([6, 0, 0, 0, 0, 0, 0, 0]),
    "damaged-record-byte": head(1, 1) + line(2, 1, 9) + line(3, 1, 9) + bytes([5, 0, 1, 2, 0, 1, 0, 0]),
    "refused-ends": head(1, 1) + line(2, 1, 9) + line(0, 9, 1),
    "refused-above-top": head(1, 0) + line(0, 1, 31744),
    "refused-no-line": sheet(1, 0, LINES, [(5, 1, 2, 1)]),
    "refused-twice": sheet(1, 0, LINES, [(5, 2, 2)]),
    "refused-full": head(1, 1) + line(1, 1, 9) + bytes(8 * 99),
    "refused-full-of-rules": sheet(1, 0, [(3, 4), (3, 4)], [(5, 1, 2)] * 129),
}


def main():
    folder = Path(__file__).resolve().parent.parent / "sheets"
    for name, data in SHEETS.items():
        (folder / f"{name}.sheet").write_bytes(data)
        (folder / f"{name}.report").write_text(report(data))
    print(f"{len(SHEETS)} sheets written")


if __name__ == "__main__":
    main()
