#!/usr/bin/env python3
"""A model of cuedesk: reads commands from standard input and prints the answers expected of the program.

It is written after docs/cuedesk.md and shares no code with the crates; the arithmetic, the narrowing and the run of settle are
those of make_sheets.py. Run it so: console/desk_model.py < crates/cuedesk/stdin
"""
import copy
import sys
from decimal import Decimal, getcontext

from make_sheets import SIZES, counter, half, settle

getcontext().prec = 60
TAKES = {"use": 1, "line": 2, "rule": 4, "pinch": 3, "settle": 1, "open": 0, "keep": 1, "strike": 1, "window": 1,
         "state": 0, "lines": 0, "store": 0, "value": 1, "help": 0}
HELP = ["sheet N counter", "sheet N half M", "use N", "line LO HI", "rule KIND A B C", "pinch L LO HI", "settle N", "open",
        "keep T", "strike T", "window L", "state", "lines", "store", "load N counter HEX", "load N half M HEX", "value L", "help"]


class Wrong(Exception):
    """A command that has no effect, and what is printed for it."""


def number(words):
    if not words:
        raise Wrong("error a word is missing")
    word = words.pop(0)
    if not all("0" <= letter <= "9" for letter in word):
        raise Wrong("error not a number")
    if int(word) > 4294967295:
        raise Wrong("error the number is too large")
    return int(word)


def end(words):
    if words:
        raise Wrong("error too many words")


def book_name(words):
    if not words:
        raise Wrong("error a word is missing")
    word = words.pop(0)
    if word == "counter":
        return ("counter", 0)
    if word == "half":
        return ("half", number(words))
    raise Wrong("error no such book")


def hexadecimal(words):
    if not words:
        raise Wrong("error a word is missing")
    word = words.pop(0)
    if len(word) % 2 or not all(letter in "0123456789abcdefABCDEF" for letter in word):
        raise Wrong("error not bytes in hexadecimal")
    return bytes.fromhex(word)


class Sheet:
    def __init__(self, name):
        kind, mode = name
        if kind == "half" and mode > 2:
            raise Wrong("refused 11")
        self.drive, self.mode = (1, 0) if kind == "counter" else (0, mode)
        self.book = counter() if kind == "counter" else half(mode)
        self.core = {"state": "unsettled", "lines": [], "rules": []}
        self.saved = []

    def alive(self):
        if self.core["state"] == "barren":
            raise Wrong("refused 7")

    def line(self, lo, hi):
        self.alive()
        if lo > hi or hi > self.book["top"]:
            raise Wrong("refused 1")
        if len(self.core["lines"]) == 64:
            raise Wrong("refused 5")
        self.core["lines"].append((lo, hi))
        self.core["state"] = "unsettled"
        return f"line {len(self.core['lines'])}"

    def rule(self, kind, a, b, c):
        self.alive()
        if not 2 <= kind <= 5:
            raise Wrong("refused 4")
        named = [a, b] if kind == 5 else [a, b, c]
        if any(not 1 <= k <= len(self.core["lines"]) for k in named) or (kind == 5 and c != 0):
            raise Wrong("refused 2")
        if len(set(named)) < len(named):
            raise Wrong("refused 3")
        if len(self.core["rules"]) == 128:
            raise Wrong("refused 5")
        self.core["rules"].append((kind, a, b, c))
        self.core["state"] = "unsettled"
        return f"rule {len(self.core['rules'])}"

    def window(self, k):
        if not 1 <= k <= len(self.core["lines"]):
            raise Wrong("refused 2")
        return self.core["lines"][k - 1]

    def pinch(self, k, lo, hi):
        self.alive()
        low, high = self.window(k)
        if lo > hi or hi > self.book["top"]:
            raise Wrong("refused 1")
        cut = (max(low, lo), min(high, hi))
        if cut[0] > cut[1]:
            raise Wrong("refused 6")
        self.core["lines"][k - 1] = cut
        self.core["state"] = "unsettled"
        return "pinched"

    def settle(self, n):
        self.alive()
        rules = [(kind, [a, b] if kind == 5 else [a, b, c]) for kind, a, b, c in self.core["rules"]]
        answer, windows = settle(self.book, self.core["lines"], rules, n)
        word = answer.split()[0]
        self.core["lines"] = windows
        self.core["state"] = {"standing": "standing", "spent": "unsettled", "barren": "barren"}[word]
        return answer

    def open(self):
        self.alive()
        if len(self.saved) == 8:
            raise Wrong("refused 8")
        self.saved.append(copy.deepcopy(self.core))

    def finish(self, ticket, me, keep):
        if keep:
            self.alive()
        if ticket != (me, len(self.saved)) or ticket[1] == 0:
            raise Wrong("refused 9")
        core = self.saved.pop()
        if not keep:
            self.core = core
        return "kept" if keep else "struck"

    def store(self):
        if self.saved:
            raise Wrong("refused 15")
        self.alive()
        records = [[1, 0, lo % 256, lo // 256, hi % 256, hi // 256, 0, 0] for lo, hi in self.core["lines"]]
        records += [[kind, 0, a, b, c, 0, 0, 0] for kind, a, b, c in self.core["rules"]]
        for k, record in enumerate(records):
            record[1] = k + 2 if k + 1 < len(records) else 0
        head = [1, 1 if records else 0, self.drive, self.mode, 0, 0, 0, 0]
        data = bytes(byte for record in [head] + records for byte in record)
        return f"stored {len(data)}\n{data.hex()}"

    def fill(self, data):
        """None, or the number of a refusal and the index."""
        if len(data) == 0 or len(data) > 2048 or len(data) % 8:
            return 10, 0
        if data[0] != 1 or data[2] != self.drive or data[3] != self.mode or any(data[4:8]):
            return 11, 0
        at, left = data[1], len(data) // 8 - 1
        while at:
            if at >= len(data) // 8 or left == 0:
                return 12, at
            r = data[8 * at:8 * at + 8]
            if r[0] == 1 and not any(r[6:]):
                call = lambda: self.line(r[2] + 256 * r[3], r[4] + 256 * r[5])
            elif 2 <= r[0] <= 5 and not any(r[5:]):
                call = lambda: self.rule(r[0], r[2], r[3], r[4])
            else:
                return 13, at
            try:
                call()
            except Wrong as why:
                return int(str(why).split()[1]), at
            at, left = r[1], left - 1
        return None

    def value(self, k):
        texts = []
        for code in self.window(k):
            if self.drive == 1:
                texts.append(str(code))
            else:
                text = format(Decimal(SIZES[code]) / Decimal(1 << 24), "f")
                texts.append(text.rstrip("0").rstrip(".") if "." in text else text)
        return "value " + " ".join(texts)


class Desk:
    def __init__(self):
        self.sheets, self.present, self.tickets, self.answered = {}, None, {}, 0

    def seat(self, n, name, data):
        if n in self.sheets and self.sheets[n].saved:
            raise Wrong(f"error open try on sheet {n}")
        sheet = Sheet(name)
        fault = None if data is None else sheet.fill(data)
        self.sheets[n] = Sheet(name) if fault else sheet
        self.present = n
        return f"refused {fault[0]} at {fault[1]}" if fault else f"sheet {n}"

    def play(self, line):
        words = [word for word in line.split(" ") if word]
        if line.startswith("#") or not words:
            return None
        verb = words.pop(0)
        if verb in ("sheet", "load"):
            n, name = number(words), None
            name = book_name(words)
            data = hexadecimal(words) if verb == "load" else None
            end(words)
            return self.seat(n, name, data)
        if verb not in TAKES:
            raise Wrong("error no such command")
        arguments = [number(words) for _ in range(TAKES[verb])]
        end(words)
        if verb == "help":
            return "\n".join(HELP + ["end"])
        if verb == "use":
            if arguments[0] not in self.sheets:
                raise Wrong(f"error no sheet {arguments[0]}")
            self.present = arguments[0]
            return f"sheet {arguments[0]}"
        if self.present is None:
            raise Wrong("error no sheet")
        return self.call(verb, arguments)

    def call(self, verb, arguments):
        sheet = self.sheets[self.present]
        if verb == "open":
            sheet.open()
            self.answered += 1
            self.tickets[self.answered] = (self.present, len(sheet.saved))
            return f"ticket {self.answered}"
        if verb in ("keep", "strike"):
            place = arguments[0]
            if place not in self.tickets:
                raise Wrong(f"error no ticket {place}")
            answer = sheet.finish(self.tickets[place], self.present, verb == "keep")
            del self.tickets[place]
            return answer
        if verb == "window":
            return "window {} {}".format(*sheet.window(arguments[0]))
        if verb == "state":
            return sheet.core["state"]
        if verb == "lines":
            return "\n".join([f"{k} {lo} {hi}" for k, (lo, hi) in enumerate(sheet.core["lines"], 1)] + ["end"])
        return getattr(sheet, verb)(*arguments)


def main():
    desk = Desk()
    for line in sys.stdin.read().split("\n"):
        try:
            answer = desk.play(line)
        except Wrong as why:
            answer = str(why)
        if answer is not None:
            print(answer)


if __name__ == "__main__":
    main()
