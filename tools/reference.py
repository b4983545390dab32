#!/usr/bin/env python3
"""An implementation of bundles, of reading and of joining of its own, written from docs/ alone.

It makes the data and the expected output that the gate holds the program to:

    tools/reference.py pack OUT FILE.hdl ...
    tools/reference.py list BUNDLE
    tools/reference.py outline BUNDLE
    tools/reference.py check BUNDLE       # whether it joins with the atoms
    tools/reference.py cases              # random and chosen bundles for reading, a line of hex each
    tools/reference.py verdicts < CASES   # what reading says of each
    tools/reference.py joining-cases      # those, and bundles for joining
    tools/reference.py joining-verdicts < CASES   # what reading, and then joining with the atoms and ROM, says of each
    tools/reference.py large OUT          # a bundle of 65,535 bytes, for bench/
    tools/reference.py full OUT           # one of 65,535 bytes that joins, with 1,024 parts and 4,096 connections
    tools/reference.py full1 OUT          # as many of both in a single text
"""
import os
import random
import sys
from collections import defaultdict, namedtuple

RESERVED = {"CHIP", "IN", "OUT", "PARTS", "BUILTIN", "CLOCKED", "true", "false"}
PINS, PARTS, CONNECTIONS = 1024, 1024, 4096


# The pins of a chip are a dict by name, in the order of the header. A side is "IN" or "OUT"; `first` is the
# pin's first bit on its side; `at` is the byte of a name. A subscript is (), (n,) or (n, m). A far end is True,
# False or a name, and a constant stands at no byte.
Chip = namedtuple("Chip", "name pins parts")
Pin = namedtuple("Pin", "name side first width at")
Part = namedtuple("Part", "name at connections")
Connection = namedtuple("Connection", "near at bits far far_at far_bits")


class Fault(Exception):
    """A fault: number and byte in a text, or number, entry and byte in a bundle."""


# Bundles: docs/BUNDLE.md


def word(n):
    return bytes([n % 256, n // 256])


def pack(files):
    texts = {os.path.basename(f)[: -len(".hdl")]: open(f, "rb").read() for f in files}
    return pack_texts(texts)


def pack_texts(texts):
    names = sorted(texts, key=lambda name: name.encode())
    at = 2 + 36 * len(names)
    head, body = word(len(names)), b""
    for name in names:
        text = texts[name]
        head += name.encode().ljust(32, b"\0") + word(at) + word(len(text))
        at += len(text)
        body += text
    return head + body


def rows(data):
    for k in range(data[0] + 256 * data[1]):
        row = data[2 + 36 * k : 38 + 36 * k]
        name = row[:32].rstrip(b"\0").decode()
        yield k, name, row[32] + 256 * row[33], row[34] + 256 * row[35]


def listing(data):
    table = list(rows(data))
    width = max((len(name) for _, name, _, _ in table), default=0)
    for k, name, start, size in table:
        print(f"{k:>3} {name:<{width}} {start:>5} {size:>5}")
    print(f"{len(table)} texts, {len(data)} bytes")


# Tokens and grammar: docs/LANGUAGE.md


def is_alnum(b):
    return chr(b).isascii() and chr(b).isalnum()


def tokens(text):
    """Pairs of byte and token; the last is the end. A place without a token is a Fault token."""
    at, n = 0, len(text)
    while True:
        while at < n:
            if text[at] in b" \t\r\n":
                at += 1
            elif text[at : at + 2] == b"//":
                end = text.find(b"\n", at)
                at = n if end < 0 else end
            elif text[at : at + 2] == b"/*":
                end = text.find(b"*/", at + 2)
                if end < 0:
                    raise Fault(4, at)
                at = end + 2
            else:
                break
        if at == n:
            yield at, None
            return
        if is_alnum(text[at]):
            end = at
            while end < n and is_alnum(text[end]):
                end += 1
            run = text[at:end].decode()
            if run.isdigit():
                if int(run) > 65535:
                    raise Fault(4, at)
                yield at, int(run)
            elif run[0].isdigit() or len(run) > 32:
                raise Fault(4, at)
            elif run in RESERVED:
                yield at, ("mark", run)
            else:
                yield at, ("name", run)
            at = end
        elif text[at : at + 2] == b"..":
            yield at, ("mark", "..")
            at += 2
        elif text[at : at + 1] in [bytes([c]) for c in b"{}()[],;:="]:
            yield at, ("mark", chr(text[at]))
            at += 1
        else:
            raise Fault(4, at)


class Reader:
    """One text, by recursive descent; `counts` are the records of all texts so far."""

    def __init__(self, name, text, counts):
        self.name, self.counts, self.source = name, counts, tokens(text)
        self.declared = {}
        self.advance()

    def advance(self):
        self.at, self.token = next(self.source)

    def broken(self):
        raise Fault(5, self.at)

    def sees(self, mark):
        return self.token == ("mark", mark)

    def mark(self, wanted):
        if not self.sees(wanted):
            self.broken()
        self.advance()

    def named(self, kind=None):
        """A name and its byte."""
        if not (isinstance(self.token, tuple) and self.token[0] == "name"):
            self.broken()
        if kind is not None:
            limit = {"pins": PINS, "parts": PARTS, "connections": CONNECTIONS}[kind]
            if self.counts[kind] == limit:
                raise Fault(3, self.at)
        name, at = self.token[1], self.at
        self.advance()
        return name, at

    def number(self):
        if not isinstance(self.token, int):
            self.broken()
        n = self.token
        self.advance()
        return n

    def pins(self, side):
        bits = 0
        while True:
            name, at = self.named("pins")
            width = 1
            if self.sees("["):
                self.advance()
                width = self.number()
                self.mark("]")
            if not (self.sees(",") or self.sees(";")):
                self.broken()
            if name in self.declared or not 1 <= width <= 16 or bits + width > 64:
                raise Fault(7, self.at)
            self.declared[name] = Pin(name, side, bits, width, at)
            bits += width
            self.counts["pins"] += 1
            last = self.sees(";")
            self.advance()
            if last:
                return

    def subscript(self):
        if not self.sees("["):
            return ()
        self.advance()
        bits = (self.number(),)
        if self.sees(".."):
            self.advance()
            bits += (self.number(),)
        self.mark("]")
        return bits

    def connection(self):
        near, at = self.named("connections")
        bits = self.subscript()
        self.mark("=")
        if self.sees("true") or self.sees("false"):
            far, far_at, far_bits = self.sees("true"), None, ()
            self.advance()
        else:
            far, far_at = self.named()
            far_bits = self.subscript()
        if not (self.sees(",") or self.sees(")")):
            self.broken()
        self.counts["connections"] += 1
        return Connection(near, at, bits, far, far_at, far_bits)

    def part(self):
        name, at = self.named("parts")
        self.mark("(")
        joined = [self.connection()]
        while self.sees(","):
            self.advance()
            joined.append(self.connection())
        self.mark(")")
        self.counts["parts"] += 1
        self.mark(";")
        return Part(name, at, joined)

    def chip(self):
        self.mark("CHIP")
        at = self.at
        if isinstance(self.token, tuple) and self.token[0] == "name" and self.token[1] != self.name:
            raise Fault(6, at)
        self.named()
        self.mark("{")
        if self.sees("IN"):
            self.advance()
            self.pins("IN")
        self.mark("OUT")
        self.pins("OUT")
        self.mark("PARTS")
        self.mark(":")
        parts = [self.part()]
        while not self.sees("}"):
            parts.append(self.part())
        self.advance()
        if self.token is not None:
            self.broken()
        return Chip(self.name, self.declared, parts)


def read(data):
    """The chips, and the counts of their records; or raises (number, entry, byte)."""
    counts, chips = {"pins": 0, "parts": 0, "connections": 0}, []
    for k, name, start, size in rows(data):
        try:
            chips.append(Reader(name, data[start : start + size], counts).chip())
        except Fault as fault:
            number, byte = fault.args
            raise Fault(number, k, byte) from None
    return chips, counts


def spelled(name, bits):
    if isinstance(name, bool):
        return "true" if name else "false"
    return name + (f"[{'..'.join(map(str, bits))}]" if bits else "")


def outline(data):
    chips, counts = read(data)
    for chip in chips:
        print(chip.name)
        for side in "IN", "OUT":
            pins = [spelled(p.name, (p.width,) if p.width > 1 else ()) for p in chip.pins.values() if p.side == side]
            if pins:
                print(f"    {side} {', '.join(pins)}")
        for part in chip.parts:
            wires = [f"{spelled(c.near, c.bits)}={spelled(c.far, c.far_bits)}" for c in part.connections]
            print(f"    {part.name}({', '.join(wires)})")
    print(total(chips, counts))


def total(chips, counts):
    return f"{len(chips)} chips, {counts['pins']} pins, {counts['parts']} parts, {counts['connections']} connections"


# Joining: docs/LANGUAGE.md. A kit has the inputs and the outputs of each built-in part, as widths by name.

ATOMS = {"Nand": ({"a": 1, "b": 1}, {"out": 1}), "DFF": ({"in": 1}, {"out": 1})}
WITH_ROM = {**ATOMS, "ROM": ({"address": 15}, {"out": 16})}


def built_in(*sides):
    """The pins of a built-in part, as a chip with this header would have them."""
    pins = {}
    for side, widths in zip(("IN", "OUT"), sides):
        first = 0
        for name, width in widths.items():
            pins[name] = Pin(name, side, first, width, None)
            first += width
    return pins


def meant(pin, subscript):
    """The bits of its side that a pin with this subscript means; none if the subscript is not allowed."""
    low, high = (subscript[0], subscript[-1]) if subscript else (0, pin.width - 1)
    return {pin.first + i for i in range(low, high + 1)} if high < pin.width else set()


def weighed(chip, known):
    """What is wrong in one text: pairs of byte and number for rules 8 to 12, and such pairs for rule 13.

    A record that breaks a rule takes no part in the rules behind it. That hides nothing: what would come of
    it stands at the same byte with a higher number, or at a later byte.
    """
    internal = lambda c: isinstance(c.far, str) and c.far not in chip.pins
    mentions = {}
    for part in chip.parts:
        for c in part.connections:
            if internal(c):
                mentions.setdefault(c.far, c)

    broken = [(part.at, 8) for part in chip.parts if part.name not in known]
    parts = [(part, known[part.name]) for part in chip.parts if part.name in known]

    broken += [(c.at, 9) for part, pins in parts for c in part.connections if c.near not in pins]
    wires = [(part, pins[c.near], c) for part, pins in parts for c in part.connections if c.near in pins]

    near = {c: meant(pin, c.bits) for _, pin, c in wires}
    far = {c: meant(chip.pins[c.far], c.far_bits) for _, _, c in wires if c.far in chip.pins}

    def may_stand(pin, c):
        """Whether the subscripts are allowed, and the far end is one for this side of a part."""
        if internal(c):
            return near[c] and not c.far_bits
        if isinstance(c.far, bool):
            return near[c] and pin.side == "IN"
        return near[c] and far[c] and chip.pins[c.far].side == pin.side

    broken += [(c.at, 10) for _, pin, c in wires if not may_stand(pin, c)]
    wires = [(part, pin, c) for part, pin, c in wires if may_stand(pin, c)]

    def widths(c):
        yield len(near[c])
        if internal(c):
            yield len(near.get(mentions[c.far], ()))
        elif c in far:
            yield len(far[c])

    broken += [(c.at, 11) for _, _, c in wires if len(set(widths(c))) > 1]

    feeders = defaultdict(list)  # the bytes of the connections that feed a thing
    for part, pin, c in wires:
        if pin.side == "IN":
            things = {(part.at, bit) for bit in near[c]}
        else:
            things = {c.far} if internal(c) else {("OUT", bit) for bit in far[c]}
        for thing in things:
            feeders[thing].append(c.at)
    broken += [(at, 12) for ats in feeders.values() for at in sorted(ats)[1:]]

    outputs = [pin for pin in chip.pins.values() if pin.side == "OUT"]
    wanted = {("OUT", bit): pin.at for pin in outputs for bit in meant(pin, ())}
    wanted |= {name: c.far_at for name, c in mentions.items()}
    for part, pins in parts:
        wanted |= {(part.at, bit): part.at for pin in pins.values() if pin.side == "IN" for bit in meant(pin, ())}
    return broken, [(at, 13) for thing, at in wanted.items() if thing not in feeders]


def join(chips, kit):
    """Nothing, if the chips join; or raises (number, entry, byte)."""
    known = {name: built_in(*sides) for name, sides in kit.items()}
    known |= {chip.name: chip.pins for chip in chips}
    for faults in zip(*[weighed(chip, known) for chip in chips]):
        found = [(k, *fault) for k, pairs in enumerate(faults) for fault in pairs]
        if found:
            k, byte, number = min(found)
            raise Fault(number, k, byte)


def check(data):
    try:
        chips, counts = read(data)
        join(chips, ATOMS)
        return f"{total(chips, counts)}: all joined"
    except Fault as fault:
        return spelled_fault(fault)


def spelled_fault(fault):
    return "fault " + " ".join(map(str, fault.args))


def verdict(texts):
    data = pack_texts({chr(65 + i): t for i, t in enumerate(texts)})
    try:
        chips, counts = read(data)
    except Fault as fault:
        return spelled_fault(fault)
    told = f"read {counts['pins']} {counts['parts']} {counts['connections']}; "
    try:
        join(chips, WITH_ROM)
        return told + "joined"
    except Fault as fault:
        return told + spelled_fault(fault)


def verdicts(joined):
    for line in sys.stdin:
        told = verdict([bytes.fromhex(t[1:]) for t in line.split()])
        print(told if joined else told.split(";")[0])


# Cases


def chosen():
    head = "CHIP A { IN a; OUT b; PARTS: "
    yield from ["", " ", "/**/", "/*/", "/*", "//", "/* */ // x", ".", "/", "..", "7a", "a..b", "\xc3"]
    yield from ["CHIP", "CHIP A", "CHIP B", "CHIP A {", "CHIP A { IN", "CHIP A { IN a", "CHIP A { IN a,"]
    yield from ["CHIP A { IN a;", "CHIP A { OUT", "CHIP A { OUT b;", "CHIP A { OUT b; PARTS", head]
    yield from [head + "N", head + "N(", head + "N(x", head + "N(x=", head + "N(x=y", head + "N(x=y)"]
    yield from [head + "N(x=y);", head + "N(x=y);}", head + "N(x=y);} ", head + "N(x=y);} x", head + "}"]
    yield from [head + "N(x=y,z=true,w[1]=v[2],u[1..2]=t[3..4]);}", head + "N(x=true[0]);}", head + "N(x=y,);}"]
    yield from [head + "N(x[1=y);}", head + "N(x[1..]=y);}", head + "N(x[..1]=y);}", head + "N(x[]=y);}"]
    yield from [head + "N(x[65535]=y[0..65535]);}", head + "N(x[65536]=y);}", head + "N(x[007]=y);}"]
    yield from [head + "N(x=IN);}", head + "IN(x=y);}", "CHIP IN { OUT b; PARTS: N(x=y); }", "CHIP A { IN IN; OUT b; }"]
    for w in ["0", "1", "16", "17", "65535", "65536"]:
        yield f"CHIP A {{ OUT b[{w}]; PARTS: N(x=b); }}"
    yield "CHIP A { IN a, a; OUT b; PARTS: N(x=b); }"
    yield "CHIP A { IN a; OUT a; PARTS: N(x=b); }"
    yield "CHIP A { IN a, A; OUT b; PARTS: N(x=b); }"
    for last in ["16", "17", "1"]:
        yield f"CHIP A {{ IN a[16], b[16], c[16], d[{last}]; OUT e; PARTS: N(x=e); }}"
        yield f"CHIP A {{ IN a[16], b[16], c[16], d[16], f[{last}]; OUT e; PARTS: N(x=e); }}"
        yield f"CHIP A {{ IN z; OUT a[16], b[16], c[16], d[16], f[{last}]; PARTS: N(x=e); }}"
    yield f"CHIP A {{ OUT {'b' * 32}; PARTS: N(x=b); }}"
    yield f"CHIP A {{ OUT {'b' * 33}; PARTS: N(x=b); }}"
    yield "CHIP A { IN a; IN b; OUT c; PARTS: N(x=b); }"
    yield "CHIP A { OUT c; IN b; PARTS: N(x=b); }"
    yield "CHIP A { BUILTIN N; }"
    for b in range(256):
        yield chr(b)


def mutated(rng, text):
    words = text.split(" ")
    for _ in range(rng.randrange(3)):
        i = rng.randrange(len(words))
        act = rng.randrange(4)
        if act == 0:
            words[i] = rng.choice(["CHIP", "IN", "OUT", "PARTS", ":", ";", ",", "(", ")", "{", "}", "=", "x", "7", "[", "]"])
        elif act == 1:
            del words[i]
        elif act == 2:
            words.insert(i, words[rng.randrange(len(words))])
        else:
            words[i] = words[i] + rng.choice(["", "/*x*/", "//", "[3]", "[1..2]", ".", "true"])
        if not words:
            words = ["x"]
    return " ".join(words)


def chip(parts, pins="IN a, b; OUT o;", name="A"):
    return f"CHIP {name} {{ {pins} PARTS: {parts} }}"


def joining():
    """Chosen bundles that are read: the fault expected (0 for none), and texts with a ^ where it is expected."""
    nand = "Nand(a=a, b=b, out=o);"
    bus = "IN a[4], b; OUT o[4], p;"  # the bus pin stands before a pin of one bit on either side
    four = "Nand(a=a[0], b=b, out=o[0]); Nand(a=a[1], b=b, out=o[1]); Nand(a=a[2], b=b, out=o[2]);"
    rest = " Nand(a=a[3], b=b, out=o[3]); Nand(a=b, b=b, out=p);"
    three = "IN s[3]; OUT o;"
    rom = "IN n[15]; OUT w[16];"
    take = chip("Nand(a=d[0], b=d[3], out=q[0]); DFF(in=e, out=q[1], out=r);", "IN d[4], e; OUT q[2], r;", "B")
    wide = "IN a[16], b[16], c[16], d[16]; OUT e[16], f[16], g[16], h[16];"
    each = " ".join(f"ROM(address={n}[0..14], out={m});" for n, m in zip("abcd", "efgh"))
    whole = chip(each, wide, "B")
    through = "a=a, b=b, c=c, d=d, e=e, f=f, g=g, h=h"

    # 8, and names of parts
    yield 0, chip(nand)
    yield 0, chip("DFF(in=a, out=o);")
    yield 0, chip("ROM(address=n, out=w);", rom)
    for name in ["N", "nand", "NAND", "Nan", "Nand2", "Dff", "Rom", "ROM32K", "B", "AA", "a", "o"]:
        yield 8, chip(f"^{name}(a=a, b=b, out=o);")
    yield 8, chip(f"{nand} ^Not(in=a, out=x);")
    yield 8, chip("^Not(in=a, in=a, q[9]=true, out=o[9]);")
    yield 8, chip("^Not(in=a, out=x); Or(in=x, out=o);")
    yield 0, chip("A(a=a, b=b, o=o);")
    yield 0, chip("A(a=b, b=a, o=x); A(a=x, b=true, o=o);")
    yield 0, chip("B(a=a, b=b, o=o);"), chip("A(a=a, b=b, o=o);", name="B")
    yield 0, chip(nand), chip("A(a=a, b=b, o=x); C(a=x, b=x, o=o);", name="B"), chip(nand, name="C")
    yield 8, chip(nand), chip("A(a=a, b=b, o=x); ^D(a=x, b=x, o=o);", name="B"), chip(nand, name="C")

    # 9
    for name in ["c", "A", "aa", "o", "ou", "out2", "Out", "in"]:
        yield 9, chip(f"Nand(a=a, ^{name}=b, out=o);")
    yield 9, chip("Nand(^in=a, b=b, out=o);")
    yield 9, chip("Nand(a=a, b=b, ^o=o);")
    yield 9, chip("DFF(^a=a, out=o);")
    yield 9, chip("ROM(^addr=n, out=w);", rom)
    yield 9, chip("Nand(a=a, b=b, ^out2[7..3]=true, a=a);")
    yield 9, chip("Nand(a=a, b=b, ^c=x[1], out=o);")
    yield 0, chip("B(d=a, e=b, r=p, q=o[2..3], q=o[0..1]);", bus), take
    for name in ["a", "D", "f", "qq", "x"]:
        yield 9, chip(f"B(d=a, e=b, ^{name}=b, q=o[2..3], q=o[0..1], r=p);", bus), take
    yield 9, chip("B(^a=a, b=b, o=o);"), chip("Nand(a=i, b=i, out=q);", "IN i; OUT q;", "B")
    yield 9, chip("A(a=a, b=b, ^x=x, o=o);")

    # 10: subscripts at the near end
    yield 0, chip("Nand(a[0]=a, b[0..0]=b, out[0]=o);")
    for run in ["[1]", "[0..1]", "[1..0]", "[1..1]", "[15]", "[16]", "[64]", "[65535]", "[0..65535]", "[65535..0]"]:
        yield 10, chip(f"Nand(a=a, ^b{run}=b, out=o);")
        yield 10, chip(f"Nand(a=a, b=b, ^out{run}=o);")
        yield 10, chip(f"Nand(^a{run}=true, b=b, out=o);")
        yield 10, chip(f"Nand(a=a, b=b, out=o, ^out{run}=x);")
    yield 0, chip("B(d[0..3]=a, e=b, r=p, q[1]=o[3], q[0..1]=o[1..2], q[0..0]=o[0]);", bus), take
    yield 0, chip("B(d[3]=b, d[0]=b, d[1..2]=a[1..2], e=b, r=p, q=o[2..3], q=o[0..1]);", bus), take
    for run in ["[4]", "[0..4]", "[3..4]", "[3..2]", "[1..0]", "[4..4]", "[5..9]"]:
        yield 10, chip(f"B(^d{run}=a, e=b, r=p, q=o[2..3], q=o[0..1]);", bus), take
        yield 10, chip(f"B(^d{run}=false, e=b, r=p, q=o[2..3], q=o[0..1]);", bus), take
    for run in ["[2]", "[0..2]", "[1..2]", "[1..0]", "[2..2]"]:
        yield 10, chip(f"B(d=a, e=b, r=p, ^q{run}=o[2..3], q=o[0..1]);", bus), take
    yield 0, chip("ROM(address[0..14]=n[0..14], out[0..15]=w[0..15]);", rom)
    yield 0, chip("ROM(address[14]=n[0], address[0..13]=n[1..14], out[15]=w[0], out[0..14]=w[1..15]);", rom)
    yield 10, chip("ROM(^address[15]=n[0], address=n, out=w);", rom)
    yield 10, chip("ROM(^address[0..15]=n, out=w);", rom)
    yield 10, chip("ROM(address=n, ^out[16]=w[0], out=w);", rom)
    yield 10, chip("ROM(address=n, ^out[1..16]=w);", rom)

    # 10: subscripts at the far end
    yield 0, chip(four + rest, bus)
    yield 0, chip("Nand(a=a[0], b=b[0..0], out=o[0]);")
    for run in ["[1]", "[0..1]", "[1..0]", "[65535]"]:
        yield 10, chip(f"Nand(^a=a{run}, b=b, out=o);")
        yield 10, chip(f"Nand(a=a, b=b, ^out=o{run});")
    for run in ["[4]", "[0..4]", "[3..4]", "[3..2]", "[4..4]"]:
        yield 10, chip(f"{four} Nand(^a=a{run}, b=b, out=o[3]); Nand(a=b, b=b, out=p);", bus)
        yield 10, chip(f"{four} Nand(a=a[3], b=b, ^out=o{run}); Nand(a=b, b=b, out=p);", bus)
        yield 10, chip(f"B(^d=a{run}, e=b, r=p, q=o[2..3], q=o[0..1]);", bus), take
        yield 10, chip(f"B(d=a, e=b, r=p, ^q=o{run}, q=o[0..1]);", bus), take
    for run in ["[0]", "[0..0]", "[1]", "[1..0]", "[0..15]"]:
        yield 10, chip(f"Nand(a=a, b=b, out=x); Nand(^a=x{run}, b=x, out=o);")
        yield 10, chip(f"Nand(a=a, b=b, ^out=x{run}); Nand(a=x, b=x, out=o);")
    yield 10, chip("ROM(address=n, out=x, out=w); Nand(^a=x[3], b=n[0], out=y);", rom)

    # 10: far ends that may not stand there
    for far in ["true", "false", "a", "b", "a[0]"]:
        yield 10, chip(f"Nand(a=a, b=b, out=o, ^out={far});")
    for far in ["o", "o[0]", "o[0..0]"]:
        yield 10, chip(f"Nand(a=a, ^b={far}, out=o);")
    yield 10, chip("DFF(^in=o, out=o);")
    yield 10, chip("B(d=a, e=b, ^q=true, r=p, q=o[2..3], q=o[0..1]);", bus), take
    yield 10, chip("B(d=a, e=b, r=p, q=o[2..3], q=o[0..1]); DFF(^in=p, out=x);", bus), take
    yield 10, chip("B(d=a, e=b, r=p, q=o[2..3], ^r=b, q=o[0..1]);", bus), take
    yield 10, chip("B(^d=o, e=b, r=p, q=o[2..3], q=o[0..1]);", bus), take
    # the part's pins have the names of the chip's, on the other side
    yield 0, chip("B(o=a, a=o);", "IN a; OUT o;"), chip("DFF(in=o, out=a);", "IN o; OUT a;", "B")
    yield 10, chip("B(^o=o, a=a);", "IN a; OUT o;"), chip("DFF(in=o, out=a);", "IN o; OUT a;", "B")
    yield 10, chip("B(o=a, ^a=a);", "IN a; OUT o;"), chip("DFF(in=o, out=a);", "IN o; OUT a;", "B")

    # 11, and constants of any width
    for far in ["true", "false"]:
        yield 0, chip(f"ROM(address={far}, out=w);", rom)
        yield 0, chip(f"ROM(address[0..7]={far}, address[8]={far}, address[9..14]=n[3..8], out=w);", rom)
        yield 0, chip(f"Nand(a={far}, b[0]={far}, out=o);")
        yield 0, chip(f"B(d[1..2]={far}, d[0]=b, d[3]=b, e={far}, r=p, q=o[2..3], q=o[0..1]);", bus), take
    for far in ["a", "a[0..1]", "a[2..3]", "a[0..3]"]:
        yield 11, chip(f"{four} Nand(^a={far}, b=b, out=o[3]); Nand(a=b, b=b, out=p);", bus)
    for far in ["o", "o[0..1]", "o[2..3]", "o[0..3]"]:
        yield 11, chip(f"{four} Nand(a=a[3], b=b, ^out={far}); Nand(a=b, b=b, out=p);", bus)
    for near, far in [("d", "b"), ("d", "a[0]"), ("d", "a[0..2]"), ("d[0..2]", "a"), ("d[2]", "a[2..3]"), ("e", "a")]:
        yield 11, chip(f"B(^{near}={far}, e=b, r=p, q=o[2..3], q=o[0..1]);", bus), take
    for near, far in [("q", "o"), ("q", "p"), ("q[0]", "o[0..1]"), ("q[0..1]", "o[0]"), ("r", "o")]:
        yield 11, chip(f"B(d=a, e=b, ^{near}={far}, r=p, q=o[2..3], q=o[0..1]);", bus), take
    yield 11, chip("ROM(^address=w2, out=w);", rom.replace("n[15]", "w2[16]"))
    yield 11, chip("ROM(address=n, ^out=w);", rom.replace("w[16]", "w[15]"))
    yield 11, chip("ROM(address=n, ^out[0..14]=w);", rom)
    # internal pins: the first mention has the width, an input or an output
    yield 0, chip("ROM(address=n, out[1..15]=x); ROM(address=x, out=w);", rom)
    yield 0, chip("ROM(address=x, out=w); ROM(address=n, out[1..15]=x);", rom)
    yield 0, chip("ROM(address=n, out=w, out=x, out[0..14]=y, out[7]=z); Nand(a=z, b=z, out=v); ROM(address=y);", rom)
    yield 11, chip("ROM(address=n, out=w, out=x); ROM(^address=x, out=y);", rom)
    yield 11, chip("ROM(address=x, out=w); ROM(address=n, ^out=x);", rom)
    yield 11, chip("DFF(in=x, out=y); ROM(address=n, out=w, ^out=x);", rom)
    yield 11, chip("DFF(in=x, out=y); ROM(^address=x, out=w); DFF(in=y, out=x);", rom)
    yield 11, chip("ROM(address[0..6]=x, ^address[7..14]=x, out=w); ROM(address=n, out[0..6]=x);", rom)
    yield 0, chip("ROM(address[0..6]=x, address[7..13]=x, address[14]=n[0], out=w); ROM(address=n, out[3..9]=x);", rom)
    yield 11, chip("ROM(address=n, out=w, out[0..6]=x); ROM(^address=x);", rom)
    yield 11, chip("ROM(address=n, out=w, out[0..6]=x, ^out[0..7]=x);", rom)
    yield 11, chip("B(d=x, e=b, r=p, q=o[2..3], q=o[0..1], ^q=x);", bus), take
    # two texts have an internal pin of one name and different widths
    broad, slim = "ROM(address=x, out=w); ROM(address=n, out[1..15]=x);", "DFF(in=a, out=x); DFF(in=x, out=o);"
    yield 0, chip(broad, rom), chip(slim, name="B")
    yield 0, chip(slim), chip(broad, rom, "B")
    # a pin of one text is an internal pin in the other
    yield 0, chip(nand), chip("DFF(in=i, out=a); Nand(a=a, b=b, out=q, out=o); DFF(in=o, out=b);", "IN i; OUT q;", "B")

    # 12
    yield 12, chip("Nand(a=a, ^a=b, b=b, out=o);")
    yield 12, chip("Nand(a=a, b=b, ^a=a, out=o);")
    yield 12, chip("Nand(a=true, b=b, out=o, ^a=false);")
    yield 12, chip("Nand(a[0]=a, b=b, out=o, ^a=a);")
    yield 12, chip("Nand(a=a, b=b, out=o, ^b=x, out=x);")
    yield 0, chip("Nand(a=a, b=a, out=o);")
    yield 0, chip("Nand(a=a, b=b, out=x); Nand(a=a, b=b, out=o);")
    yield 12, chip("B(d=a, ^d[2]=b, e=b, r=p, q=o[2..3], q=o[0..1]);", bus), take
    yield 12, chip("B(d[0..2]=a[0..2], ^d[2..3]=a[2..3], e=b, r=p, q=o[2..3], q=o[0..1]);", bus), take
    yield 12, chip("B(d[2..3]=a[2..3], ^d[0..2]=a[0..2], e=b, r=p, q=o[2..3], q=o[0..1]);", bus), take
    yield 12, chip("B(d[1..2]=a[0..1], ^d=a, e=b, r=p, q=o[2..3], q=o[0..1]);", bus), take
    yield 12, chip("B(d[0]=b, d[3]=b, ^d=true, e=b, r=p, q=o[2..3], q=o[0..1]);", bus), take
    yield 0, chip("B(d[0..1]=a[0..1], d[2..3]=a[1..2], e=b, r=p, q=o[2..3], q=o[0..1]);", bus), take
    yield 0, chip("B(d[3]=b, d[1]=b, d[2]=b, d[0]=b, e=b, r=p, q=o[2..3], q=o[0..1]);", bus), take
    yield 12, chip("ROM(address=n, ^address[0]=n[0], out=w);", rom)
    yield 12, chip("ROM(address[0..7]=n[0..7], ^address[7..14]=n[7..14], out=w);", rom)
    yield 12, chip("ROM(address[14]=true, ^address[0..14]=n, out=w);", rom)
    # an output of the chip, by one part or two
    yield 12, chip("Nand(a=a, b=b, out=o, ^out=o);")
    yield 12, chip(f"{nand} Nand(a=a, b=b, ^out=o);")
    yield 12, chip(f"{nand} DFF(in=a, ^out=o[0]);")
    yield 12, chip(f"{four} Nand(a=a[3], b=b, ^out=o[0]); Nand(a=b, b=b, out=p);", bus)
    yield 12, chip("B(d=a, e=b, r=p, q=o[2..3], ^q=o[1..2], q=o[0..1]);", bus), take
    yield 12, chip("B(d=a, e=b, r=p, q=o[2..3], q=o[0..1], ^r=o[3]);", bus), take
    yield 0, chip("B(d=a, e=b, r=p, q=o[2..3], q[1]=o[1], r=o[0]);", bus), take
    yield 12, chip("ROM(address=n, out=w, ^out[15]=w[15]);", rom)
    yield 12, chip("ROM(address=n, out[0..8]=w[0..8], ^out[8..15]=w[8..15]);", rom)
    yield 0, chip("ROM(address=n, out[0..8]=w[7..15], out[9..15]=w[0..6]);", rom)
    # an internal pin
    yield 12, chip("Nand(a=a, b=b, out=x, ^out=x); Nand(a=x, b=x, out=o);")
    yield 12, chip("Nand(a=a, b=b, out=x); Nand(a=x, b=x, out=o, ^out=x);")
    yield 12, chip("Nand(a=x, b=x, out=o); DFF(in=a, out=x); DFF(in=b, ^out=x);")
    yield 12, chip("B(d=a, e=b, r=p, q=o[2..3], q=o[0..1], q[0]=x, ^q[1]=x);", bus), take
    yield 0, chip("DFF(in=a, out=x); DFF(in=x, out=X); DFF(in=X, out=xx); DFF(in=xx, out=o);")
    yield 12, chip("DFF(in=a, out=x); DFF(in=x, out=xx, ^out=x); DFF(in=xx, out=o);")
    # fan-out, use before feeding, and what is fed and not used
    yield 0, chip("Nand(a=a, b=b, out=o, out=x, out=y); Nand(a=x, b=y, out=z);")
    yield 0, chip("Nand(a=x, b=x, out=o); Nand(a=a, b=b, out=x);")
    yield 0, chip("Nand(a=x, b=a, out=x, out=o);")
    yield 0, chip(f"{nand} DFF(in=a, out=x);")
    yield 0, chip(f"{nand} DFF(in=true);")
    yield 0, chip("Nand(a=true, b=false, out=o);", "OUT o;")
    yield 0, chip("DFF(in=x, out=x, out=o);", "OUT o;")
    yield 0, chip("B(q=x); DFF(in=x, out=o);", "OUT o;"), chip("DFF(in=true, out=q);", "OUT q;", "B")

    # 13: an input of a part
    yield 13, chip("^Nand(a=a, out=o);")
    yield 13, chip("^Nand(b=a, out=o);")
    yield 13, chip("^Nand(out=o);")
    yield 13, chip("^DFF(out=o);")
    yield 13, chip(f"{nand} ^DFF(out=x);")
    yield 13, chip("^ROM(out=w);", rom)
    for part in ["[0..13]=n[0..13]", "[1..14]=n[0..13]", "[14]=n[0]", "[0]=true", "[0..6]=true, address[8..14]=n[8..14]"]:
        yield 13, chip(f"^ROM(address{part}, out=w);", rom)
    for part in ["d=a", "e=b", "d[0..2]=a[0..2], e=b", "d[1..3]=a[1..3], e=b", "d[0]=b, d[2..3]=true, e=b"]:
        yield 13, chip(f"^B({part}, r=p, q=o[2..3], q=o[0..1]);", bus), take
    # an output of the chip
    yield 13, chip("Nand(a=a, b=b, out=x);", "IN a, b; OUT ^o;")
    yield 13, chip("DFF(in=s[0], out=o); DFF(in=s[1], out=q);", "IN s[3]; OUT o, ^p, q;")
    yield 13, chip("DFF(in=s[0], out=q); DFF(in=s[1], out=o);", "IN s[3]; OUT o, ^p, q, r;")
    yield 13, chip(four + " DFF(in=b, out=p);", "IN a[4], b; OUT ^o[4], p;")
    yield 13, chip(four + " DFF(in=b, out=o[3]);", "IN a[4], b; OUT o[4], ^p;")
    yield 13, chip("ROM(address=n, out[0..14]=w[0..14]);", "IN n[15]; OUT ^w[16];")
    yield 13, chip("ROM(address=n, out[0..14]=w[1..15]);", "IN n[15]; OUT ^w[16];")
    yield 13, chip("ROM(address=n, out[0..6]=w[0..6], out[8..15]=w[8..15]);", "IN n[15]; OUT ^w[16];")
    yield 13, chip("DFF(in=a, out=x);", "IN a; OUT ^a2, b, c;")
    # an internal pin
    yield 13, chip("Nand(a=a, b=^x, out=o);")
    yield 13, chip("Nand(a=^x, b=x, out=o);")
    yield 13, chip("DFF(in=a, out=o); DFF(in=^X, out=x); Nand(a=x, b=X, out=y);")
    yield 13, chip("Nand(a=/* x */ ^x, b=x, out=o);")
    yield 13, chip("Nand(a=a, b=^aa, out=o);")
    yield 13, chip("Nand(a=a, b=^A, out=o);")
    yield 13, chip("Nand(a=a, b=^out, out=o);")
    yield 13, chip("ROM(address=^x, out=w);", rom)
    yield 13, chip("DFF(in=a, out=x); DFF(in=x, out=o);"), chip("DFF(in=^x, out=o);", name="B")
    yield 13, chip("DFF(in=^x, out=o);"), chip("DFF(in=a, out=x); DFF(in=x, out=o);", name="B")
    yield 13, chip(nand), chip("DFF(in=i, out=q); Nand(a=^a, b=i, out=x);", "IN i; OUT q;", "B")

    # all 64 bits of both sides
    yield 0, chip(f"B({through});", wide), whole
    yield 0, chip("B(e=h, f=g, g=f, h=e, d=a, c=b, b=c, a=d);", wide), whole
    for near, far in zip("abcd", "efgh"):
        for i in [0, 15]:
            yield 12, chip(f"B({through}, ^{near}[{i}]=true);", wide), whole
            yield 12, chip(f"B({through}, ^e[0]={far}[{i}]);", wide), whole
            some = f"{1 - i // 15}..{15 - i // 15}"
            yield 13, chip(f"^B({through});".replace(f"{near}={near}", f"{near}[{some}]=a[{some}]"), wide), whole
            fed = through.replace(f"{far}={far}", f"{far}[{some}]={far}[{some}]")
            yield 13, chip(f"B({fed});", wide.replace(f"{far}[", f"^{far}[")), whole
    yield 12, chip(f"B({through}, ^a=a);", wide), whole
    yield 12, chip(f"B({through}, ^e=h);", wide), whole

    # which of several is told: at one byte
    yield 9, chip("Nand(a=a, b=b, out=o, ^x=o[7]);")
    yield 10, chip("Nand(a=a, b=b, ^a=x[0], out=o, out=x);")
    yield 10, chip("Nand(a=a, b=b, ^a=o, out=o);")
    yield 10, chip("ROM(address=n, ^address[0..15]=w, out=w);", rom)
    yield 10, chip("ROM(address=n, out=w, ^out[3..2]=w[16]);", rom)
    yield 10, chip("ROM(address=n, out=w, ^out[3..4]=n[0]);", rom)
    yield 10, chip("Nand(a=x, b=x, out=o); ROM(address=true, ^out=x[0]); DFF(in=a, out=x);")
    yield 11, chip("ROM(address=n, ^address[0..3]=n[0..4], out=w);", rom)
    yield 11, chip("ROM(address=n, out=w, ^out[0..3]=w[0..4]);", rom)
    yield 11, chip("DFF(in=s[0], out=x, out=o); ROM(address=true, ^out=x);", three)
    # in one text, by byte
    yield 8, chip("^Not(in=a, out=x); Nand(a=a, a=o, b=x[1], out=a);")
    yield 12, chip("Nand(a=a, ^a=a, b=x[1], c=o, out=a); Not(in=a, out=x);")
    yield 10, chip("Nand(^a=x[1], a=a, c=o, out=a); Not(in=a, out=x);")
    yield 9, chip("Nand(^c=o, a=x[1], a=a, out=a); Not(in=a, out=x);")
    yield 10, chip("Nand(^out=a, c=o, a=x[1], a=a); Not(in=a, out=x);")
    yield 11, chip("DFF(^in=s, out=o, out=o); Nand(a=o, c=s[0]); Not(in=s);", three)
    yield 12, chip("DFF(in=s[0], out=o, ^out=o, in=s); Nand(a=o, c=s[0]); Not(in=s);", three)
    yield 12, chip("Nand(a=a, ^a=b, out=o); DFF(in=x, out=y); DFF(in=a, out=y);")
    yield 12, chip("Nand(a=b, out=y); DFF(in=x, out=o); DFF(in=a, ^out=y);")
    # over texts
    yield 11, chip("DFF(^in=s, out=o);", three), chip("Not(in=a, out=o);", name="B")
    yield 12, chip("Nand(a=a, b=b, out=o, ^out=o);"), chip("Not(in=a, out=o);", name="B"), chip("DFF(in=o);", name="C")
    yield 12, chip("Nand(a=a, out=x);"), chip("Nand(a=a, b=b, out=o, ^out=o);", name="B")
    yield 8, chip("DFF(in=x, out=o);"), chip(nand, name="B"), chip("^Not(in=x, out=o);", name="C")
    yield 9, chip("DFF(in=x, out=y);"), chip("DFF(^i=a, out=o);", name="B"), chip("Not(in=x, out=o);", name="C")
    yield 10, chip(nand), chip("DFF(^in=o, out=o);", name="B"), chip("DFF(in=o, out=o);", name="C")
    # 13 among its kinds
    yield 13, chip("Nand(a=x, out=y);", "IN a, b; OUT ^o;")
    yield 13, chip("^Nand(a=x, out=o); DFF(in=y);")
    yield 13, chip("Nand(a=a, b=^x, out=o); DFF(out=y);")
    yield 13, chip("DFF(in=^x, out=y); Nand(a=y, b=z, out=o);")
    yield 13, chip("DFF(in=a, out=o); ^DFF(out=x); DFF(in=y); DFF(out=z);")
    yield 13, chip(nand), chip("Nand(a=x, out=y);", "IN i; OUT ^j, k;", "B"), chip("DFF(out=o);", name="C")
    yield 13, chip("DFF(in=^x, out=o);"), chip("Nand(a=x, out=y);", "OUT j, k;", "B"), chip("DFF(out=o);", name="C")
    yield 13, chip(nand), chip(nand, name="B"), chip("Nand(a=a, b=b, out=o); B(a=a, b=^x, o=y);", name="C")
    # comments and lines around what is told
    yield 9, "// Nand\nCHIP A {\r\n\tIN a,\n\tb; OUT o; PARTS:\n Nand(a=a, b=b, /*c=*/ ^c /*=*/ = a, out=o);\n}\n"
    yield 13, "// o\nCHIP A {\n\tIN a, b; OUT /* o */ ^o ; PARTS:\n Nand(a=a, b=b, out=x);\n}\n"
    yield 13, "CHIP A { IN a; OUT o; PARTS: DFF(in=a, out=o); /* DFF */ ^DFF /*(*/ (out = x); }"


def cut(rng, width):
    """The bits below a width in runs (low, high)."""
    at = sorted({0, width} | {rng.randrange(width) for _ in range(rng.choice([0, 0, 0, 1, 2]))})
    return [(low, high - 1) for low, high in zip(at, at[1:])]


def run_in(rng, widths, size):
    """A pin among these that has so many bits, and a run of them; or none."""
    fitting = [name for name in widths if widths[name] >= size]
    if not fitting:
        return None
    name = rng.choice(fitting)
    low = rng.randrange(widths[name] - size + 1)
    return name, (low, low + size - 1)


def random_chips(rng):
    """Chips that join, as [inputs, outputs, parts] by name; a part is [name, connections], and a connection
    is [near, run, far, run]. A run is None where there is no subscript."""

    def header(prefix, least):
        return {f"{prefix}{i}": rng.choice([1, 1, 1, 2, 2, 3, 4, 16]) for i in range(rng.randrange(least, 4))}

    chips = {chr(65 + k): [header("i", 0), header("o", 1), []] for k in range(rng.randrange(1, 5))}
    faces = {**WITH_ROM, **{name: chip[:2] for name, chip in chips.items()}}
    for inputs, outputs, parts in chips.values():
        names = [rng.choice(list(faces)) for _ in range(rng.randrange(1, 5))]
        parts += [[name, []] for name in names]
        internal = {}

        def feed(size, far, far_run):
            """Feeds that from so many bits of some part's output."""
            able = [part for part in parts if run_in(rng, faces[part[0]][1], size)]
            if not able:
                return False
            part = rng.choice(able)
            part[1].append([*run_in(rng, faces[part[0]][1], size), far, far_run])
            return True

        for name, width in outputs.items():
            for low, high in cut(rng, width):
                if not feed(high - low + 1, name, (low, high)):
                    for i in range(low, high + 1):
                        feed(1, name, (i, i))
        for part in list(parts):
            for name, width in faces[part[0]][0].items():
                for low, high in cut(rng, width):
                    size, kind = high - low + 1, rng.randrange(5)
                    found = run_in(rng, inputs, size) if kind < 2 else None
                    known = [x for x in internal if internal[x] == size]
                    fresh = f"x{len(internal)}"
                    if kind == 2 and known:
                        found = rng.choice(known), None
                    elif kind in (2, 3) and feed(size, fresh, None):
                        internal[fresh] = size
                        found = fresh, None
                    part[1].append([name, (low, high), *(found or (rng.random() < 0.5, None))])
        for part in parts:
            if not part[1] or rng.random() < 0.1:
                fresh = f"x{len(internal)}"
                name, run = run_in(rng, faces[part[0]][1], 1)
                internal[fresh] = 1
                part[1].append([name, run, fresh, None])
            rng.shuffle(part[1])
        for name, wires in parts:
            for wire in wires:
                for i, (ins, outs) in (0, faces[name]), (2, (inputs, outputs)):
                    widths = {**ins, **outs}
                    if wire[i + 1] == (0, widths.get(wire[i], 0) - 1) and rng.random() < 0.8:
                        wire[i + 1] = None
    return chips


def damage(rng, chips):
    inputs, outputs, parts = rng.choice(list(chips.values()))
    part = rng.choice(parts)
    wire = rng.choice(part[1])
    act = rng.choice("part part near far far width width drop drop double double run run run".split())
    if act == "part":
        part[0] = rng.choice(["Nand", "A", "nand", "Not", "N"])
    elif act == "near":
        wire[0] = rng.choice(["a", "b", "in", "out", "i0", "i1", "o0", "address"])
    elif act == "far":
        wire[2], wire[3] = rng.choice([True, "x0", "x1", "y", "i0", "o0", wire[2]]), rng.choice([None, wire[3]])
    elif act == "width":
        side = rng.choice([inputs or outputs, outputs])
        side[rng.choice(list(side))] = rng.choice([1, 2, 4, 15, 16])
    elif act == "drop" and len(part[1]) > 1:
        part[1].remove(wire)
    elif act == "double":
        other = rng.choice([part, part, rng.choice(parts)])
        other[1].insert(rng.randrange(len(other[1]) + 1), list(wire))
    elif act == "run":
        low, high = wire[1] or (0, 0)
        wire[rng.choice([1, 3] if isinstance(wire[2], str) else [1])] = rng.choice(
            [None, (0, 0), (low + 1, high + 1), (low, high + 1), (low + 1, high), (0, high), (1, 0), (0, 15)]
        )


def written(rng, chips):
    def subscript(run):
        if run is None:
            return ()
        return run[:1] if run[0] == run[1] and rng.random() < 0.8 else run

    for name, (inputs, outputs, parts) in chips.items():
        sides = [", ".join(spelled(p, (w,) if w > 1 else ()) for p, w in side.items()) for side in (inputs, outputs)]
        lines = []
        for part, wires in parts:
            ends = [(spelled(n, subscript(r)), spelled(f, subscript(s))) for n, r, f, s in wires]
            lines.append(f"{part}({', '.join(f'{near}={far}' for near, far in ends)});")
        yield chip(" ".join(lines), (f"IN {sides[0]}; " if inputs else "") + f"OUT {sides[1]};", name)


def line(*texts):
    print(" ".join("x" + t.encode("latin-1").hex() for t in texts))


def cases():
    for text in chosen():
        line(text)
    good = "CHIP {} {{ IN a , b [ 4 ] ; OUT c ; PARTS : N ( x = a , y [ 1 ] = b [ 2 .. 3 ] , z = false ) ; M ( q = c ) ; }}"
    rng = random.Random(20)
    for _ in range(200):
        line(mutated(rng, good.format("A")), mutated(rng, good.format("B")))
    many = ", ".join(f"p{i}" for i in range(64))
    pins = [f"CHIP {chr(65 + k)} {{ IN {many}; OUT {many.replace('p', 'q')}; PARTS: N(x=p0); }}" for k in range(9)]
    line(*pins[:8])
    line(*pins)
    line(*pins[:7], f"CHIP H {{ IN {many}; OUT {many.replace('p', 'q')}, r; PARTS: N(x=p0); }}")
    parts = lambda name, n: f"CHIP {name} {{ OUT o; PARTS: {'N(x=o);' * n} }}"
    line(parts("A", 1024))
    line(parts("A", 1024), parts("B", 1))
    line(parts("A", 1025))
    wires = lambda name, n: f"CHIP {name} {{ OUT o; PARTS: N({','.join(['x=o'] * n)}); }}"
    line(wires("A", 4096))
    line(wires("A", 4095), wires("B", 1))
    line(wires("A", 4096), wires("B", 1))


def joining_cases():
    def told(*texts):
        """What joining says of texts that are read."""
        return verdict([t.encode("latin-1") for t in texts]).split("; ")[1]

    cases()
    for number, *texts in joining():
        bare = [t.replace("^", "") for t in texts]
        places = [f"fault {number} {k} {t.index('^')}" for k, t in enumerate(texts) if "^" in t] or ["joined"]
        assert [told(*bare)] == places and (number > 0) == (places != ["joined"]), (number, texts, told(*bare))
        line(*bare)
    rng = random.Random(21)
    for i in range(300):
        chips = random_chips(rng)
        assert told(*written(rng, chips)) == "joined"
        for _ in range((0, 1, 2, 2)[i % 4]):
            damage(rng, chips)
        line(*written(rng, chips))


def filled(texts):
    """A bundle of 65,535 bytes, by a comment behind the last text."""
    last = max(texts)
    size = 2 + 36 * len(texts) + sum(map(len, texts.values()))
    texts[last] += "//" + "-" * (65535 - size - 3) + "\n"
    return pack_texts({name: text.encode() for name, text in texts.items()})


def large():
    """Chips of ordinary shape, nearly as many parts as a catalogue holds, filled up to 65,535 bytes by a comment."""
    texts = {}
    for k in range(16):
        name = chr(65 + k)
        lines = [f"    Nand(a=input{i % 8}, b=carriedLevel{i:02}, out=carriedLevel{i + 1:02});" for i in range(63)]
        pins = ", ".join(f"input{i}" for i in range(8))
        texts[name] = f"// chip {name}\nCHIP {name} {{\n    IN {pins};\n    OUT out;\n    PARTS:\n" + "\n".join(lines) + "\n}\n"
    return filled(texts)


def full():
    """16 chips of 64 parts with 4 connections each, that join: 8 of atoms alone, and 8 that hold 8 of those, too.
    What is no DFF waits only for pins fed before it, so there is no loop, and no chip has above 568 cells."""
    small = "Adder Carry Decode Gate Latch Merge Parity Select".split()
    big = "Board Cache Engine Frame Input Memory Output Stack".split()
    texts, rng = {}, random.Random(22)
    for name in small + big:
        if name in small:
            inputs, header = ["a", "b"], "IN a, b;\n    OUT out, carry;"
            outputs = ["out", "carry"]
        else:
            flags = ["load", "inc", "reset", "sel", "zero", "sign"]
            inputs = [f"{bus}[{i}]" for bus in ("word", "addr") for i in range(16)] + flags
            outputs = [f"{bus}[{i}]" for bus in ("out", "next") for i in range(16)] + ["over", "ready"]
            header = f"IN word[16], addr[16], {', '.join(flags)};\n    OUT out[16], next[16], over, ready;"
        fed, lines = [], []
        for i in range(64):
            kind = "DFF" if i % 16 == 5 else small[i // 8] if name in big and i % 8 == 7 else "Nand"
            new = [f"{'stored' if kind == 'DFF' else 'inner' if kind in small else 'level'}{i:02}{end}" for end in "abc"]
            if i >= 64 - len(outputs):
                new[0] = outputs[i - 64]
            x, y = rng.choice(inputs + fed[-6:]), rng.choice(inputs + fed)
            if kind == "DFF":
                x = rng.choice([x, f"level{i + 1:02}b"])
                lines.append(f"DFF(in={x}, out={new[0]}, out={new[1]}, out={new[2]});")
            elif kind == "Nand":
                lines.append(f"Nand(a={x}, b={y}, out={new[0]}, out={new[1]});")
            else:
                lines.append(f"{kind}(a={x}, b={y}, out={new[0]}, carry={new[1]});")
            fed += [pin for pin in new[: 3 if kind == "DFF" else 2] if pin not in outputs]
        body = "\n".join("    " + line for line in lines)
        texts[name] = f"// {name}\nCHIP {name} {{\n    {header}\n    PARTS:\n{body}\n}}\n"
    return filled(texts)


def full1():
    """One chip of 1,024 parts with 4 connections each, and 128 pins: 1,984 internal pins, each read far from
    where it is fed or right behind, whose names differ in their last bytes only."""
    pins = [f"socket{i:03}" for i in range(128)]
    pipe = [f"cable{i:04}" for i in range(2048)]
    lines = []
    for i in range(1024):
        a = pipe[2 * i - 1] if i else pins[0]
        b = pipe[i - 1] if i > 64 else pins[i % 64]
        out = pins[i - 1024] if i >= 1024 - 64 else pipe[2 * i]
        lines.append(f"Nand(a={a},b={b},out={out},out={pipe[2 * i + 1]});")
    header = f"IN {','.join(pins[:64])};\nOUT {','.join(pins[64:])};"
    text = f"CHIP Whole {{\n{header}\nPARTS:\n" + "\n".join(lines) + "\n}\n"
    return pack_texts({"Whole": text.encode()})


def main(words):
    if words[:1] == ["pack"] and len(words) > 2:
        with open(words[1], "wb") as out:
            out.write(pack(words[2:]))
    elif words[:1] == ["list"] and len(words) == 2:
        listing(open(words[1], "rb").read())
    elif words[:1] == ["outline"] and len(words) == 2:
        outline(open(words[1], "rb").read())
    elif words[:1] == ["check"] and len(words) == 2:
        print(check(open(words[1], "rb").read()))
    elif words[:1] in (["large"], ["full"], ["full1"]) and len(words) == 2:
        with open(words[1], "wb") as out:
            out.write({"large": large, "full": full, "full1": full1}[words[0]]())
    elif words == ["cases"]:
        cases()
    elif words == ["joining-cases"]:
        joining_cases()
    elif words in (["verdicts"], ["joining-verdicts"]):
        verdicts(words == ["joining-verdicts"])
    else:
        sys.exit(__doc__)


if __name__ == "__main__":
    main(sys.argv[1:])
