#!/usr/bin/env python3
"""Writes crates/cases/stdin and stdout: page files, good and damaged, and what the model in pagefile.py says of each.

A line of stdin is a name and then pieces of the file in hexadecimal, `HEX` or `HEX*COUNT`.
"""
import pathlib
import random
import struct

from pagefile import join, open_file, outline, rows, sections, write

CASES = []


def runs(pieces):
    """Pieces with their repetitions, for a short line."""
    out = []
    for p in pieces:
        if out and out[-1][0] == p:
            out[-1][1] += 1
        else:
            out.append([p, 1])
    return out


def case(name, nodes, attributes=(), data=b"", tail=b"", counts=(None, None, None), cut=None):
    """A file of these sections; other counts, bytes behind and a cut can damage it."""
    u32 = lambda n: struct.pack("<I", n)
    n, a, b = (len(x) if c is None else c for x, c in zip((nodes, attributes, data), counts))
    pieces = [[u32(n), 1]] + runs(nodes) + [[u32(a), 1]] + runs(attributes) + [[u32(b), 1]]
    if len(data) > 64 and len(set(data)) == 1:
        pieces.append([data[:1], len(data)])
    elif data:
        pieces.append([data, 1])
    if tail:
        pieces.append([tail, 1])
    raw(name, pieces, cut)


def raw(name, pieces, cut=None):
    file = b"".join(p * k for p, k in pieces)
    if cut is not None:
        file = file[:cut]
        pieces = [[file, 1]] if file else []
    CASES.append((name, pieces, file))


def tree(name, t, **damage):
    case(name, *sections(list(rows(t))), **damage)


def node(kind, depth, attrs=0, first=0, start=0, length=0):
    return struct.pack("<BBHIII", kind, depth, attrs, first, start, length)


def attr(name, value, start):
    return struct.pack("<HHI", name, value, start)


def el(name, *children, **attrs):
    return 4, name.encode(), [(k.encode(), v.encode()) for k, v in attrs.items()], list(children)


def text(s):
    return 2, s.encode() if isinstance(s, str) else s, [], []


def doc(*children):
    return 0, b"", [], list(children)


DOC = node(0, 0)

# accepted
tree("document", doc())
tree("nested", doc(el("html", el("body", el("div", el("p", text("n" * 20)))))))
tree("kinds", doc((1, b"html", [], []), (3, b" a comment ", [], []), el("p", text("a"), text("b"), text("")), text("under the document")))
tree("attributes", doc(el("a", text("x"), href="/x?y=1&z=2", title='"quoted" \\ back'), el("img", src="", alt="é")))
tree("control characters", doc(text(bytes(range(0, 128)))))
tree("scripts", doc(el("p", text("Ελληνικά Русский עברית العربية हिन्दी ไทย 日本語 한국어 😀𝄞"))))
tree("empty names", doc(el("", **{"": ""})))
# the smallest file of each refusal, and each of its parts
raw("empty input", [])
raw("three bytes", [[b"\1\0\0", 1]])
case("no node", [])
case("no node record", [DOC], cut=4)
case("half a node record", [DOC], cut=12)
case("no attribute count", [DOC], cut=20)
case("three bytes of the attribute count", [DOC], cut=23)
case("attribute record missing", [DOC], counts=(None, 1, None), cut=24)
case("no byte count", [DOC], cut=24)
case("bytes missing", [DOC], counts=(None, None, 1))
case("a byte behind", [DOC], tail=b"\0")
case("count out of range before records", [], counts=(4097, 0, 0), cut=4)
case("attribute count out of range", [DOC], counts=(None, 8193, 0), cut=24)
case("byte count out of range", [DOC], counts=(None, None, 131073), cut=28)
case("first is no document", [node(4, 0)])
case("a second document", [DOC, node(0, 1)])
case("kind 5", [DOC, node(5, 1)])
case("kind 255", [DOC, node(255, 1)])
case("root at depth 1", [node(0, 1)])
case("second root", [DOC, node(2, 0)])
case("two deeper", [DOC, node(4, 2)])
case("under a text", [DOC, node(2, 1), node(2, 2)])
case("under a comment", [DOC, node(3, 1), node(2, 2)])
case("under a doctype", [DOC, node(1, 1), node(2, 2)])
case("beside a text", [DOC, node(4, 1), node(2, 2), node(2, 2), node(2, 1)])
case("attribute on a text", [DOC, node(2, 1, 1)], [attr(0, 0, 0)])
case("attribute on the document", [node(0, 0, 1)], [attr(0, 0, 0)])
case("document with content", [node(0, 0, length=1)], data=b"x")
case("first attribute runs ahead", [DOC, node(4, 1, 0, 1)], [attr(0, 0, 0)])
case("first attribute of a bare node", [DOC, node(4, 1, 1, 0), node(2, 1, 0, 0)], [attr(0, 0, 0)])
case("attributes past the end", [DOC, node(4, 1, 2, 0)], [attr(0, 0, 0)])
case("start with a gap", [DOC, node(2, 1, start=1, length=1)], data=b"ab")
case("start of empty content", [DOC, node(2, 1, start=0, length=1), node(4, 1, start=0)], data=b"a")
case("content past the end", [DOC, node(2, 1, length=2)], data=b"a")
case("attribute with a gap", [DOC, node(4, 1, 1, 0, 0, 1)], [attr(1, 0, 2)], b"pab")
case("attribute before its place", [DOC, node(4, 1, 1, 0, 0, 1)], [attr(1, 0, 0)], b"pa")
case("second attribute with a gap", [DOC, node(4, 1, 2, 0, 0, 1)], [attr(1, 0, 1), attr(1, 0, 3)], b"pabc")
case("value past the end", [DOC, node(4, 1, 1, 0, 0, 1)], [attr(1, 2, 1)], b"pab")
case("attributes left over", [DOC], [attr(0, 0, 0)])
case("bytes left over", [DOC], data=b"x")
case("both left over", [DOC, node(4, 1)], [attr(0, 0, 0)], b"x")
ill = b"\xc0\xaf"
case("ill-formed content", [DOC, node(2, 1, length=2)], data=ill)
case("ill-formed tag", [DOC, node(4, 1, length=2)], data=ill)
case("ill-formed name", [DOC, node(4, 1, 1)], [attr(2, 0, 0)], ill)
case("ill-formed value", [DOC, node(4, 1, 1)], [attr(0, 2, 0)], ill)
case("ill-formed second value", [DOC, node(4, 1, 2)], [attr(0, 0, 0), attr(0, 2, 0)], ill)
case("character over two parts", [DOC, node(2, 1, length=1), node(2, 1, start=1, length=1)], data="é".encode())
case("character over name and value", [DOC, node(4, 1, 1)], [attr(1, 1, 0)], "é".encode())
for name, part in [("E0 80 80", b"\xe0\x80\x80"), ("E0 A0 80", b"\xe0\xa0\x80"), ("ED A0 80", b"\xed\xa0\x80"), ("ED 9F BF", b"\xed\x9f\xbf"),
                   ("F0 8F BF BF", b"\xf0\x8f\xbf\xbf"), ("F4 90 80 80", b"\xf4\x90\x80\x80"), ("F4 8F BF BF", b"\xf4\x8f\xbf\xbf")]:
    case("text " + name, [DOC, node(2, 1, length=len(part))], data=part)
# an earlier fault hides a later one
case("kind before depth", [DOC, node(9, 9, 9, 9, 9, 9)])
case("depth before layout", [DOC, node(2, 9, 9, 9, 9, 9)])
case("layout before text", [DOC, node(2, 1, 1, 0, 0, 2)], [attr(0, 0, 0)], ill)
case("text of a node before the kind of the next", [DOC, node(2, 1, length=2), node(9, 1)], data=ill)
case("last node before the end", [DOC, node(9, 1)], [attr(0, 0, 0)], b"x")
# each limit: one below, at and above
for n in (4095, 4096, 4097):
    case(f"{n} nodes", [DOC] + [node(4, 1)] * (n - 1))
for n in (8191, 8192, 8193):
    case(f"{n} attributes", [DOC, node(4, 1, n)], [attr(0, 0, 0)] * n)
for n in (131071, 131072, 131073):
    case(f"{n} bytes", [DOC, node(2, 1, length=n)], data=b"n" * n)
for n in (61, 62, 63):
    case(f"depth {n}", [DOC] + [node(4, d) for d in range(1, n + 1)])
for n in (65534, 65535):
    case(f"name of {n}", [DOC, node(4, 1, 1)], [attr(n, 0, 0)], b"n" * n)
    case(f"value of {n}", [DOC, node(4, 1, 1)], [attr(0, n, 0)], b"n" * n)
case("all limits", [DOC] + [node(4, 1, 8192)] + [node(4, 1, 0, 8192)] * 4093 + [node(2, 1, 0, 8192, 0, 131072)], [attr(0, 0, 0)] * 8192, b"n" * 131072)
case("all limits and a byte", [DOC] + [node(4, 1, 8192)] + [node(4, 1, 0, 8192)] * 4093 + [node(2, 1, 0, 8192, 0, 131072)], [attr(0, 0, 0)] * 8192, b"n" * 131072, tail=b"n")

# damaged copies of a small page: every byte changed to some other values, and every cut
rng = random.Random(7)
base = write(doc((1, b"html", [], []), el("div", text("aé"), el("a", text("b"), href="/c"), (3, b"d", [], []), id="e")))
for i in range(len(base)):
    for b in sorted(rng.sample(range(256), 3)):
        f = base[:i] + bytes([b]) + base[i + 1:]
        raw(f"byte {i} is {b}", [[f, 1]])
for i in range(len(base)):
    raw(f"cut at {i}", [[base[:i], 1]] if i else [])


def answer(file):
    out = outline(file)
    return out if len(out) <= 600 else out[:out.index(b"\n") + 1] + b"(%d bytes)\n" % len(out)


here = pathlib.Path(__file__).parent.parent / "crates/cases"
with open(here / "stdin", "w") as f:
    for name, pieces, _ in CASES:
        f.write(name + ":" + "".join(" " + p.hex() + (f"*{k}" if k > 1 else "") for p, k in pieces) + "\n")
with open(here / "stdout", "wb") as f:
    for name, _, file in CASES:
        f.write(b"== " + name.encode() + b"\n" + answer(file))
numbers = {}
for _, _, file in CASES:
    v = open_file(file)
    v = v[0] if isinstance(v, tuple) else 0
    numbers[v] = numbers.get(v, 0) + 1
print(len(CASES), "cases", dict(sorted(numbers.items())))
nested = pathlib.Path(__file__).parent.parent / "crates/outline"
page = write(doc((1, b"html", [], []), el("html", el("head", el("title", text("A page"))), el("body", el("div", el("h1", text("Title")), el("p", text("Some \"text\", é.")), el("a", text("link"), href="/x"), id="main")))))
(nested / "stdin").write_bytes(page)
(nested / "stdout").write_bytes(outline(page))
