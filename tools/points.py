#!/usr/bin/env python3
"""An independent model of the figures of elements, written from docs/POINTS.md, and the stored page of the program `points`."""
import pathlib
import re
import sys

from pagefile import open_file, quote, write

SPACE = "".join(map(chr, [9, 10, 11, 12, 13, 0x20, 0x85, 0xA0, 0x1680, *range(0x2000, 0x200B), 0x2028, 0x2029, 0x202F, 0x205F, 0x3000]))
BLOCK = "a blockquote dl div img ol p pre table ul".split()
POSITIVE = "article body content entry hentry main page pagination post text blog story".split()
NEGATIVE = ("combx comment com contact foot footer footnote masthead media meta outbrain promo related scroll shoutbox sidebar "
            "sponsor shopping tags tool widget form textfield uiScale hidden").split()
MARKS = re.compile(r"[、。，．！？!?]|\.[^A-Za-z0-9]|,[^0-9]", re.S)


def lowered(name):
    return "".join(chr(ord(c) + 32) if "A" <= c <= "Z" else "k" if c == "\u212a" else c for c in name.decode())


def weight(attrs):
    total = 0
    for name in (b"id", b"class"):
        value = next((v.decode() for n, v in attrs if n == name), None)
        if value is not None:
            total += 25 * any(w in value for w in POSITIVE) - 25 * any(w in value for w in NEGATIVE)
    return total


def points(f):
    """The text that is printed for a file."""
    rows = open_file(f)
    if isinstance(rows, tuple):
        return b"refused %d %d\n" % rows
    out = b""
    for i, (kind, depth, content, attrs) in enumerate(rows):
        if kind != 4:
            continue
        end = next((j for j in range(i + 1, len(rows)) if rows[j][1] <= depth), len(rows))
        under = range(i + 1, end)

        def length(span):
            return sum(len(rows[j][2].decode().strip(SPACE)) for j in span if rows[j][0] == 2)

        def tree(j):
            return range(j + 1, next((k for k in range(j + 1, end) if rows[k][1] <= rows[j][1]), end))

        tag = lowered(content)
        t = length(under)
        l = sum(length(tree(j)) for j in under if rows[j][0] == 4 and lowered(rows[j][2]) == "a")
        block = any(rows[j][0] == 4 and lowered(rows[j][2]) in BLOCK for j in under)
        yes = t >= 20 and (tag == "p" or tag in ("div", "article", "center", "section") and not block)
        deep = "".join(rows[j][2].decode() for j in under if rows[j][0] == 2)
        score = 1 + len(MARKS.findall(deep)) + min(len(deep) // 100, 3)
        out += b"%d %s %d %d %d %s\n" % (i, quote(tag.encode()), t, l, weight(attrs), b"yes %d" % score if yes else b"no -")
    return out


if __name__ == "__main__":
    if len(sys.argv) > 1:
        sys.stdout.buffer.write(points(sys.stdin.buffer.read()))
        sys.exit()
    text = lambda s: (2, s.encode(), [], [])
    el = lambda name, *children, **attrs: (4, name.encode(), [(k.rstrip("_").encode(), v.encode()) for k, v in attrs.items()], list(children))
    page = write((0, b"", [], [
        el("HTML", el("body",
                      el("div", el("p", text("Hi. Go, now! "), text("n" * 12)), el("p", text("  a.b,5. "), text("n" * 19)), id="main", class_="comment"),
                      el("Article", el("A", el("a", text(" \u3000nested link\u00a0 ")), text("x, y")), text("。" * 19 + "é"), id="sidebar"),
                      el("center", text("plain text of at least twenty characters"), el("br"), text("..")),
                      el("section", el("b", text("n" * 20), el("IMG"))),
                      el("lin\u212a", text("\u200b\u0085" + "n" * 400)),
                      el("div", text("." ), text("n" * 18 + "." ), text("!,"), text(" "), class_="post"),
                      el("p", text("n" * 19)), el("p", text("n" * 20)), el("p", text(" " + "é" * 19 + " ")), el("p", text("é" * 10), text("é" * 10))))]))
    here = pathlib.Path(__file__).parent.parent / "crates/points"
    (here / "stdin").write_bytes(page)
    (here / "stdout").write_bytes(points(page))
