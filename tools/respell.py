#!/usr/bin/env python3
"""Brings the repository's own definitions and lemmas to the spelling of this Rattle's library.

usage: python3 tools/respell.py [FOLDER]    once, after the kit's port.py, at the top of the repository (or of FOLDER)

- The crate unicode becomes utf8, since the kit has a library of that name.
- A word of a specification in lower camel case becomes snake case: kidsOf, kids_of.
- A label of a record has no dash: is-scalar, is_scalar.
- A dash joins two names, so a part that is itself a name of several words is joined by _: or-else-has, or_else-has.
- So is a step of a goal that is named after the Rust text: c.byte-at, c.byte_at.
- Three lemmas whose names would fall together with a definition's get _lem.
Names that a file imports from the kit stay, and so do strings, comments and the Rust text.
"""

import collections
import os
import re
import sys

TOP = sys.argv[1] if len(sys.argv) > 1 else "."
TOKEN = re.compile(r"(?<![\w'\-·])[^\W\d_][\w']*(?:-[\w']+)*")
CAMEL = re.compile(r"(?<=[a-z0-9])(?=[A-Z])")
KIT_USE = re.compile(r"use ((?:Rattle\.(?:std|core|std_\w+)|lib|borrow|denote|mathlib|Prim|antt)\b[\w.'\-+]*)\.\{([^}]*)\}")
RATTLES = "in_ok in_err in_default overflow_add overflow_sub overflow_mul overflow_shl overflow_shr overflow_cast overflow_step slice_bounds offset_bounds nonzero_div nonzero_rem".split()
APART = {"node_at": "node_at_lem", "node_in": "node_in_lem", "one_more": "one_more_lem"}
KEPT = re.compile(r'"(?:[^"\\]|\\.)*"|--.*')


def files(*ends):
    for folder, dirs, names in os.walk(os.path.join(TOP, "crates")):
        dirs[:] = sorted(d for d in dirs if d != "out")
        for name in sorted(names):
            if name.endswith(ends):
                yield os.path.join(folder, name)


def read(path):
    with open(path, encoding="utf-8") as f:
        return f.read()


def write(path, text):
    with open(path, "w", encoding="utf-8") as f:
        f.write(text)


def pieces(text):
    """The text in turn outside and inside of strings and comments."""
    at = 0
    for m in KEPT.finditer(text):
        yield text[at : m.start()], True
        yield m.group(), False
        at = m.end()
    yield text[at:], True


def words_of(text):
    for piece, plain in pieces(text):
        if plain:
            yield from TOKEN.findall(piece)


def respell(text, turned, steps):
    def new(m):
        before = m.string[m.start() - 1 : m.start()] if m.start() else ""
        return steps.get(m.group()) if before == "." and m.group() in steps else turned.get(m.group(), m.group())

    return "".join(TOKEN.sub(new, p) if plain else p for p, plain in pieces(text))


def rename_crate():
    old, new = os.path.join(TOP, "crates/unicode"), os.path.join(TOP, "crates/utf8")
    if os.path.isdir(old):
        os.rename(old, new)
    path = os.path.join(TOP, "crates.txt")
    write(path, re.sub(r"\bunicode\b", "utf8", read(path)))
    for path in files(".rt", ".antt"):
        text = read(path)
        turned = text.replace("Rattle.unicode.", "Rattle.utf8.")
        if path.endswith(".rt"):
            turned = re.sub(r"\bunicode::", "utf8::", turned)
        if turned != text:
            write(path, turned)


def kit_names():
    """The names that some file imports from the kit, and are not its own to respell."""
    found = set()
    for path in files(".rt", ".antt"):
        for m in KIT_USE.finditer(read(path)):
            for item in m.group(2).split(","):
                words = item.split(" as ")
                found.add(words[0].strip())
    return found


def labels():
    found = set()
    for path in files(".antt"):
        inside = False
        for line in read(path).split("\n"):
            if re.match(r"(?:pub )?record ", line):
                inside = True
            elif line.strip() and not line.startswith(" "):
                inside = False
            elif inside:
                m = re.match(r"\s+(?:pub )?(\S+) :", line)
                if m:
                    found.add(m.group(1))
    return found


def snake(word):
    if not word[0].islower() or not CAMEL.search(word):
        return word
    return "_".join(p.lower() for p in CAMEL.split(word))


def ghost_lines(text):
    """Where the ghost text of a Rust file stands: its lines with use of specifications, clauses and ghost members."""
    for m in re.finditer(r"^[ \t]*(?:ghost |pub ghost |ensures|requires|also_).*$", text, re.M):
        yield m.span()


def tokens():
    count = collections.Counter()
    for path in files(".antt"):
        count.update(words_of(read(path)))
    for path in files(".rt"):
        text = read(path)
        for a, b in ghost_lines(text):
            count.update(words_of(text[a:b]))
    return count


def rust_words():
    """Names of the Rust text in two words or more: functions, parameters and variables."""
    found = set()
    for path in files(".rt"):
        found.update(w for w in re.findall(r"\b[a-z][a-z0-9]*(?:_[a-z0-9]+)+\b", re.sub(r"//.*", "", read(path))))
    return found


def joined(parts, words):
    """The parts of a dashed name, those that together are a word joined by _, the longest first."""
    out, i = [], 0
    while i < len(parts):
        for n in range(len(parts) - i, 1, -1):
            if "_".join(parts[i : i + n]) in words:
                out.append("_".join(parts[i : i + n]))
                i += n
                break
        else:
            out.append(parts[i])
            i += 1
    return out


def main():
    rename_crate()
    kit, marks, seen = kit_names(), labels(), tokens()
    own = {snake(t) for t in seen if "-" not in t and t not in kit}
    rust = rust_words()
    words = {w for w in own if "_" in w} | rust | set(RATTLES)
    turned, steps = {}, {}
    for t in seen:
        if t in kit:
            continue
        if t in APART:
            turned[t] = APART[t]
            continue
        if t in marks and "-" in t:
            turned[t] = "_".join(snake(p) for p in t.split("-"))
            continue
        parts = [snake(p) for p in t.split("-")]
        new = "-".join(joined(parts, words))
        if new != t and ("-" in new or "-" not in t):
            turned[t] = new
        elif new != t and new in rust:
            steps[t] = new
    back = collections.defaultdict(set)
    for t in seen:
        back[turned.get(t, t)].add(t)
    for new, olds in sorted(back.items()):
        if len(olds) > 1:
            print(f"look: {sorted(olds)} fall together as {new}")
    for path in files(".antt", ".edit"):
        text = read(path)
        new = respell(text, turned, steps)
        if new != text:
            write(path, new)
    for path in files(".rt"):
        text, out, at = read(path), [], 0
        for a, b in ghost_lines(text):
            out += [text[at:a], respell(text[a:b], turned, steps)]
            at = b
        new = "".join(out) + text[at:]
        if new != text:
            write(path, new)
    with open("/tmp/respelled.txt", "w", encoding="utf-8") as f:
        for t in sorted(turned):
            f.write(f"{t} {turned[t]}\n")
    print(f"{len(turned)} names respelled; /tmp/respelled.txt lists them")


if __name__ == "__main__":
    main()
