"""An independent model of the page file: writing a tree, the verdict of opening, and the text of a page.

It shares no code with the crates and is written from docs/PAGES.md, so that stored answers come from outside them.
A tree is (kind, content, attributes, children) with kind 0 to 4, bytes, a list of (name, value) and a list of trees.
"""
import struct

WORDS = ["document", "doctype", "text", "comment", "element"]


def rows(tree, depth=0):
    kind, content, attrs, children = tree
    yield kind, depth, content, attrs
    for child in children:
        yield from rows(child, depth + 1)


def sections(rs):
    """The three sections of rows (kind, depth, content, attributes), as lists of records."""
    nodes, attributes, data = [], [], b""
    first = 0
    for kind, depth, content, attrs in rs:
        nodes.append(struct.pack("<BBHIII", kind, depth, len(attrs), first, len(data), len(content)))
        data += content
        for name, value in attrs:
            attributes.append(struct.pack("<HHI", len(name), len(value), len(data)))
            data += name + value
        first += len(attrs)
    return nodes, attributes, data


def join(nodes, attributes, data):
    u32 = lambda n: struct.pack("<I", n)
    return u32(len(nodes)) + b"".join(nodes) + u32(len(attributes)) + b"".join(attributes) + u32(len(data)) + data


def write(tree):
    return join(*sections(list(rows(tree))))


def well_formed(part):
    try:
        part.decode("utf-8")
        return True
    except UnicodeDecodeError:
        return False


def open_file(f):
    """(number, record) of the refusal, or the rows."""
    at, found = 0, []
    for s, (size, low, high) in enumerate([(16, 1, 4096), (8, 0, 8192), (1, 0, 131072)], 1):
        if len(f) < at + 4:
            return 11, s
        n = struct.unpack_from("<I", f, at)[0]
        if not low <= n <= high:
            return 12, s
        if len(f) < at + 4 + size * n:
            return 11, s
        found.append([f[at + 4 + size * k:at + 4 + size * (k + 1)] for k in range(n)] if size > 1 else f[at + 4:at + 4 + n])
        at += 4 + size * n
    if len(f) != at:
        return 11, 3
    nodes = [struct.unpack("<BBHIII", r) for r in found[0]]
    attributes = [struct.unpack("<HHI", r) for r in found[1]]
    data = found[2]
    out, first, start = [], 0, 0
    for i, (kind, depth, count, f0, s0, length) in enumerate(nodes):
        if (kind != 0) if i == 0 else not 1 <= kind <= 4:
            return 13, i
        if i == 0:
            if depth != 0:
                return 14, i
        else:
            before = nodes[i - 1]
            if not (1 <= depth <= 62 and (depth <= before[1] or (depth == before[1] + 1 and before[0] in (0, 4)))):
                return 14, i
        if count and kind != 4 or kind == 0 and length or f0 != first or f0 + count > len(attributes):
            return 15, i
        if s0 != start or s0 + length > len(data):
            return 15, i
        end, attrs = s0 + length, []
        for name, value, a0 in attributes[f0:f0 + count]:
            if a0 != end or a0 + name + value > len(data):
                return 15, i
            attrs.append((data[a0:a0 + name], data[a0 + name:a0 + name + value]))
            end += name + value
        content = data[s0:s0 + length]
        if not (well_formed(content) and all(well_formed(n) and well_formed(v) for n, v in attrs)):
            return 16, i
        out.append((kind, depth, content, attrs))
        first, start = f0 + count, end
    if first != len(attributes) or start != len(data):
        return 15, len(nodes)
    return out


def quote(part):
    out = b'"'
    for b in part:
        if b in b'"\\':
            out += b"\\" + bytes([b])
        elif b < 32 or b == 127:
            out += b"\\x%02x" % b
        else:
            out += bytes([b])
    return out + b'"'


def outline(f):
    """The text that is printed for a file."""
    opened = open_file(f)
    if isinstance(opened, tuple):
        return b"refused %d %d\n" % opened
    attrs = sum(len(a) for _, _, _, a in opened)
    data = sum(len(c) + sum(len(n) + len(v) for n, v in a) for _, _, c, a in opened)
    out = b"# %d nodes, %d attributes, %d bytes\n" % (len(opened), attrs, data)
    for kind, depth, content, attributes in opened:
        out += b"  " * depth + WORDS[kind].encode()
        if kind:
            out += b" " + quote(content)
        for name, value in attributes:
            out += b" " + quote(name) + b"=" + quote(value)
        out += b"\n"
    return out
