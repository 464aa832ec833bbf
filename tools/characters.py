#!/usr/bin/env python3
"""Writes crates/characters/stdin and stdout: byte sequences, and what Python's own UTF-8 codec makes of them."""
import pathlib

TEXTS = [
    "", "a", "abc", "\x00", "\x7f", "\x80", "é", "ß", "Ω", "Ж", "ש", "ع", "\u07ff",
    "\u0800", "अ", "ก", "、。", "日本語", "한글", "€", "\ud7ff", "\ue000", "\ufffd", "\uffff",
    "\U00010000", "𐍈", "😀", "𝄞", "\U0010ffff", "aé€😀z", "K\u212a",
]
ILL_FORMED = [
    # never a lead byte, or overlong
    "80", "BF", "C0 AF", "C1 BF", "F5 80 80 80", "FF", "E0 9F BF", "E0 80 80", "F0 8F BF BF", "F0 80 80 AF",
    # surrogates, and past U+10FFFF
    "ED A0 80", "ED BF BF", "F4 90 80 80",
    # cut short
    "C2", "E2", "E2 82", "F0", "F0 9F", "F0 9F 98",
    # a byte that does not go on
    "C2 41", "E2 41 AC", "E2 82 41", "F0 9F 41 80", "F0 9F 98 41", "E2 82 C0", "C2 C0",
    # after characters
    "41 C3 A9 C0 AF 42", "E2 82 AC E2 82", "C3 B1 ED A0 80 F0 9F 98 80", "41 80 42",
]


def line(b):
    try:
        text, word = b.decode("utf-8"), "well-formed"
    except UnicodeDecodeError as e:
        text, word = b[:e.start].decode("utf-8"), "ill-formed"
    if text:
        return f"{word} {len(text)} U+{ord(text[0]):04X} {len(text[0].encode('utf-8'))}"
    return f"{word} {len(text)} none"


cases = [t.encode("utf-8") for t in TEXTS] + [bytes.fromhex(h) for h in ILL_FORMED]
crate = pathlib.Path(__file__).resolve().parent.parent / "crates" / "characters"
(crate / "stdin").write_text("".join(b.hex(" ").upper() + "\n" for b in cases))
(crate / "stdout").write_text("".join(line(b) + "\n" for b in cases))
