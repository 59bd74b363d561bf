#!/usr/bin/env python3
"""Writes connector.gsym, the symbol file of the sample crash: `python3 make.py > connector.gsym`.

A made-up stock connector: `sync_orders` reads the stock, posts an order and confirms it; the compiler has inlined
`post_order` and, into that, `send_request`. The name of `log_flush` is torn, so a crash there is refused. What stands where
in a file is told in docs/RULES.md.
"""
import struct
import sys

BASE = 0x1000
strings = bytearray(b"\0")


def string(text):
    """The offset of a text, put down once."""
    at = strings.find(b"\0" + text.encode() + b"\0")
    if text and at >= 0:
        return at + 1
    if not text:
        return 0
    strings.extend(text.encode() + b"\0")
    return len(strings) - len(text.encode()) - 1


def unsigned(n):
    out = bytearray()
    while True:
        n, low = n >> 7, n & 0x7F
        out.append(low | (0x80 if n else 0))
        if not n:
            return bytes(out)


def signed(n):
    out = bytearray()
    while True:
        low, n = n & 0x7F, n >> 7
        done = (n == 0 and not low & 0x40) or (n == -1 and low & 0x40)
        out.append(low | (0 if done else 0x80))
        if done:
            return bytes(out)


FILES = [("", ""), ("/src/connector", "main.c"), ("/src/connector", "sync.c"), ("/src/connector", "post.c")]


def file_index(name):
    return [f[1] for f in FILES].index(name)


def line_block(symbol, rows):
    """Rows of (address, file, line), by opcodes 1, 2 and 3 alone; min and max don't matter then."""
    at, file, line = symbol, 1, rows[0][2]
    out = signed(-4) + signed(10) + unsigned(line)
    for addr, name, on in rows:
        if file_index(name) != file:
            file = file_index(name)
            out += b"\x01" + unsigned(file)
        if on != line:
            out += b"\x03" + signed(on - line)
            line = on
        out += b"\x02" + unsigned(addr - at)
        at = addr
    return out + b"\x00"


def node(base, start, size, name, call=("", 0), children=()):
    """An inline node: its only range, its name, where it was called, and its children."""
    file = file_index(call[0]) if call[0] else 0
    out = unsigned(1) + unsigned(start - base) + unsigned(size) + bytes([1 if children else 0])
    out += struct.pack("<I", string(name)) + unsigned(file) + unsigned(call[1])
    if children:
        for child in children:
            out += node(start, *child)
        out += b"\x00"
    return out


def entry(addr, size, name, rows, tree=None):
    items = struct.pack("<II", 1, len(line_block(addr, rows))) + line_block(addr, rows)
    if tree:
        inline = node(addr, *tree)
        items += struct.pack("<II", 2, len(inline)) + inline
    return addr, struct.pack("<II", size, name) + items + struct.pack("<II", 0, 0)


ENTRIES = [
    entry(0x1000, 0x60, string("main"), [(0x1000, "main.c", 10), (0x1020, "main.c", 14), (0x1050, "main.c", 17)]),
    entry(0x1060, 0x40, string("read_stock"), [(0x1060, "sync.c", 21), (0x1080, "sync.c", 25)]),
    entry(
        0x10A0,
        0x100,
        string("sync_orders"),
        [
            (0x10A0, "sync.c", 40),
            (0x10C0, "post.c", 12),
            (0x10F0, "post.c", 33),
            (0x1150, "post.c", 35),
            (0x1170, "sync.c", 47),
        ],
        (
            0x10A0,
            0x100,
            "sync_orders",
            ("", 0),
            [(0x10C0, 0xB0, "post_order", ("sync.c", 44), [(0x10F0, 0x70, "send_request", ("post.c", 18))])],
        ),
    ),
    entry(0x11A0, 0x30, string("confirm_order"), [(0x11A0, "sync.c", 60)]),
    entry(0x11D0, 0x20, 0xFFFF, [(0x11D0, "main.c", 70)]),
]


def align4(out):
    out.extend(bytes(-len(out) % 4))


def main():
    pairs = [(string(d), string(f)) for d, f in FILES]
    out = bytearray(struct.pack("<IHBBQI", 0x4753594D, 1, 2, 0, BASE, len(ENTRIES)))
    out.extend(bytes(8 + 20))
    for addr, _ in ENTRIES:
        out.extend(struct.pack("<H", addr - BASE))
    align4(out)
    offsets = len(out)
    out.extend(bytes(4 * len(ENTRIES)))
    out.extend(struct.pack("<I", len(pairs)))
    for pair in pairs:
        out.extend(struct.pack("<II", *pair))
    out[20:28] = struct.pack("<II", len(out), len(strings))
    out.extend(strings)
    for i, (_, data) in enumerate(ENTRIES):
        align4(out)
        out[offsets + 4 * i : offsets + 4 * i + 4] = struct.pack("<I", len(out))
        out.extend(data)
    sys.stdout.buffer.write(out)


main()
