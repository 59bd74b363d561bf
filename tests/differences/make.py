#!/usr/bin/env python3
"""Writes the inputs of docs/DIFFERENCES.md: `make.py FOLDER` makes NAME.gsym there. `CASES` is what compare.py asks:
name, file, address, options (bit 0 code info, bit 1 inlining), room for frames, bytes before the file in memory."""
import pathlib
import sys

from shape import ALL, END, FILES, ROW, TABLE, at, call, gsym, info, item, lines, node, one, tree, u32, uleb

CASES = []
WIDE = b"\x80" * 9 + b"\x02"  # 2^64 in ten bytes
ZEROS = b"\x80" * 10  # ten digits of 0, of which each asks for another
TOP = 2**64 - 1


def case(name, file, address=0x1000, opts=3, room=64, shift=0):
    CASES.append((name, file, address, opts, room, shift))


def numbers():
    case("plain", one(ROW, tree(call("leaf", 9)), END))
    case("leb-wide", one(lines(b"\2\0\0", b"\0\0" + WIDE), END))
    case("leb-11", one(lines(b"\2\0\0", b"\0\0" + b"\x80" * 10 + b"\1"), END))
    case("leb-11-padding", one(lines(b"\2\0\0", b"\0\0" + b"\x85" + b"\x80" * 9 + b"\0"), END))
    case("leb-signed-10", one(lines(b"\2\0\0", b"\x80" * 9 + b"\1" + b"\0\5"), END))
    case("leb-wide-range", one(ROW, tree(ranges=[(WIDE, 0x40)], name="outer"), END))
    case("line-operand-wide", one(lines(b"\2\1\1" + WIDE), END), 0x1005)
    # ten bytes that fit: padding, the largest, and of a signed number
    case("leb-10-padding", one(lines(b"\2\0\0", b"\0\0" + b"\x85" + b"\x80" * 8 + b"\0"), END))
    case("leb-10-most", one(lines(b"\2\0\0", b"\0\0" + b"\xff" * 9 + b"\1"), END))
    case("leb-signed-10-padding", one(lines(b"\2\0\0", b"\x80" * 9 + b"\0" + b"\0\5"), END))
    # the end of the item behind the tenth byte that asks for another, and before it
    case("leb-zeros-10", one(item(1, b"\0\0" + ZEROS), END))
    case("leb-zeros-9", one(item(1, b"\0\0" + ZEROS[:9]), END))
    case("leb-signed-zeros-10", one(item(1, ZEROS), END))
    root = node(ALL, "main", (0, 0), [])[:-1]
    case("leb-tree-zeros-10", one(ROW, item(2, root + ZEROS), END))
    case("leb-tree-zeros-9", one(ROW, item(2, root + ZEROS[:9]), END))
    # in a tree: the root's range count, a call file and a call line; below a root that doesn't contain the address
    case("leb-wide-count", one(ROW, item(2, WIDE + tree(call("leaf", 9))[9:]), END))
    case("leb-wide-call-file", one(ROW, tree(call("leaf", 9, file=WIDE)), END))
    case("leb-wide-call-line", one(ROW, tree(call("leaf", WIDE)), END))
    case("leb-wide-closed", one(ROW, tree(call("leaf", WIDE), ranges=[(0x80, 8)], name="outer"), END))
    # a number that is too wide, and a tree or a header that is cut, whichever item comes first
    case("leb-wide-line-first", one(item(1, ZEROS), item(2, b"\1"), END))
    case("leb-wide-line-last", one(item(2, b"\1"), item(1, ZEROS), END))


def opening():
    big = gsym(
        [(0, info(0x40, "main", item(1, b"\0\0\5\2\0\0", "big"), item(0, b"", "big"), order="big"))], order="big"
    )
    case("byte-swapped", big)
    case("magic-short", b"none")
    case("version-short", u32(0x4753594D) + b"\2\0")
    case("version-2", one(ROW, END, version=2))
    case("offset-size-3", one(ROW, END, width=3))
    case("uuid-21", one(ROW, END, uuid=21))
    case("count-wraps", gsym([], width=8, count=2**29))
    case("no-entries", gsym([]))
    for shift, width in [(1, 1), (4, 4), (4, 8)]:
        case(f"shift-{shift}-width-{width}", one(ROW, END, width=width), shift=shift)


def choosing():
    run = [(5, info(4, "main", END)), (5, info(8, "outer", END)), (5, info(16, "inner", END))]
    late = [(9, info(4, "leaf", END)), (9, info(16, "a.c", END))]
    for address in [5, 8, 9, 20]:
        case(f"equal-{address}", gsym(run + late, base=0), address)
    apart = [(1, info(4, "main", END)), (5, info(4, "outer", END)), (5, info(16, "inner", END))]
    for address in [5, 10]:
        case(f"equal-later-{address}", gsym(apart, base=0), address)
    # the run that the table begins with, asked past it; and a run further on, in between and at the next entry
    short = [(5, info(2, "main", END)), (5, info(16, "outer", END))]
    for address in [5, 8]:
        case(f"equal-first-small-{address}", gsym(short, base=0), address)
    case("equal-first-size-0", gsym([(5, info(0, "main", END)), (5, info(2, "outer", END))], base=0), 6)
    case("equal-later-size-0", gsym([(5, info(2, "main", END)), (5, info(0, "outer", END))], base=0), 8)
    inner = [(1, info(4, "main", END)), (5, info(16, "outer", END)), (5, info(8, "inner", END))]
    for address in [5, 8, 9]:
        case(f"equal-inner-{address}", gsym(inner + [(9, info(4, "leaf", END))], base=0), address)
    small = [(1, info(4, "main", END)), (5, info(2, "outer", END)), (5, info(16, "inner", END))]
    for address in [5, 8]:
        case(f"equal-inner-small-{address}", gsym(small + [(9, info(4, "leaf", END))], base=0), address)
    fall = [(9, info(0, "main", END)), (5, info(0, "outer", END))]
    case("falling-two", gsym(fall, base=0), 6)
    fall = [(1, info(0, "main", END)), (9, info(0, "outer", END)), (5, info(0, "inner", END))]
    case("falling-three", gsym(fall, base=0), 9)
    case("falling-several", gsym(fall, base=0), 6)
    names = ["main", "outer", "inner", "leaf", "a.c"]
    fall = [(offset, info(0, name, END)) for offset, name in zip([5, 5, 3, 5, 5], names)]
    for address in [4, 5, 7]:
        case(f"falling-equal-{address}", gsym(fall, base=0), address)
    fall = [(offset, info(0, name, END)) for offset, name in zip([1, 9, 5, 5, 12], names)]
    case("falling-run-behind", gsym(fall, base=0), 10)
    fall = [(offset, info(0, name, END)) for offset, name in zip([1, 1, 9, 5, 5], names)]
    case("falling-several-equal", gsym(fall, base=0), 6)
    case("sum-wraps", one(END, size=1, base=TOP), TOP)
    whole = one()
    case("info-7", whole[:-1])
    case("info-8", whole)
    case("info-past", whole[:-8])


def strings():
    case("name-0", one(ROW, END, name=0))
    case("name-outside", one(ROW, END, name=0x1000))
    case("name-open", one(ROW, END, name=at("b.c"), strings=TABLE[:-1]))
    case("name-not-utf8", one(ROW, END, name=len(TABLE), strings=TABLE + b"\xff\0"))
    case("frame-name-outside", one(ROW, tree(call(0x1000, 9)), END))
    case("directory-outside", one(lines(b"\1\3\2\0\0"), END))
    case("directory-open", one(ROW, END, files=[(0, 0), (len(TABLE), at("a.c"))], strings=TABLE + b"/tmp"))
    case("file-past", one(lines(b"\1\4\2\0\0"), END))


def lists():
    case("list-no-end", one(ROW))
    case("list-end-no-length", one(ROW, u32(0)))
    case("list-item-long", one(ROW, u32(2) + u32(9) + b"\0"))
    case("list-end-length", one(ROW, u32(0) + u32(1) + b"\0"))
    case("list-end-past", one(ROW, u32(0) + u32(1)))
    case("two-lines", one(ROW, lines(b"\2\0\0", b"\0\0\7"), END))
    case("two-lines-first-empty", one(lines(b"\0"), ROW, END))
    case("two-trees", one(ROW, tree(call("leaf", 9)), tree(call("inner", 8)), END))
    case("tree-no-row", one(item(2, b"\1"), END))
    case("type-3", one(ROW, item(3, b"\1"), END))
    case("type-4", one(ROW, item(4, b"\1"), END))
    case("type-7", one(ROW, item(7, b"\1"), END))


def line_tables():
    case("line-change-after-last", one(lines(b"\2\0\3\4\0"), END), 0x1001)
    case("line-no-end", one(lines(b"\2\0"), END), 0x1001)
    case("line-no-end-exact", one(lines(b"\2\0"), END))
    case("line-operand-missing", one(lines(b"\2\0\1"), END), 0x1001)
    case("line-below-first", one(lines(b"\2\4\0"), END))
    case("line-no-rows", one(lines(b"\0"), END))
    case("line-file-0", one(lines(b"\1\0\2\0\0"), END))
    case("line-range-0", one(lines(b"\4\0", b"\0\x7f\5"), END))
    case("line-range-negative", one(lines(b"\2\2\7\0", b"\0\x7d\5"), END), 0x1003)
    case("line-equal-rows", one(lines(b"\2\0\3\1\2\0\0"), END))
    case("line-equal-rows-past", one(lines(b"\2\0\3\1\2\0\3\1\2\4\0"), END), 0x1001)


def trees():
    leaf = call("leaf", 9)
    case("tree-order", one(ROW, tree(call("inner", 8, kids=[leaf])), END))
    case("tree-root-other-name", one(ROW, tree(leaf, name="outer"), END))
    case("tree-root-call-file", one(ROW, tree(leaf, call=(1, 3)), END))
    case("tree-root-call-file-past", one(ROW, tree(leaf, call=(9, 3)), END))
    case("tree-root-unnamed", one(ROW, tree(leaf, name=""), END))
    case("tree-child-unnamed", one(ROW, tree(call("", 8, kids=[leaf])), END))
    case("tree-child-call-file-0", one(ROW, tree(call("leaf", 9, file=0)), END))
    case("tree-child-file-empty", one(ROW, tree(call("leaf", 9, file=4)), END, files=FILES + [(0, 0)]))
    elsewhere = [(len(TABLE) - 1, len(TABLE) - 1)]  # the last zero byte of the table: an empty string that isn't the first
    case("tree-child-file-empty-elsewhere", one(ROW, tree(call("leaf", 9, file=4)), END, files=FILES + elsewhere))
    case("tree-child-call-file-past", one(ROW, tree(call("leaf", 9, file=9)), END))
    case("tree-siblings", one(ROW, tree(leaf, call("inner", 8)), END))
    unsorted = [(0x10, 0x10), (0, 8)]
    case("tree-unsorted", one(ROW, tree(node([(0, 4)], "leaf", (1, 9)), ranges=unsorted), END), 0x1001)
    case("tree-unsorted-first", one(ROW, tree(node([(0, 4)], "leaf", (1, 9)), ranges=unsorted), END), 0x1011)
    case("tree-empty-range", one(ROW, tree(node([(0, 0)], "inner", (1, 8)), leaf), END))
    closed = node([(8, 4)], "inner", (1, 8), [])
    case("tree-cut-closed", one(ROW, item(2, tree(closed)[8:-4]), END))
    case("tree-cut-open", one(ROW, item(2, tree(leaf)[8:-1]), END))
    case("tree-past-top", one(ROW, tree(node([(TOP, 1)], "inner", (1, 8)), leaf), END))
    case("tree-call-file-wide", one(ROW, tree(call("leaf", 9, file=2**32 + 1)), END))
    case("tree-call-line-wide", one(ROW, tree(call("leaf", 2**32 + 9)), END))
    case("tree-range-count", one(ROW, item(2, uleb(2**63)), END))


def limits():
    deep = call("leaf", 7)
    for _ in range(63):
        deep = node(ALL, "", (0, 0), [deep])
    case("level-65", one(ROW, tree(deep), END))
    many = [call("leaf", 9)] * 64
    case("frames-65", one(ROW, tree(*many), END))
    case("room-1", one(ROW, tree(call("leaf", 9)), END), room=1)


for part in [numbers, opening, choosing, strings, lists, line_tables, trees, limits]:
    part()


def write(folder):
    for name, file, *_ in CASES:
        (pathlib.Path(folder) / f"{name}.gsym").write_bytes(file)


if __name__ == "__main__":
    write(sys.argv[1])
