#!/usr/bin/env python3
"""Writes the vectors that crates/reader_cases replays, to standard output: `make.py > crates/reader_cases/stdin`.

README.md beside this file says what each kind of case is and where its expected answer comes from. Nothing here
is taken from the Rattle code: the answers are those of public documents, of Python's own codec and integers, or
of the few lines of bit arithmetic below.
"""

MASK64 = 2**64 - 1


def case(kind, data, p=0, q=0, r=0, tag='v', a=0, b=0, c=0, d=0):
    print(kind, data.hex() or '.', *('%x' % n for n in (p, q, r)), tag, *('%x' % n for n in (a, b, c, d)))


def remark(text):
    print('#', text)


# ---- numbers of a fixed width: Python's int.from_bytes

def fixed():
    data = bytes([0x01, 0xff, 0x80, 0x7f, 0x00, 0xfe, 0x55, 0xaa, 0x10, 0x9b])
    for kind, width in (('b', 1), ('h', 2), ('w', 4), ('d', 8)):
        remark('%d bytes at each place, up to the end and past it' % width)
        for at in list(range(len(data) + 2)) + [2**63, MASK64]:
            part = data[at:at + width]
            if len(part) == width:
                case(kind, data, at, a=int.from_bytes(part, 'little'))
            else:
                case(kind, data, at, tag='-')
        case(kind, b'', 0, tag='-')
        for fill in (0x00, 0x7f, 0x80, 0xff):
            case(kind, bytes([fill] * width), 0, a=int.from_bytes(bytes([fill] * width), 'little'))
    remark('bytes left from a place on')
    for at in (0, 1, 9, 10, 11, MASK64):
        case('r', data, at, a=max(0, len(data) - at))


# ---- LEB128: seven bits a byte, taken together by shifts

def leb(data, at, signed):
    value, shift = 0, 0
    for count in range(10):
        if at + count >= len(data):
            return 's', 0, 0
        byte = data[at + count]
        value |= (byte & 0x7f) << shift
        shift += 7
        if byte & 0x80 == 0:
            if signed and byte & 0x40:
                value -= 1 << shift
            fits = -2**63 <= value < 2**63 if signed else value < 2**64
            return ('v', value & MASK64, at + count + 1) if fits else ('w', 0, 0)
    return 'w', 0, 0


def both(data, at=0):
    for kind, signed in (('u', False), ('s', True)):
        tag, a, b = leb(data, at, signed)
        case(kind, data, at, tag=tag, a=a, b=b)


def written(value, pad):
    """A number's bytes, as few as a signed reader needs, and so many more that are padding."""
    out = b''
    while not -64 <= value < 64 or pad > 0:
        pad -= -64 <= value < 64
        out += bytes([value & 0x7f | 0x80])
        value >>= 7
    return out + bytes([value & 0x7f])


def leb128():
    remark('DWARF 5, figure 22: unsigned')
    for data, value in (('02', 2), ('7f', 127), ('8001', 128), ('8101', 129), ('b964', 12857)):
        case('u', bytes.fromhex(data), a=value, b=len(data) // 2)
    remark('DWARF 5, figure 23: signed')
    for data, value in (('02', 2), ('7e', -2), ('ff00', 127), ('817f', -127), ('8001', 128), ('807f', -128),
                        ('8101', 129), ('ff7e', -129)):
        case('s', bytes.fromhex(data), a=value & MASK64, b=len(data) // 2)
    remark('RULES, T1 to T5')
    case('u', bytes.fromhex('b964'), a=12857, b=2)
    case('s', bytes.fromhex('807f'), a=-128 & MASK64, b=2)
    case('u', bytes.fromhex('ff' * 9 + '01'), a=MASK64, b=10)
    case('u', bytes.fromhex('ff' * 9 + '02'), tag='w')
    case('s', bytes.fromhex('80' * 9 + '7f'), a=-2**63 & MASK64, b=10)
    remark('no byte, and places past the end: short')
    both(b'')
    for at in (1, 2, 9, MASK64):
        both(b'\x05', at)
    remark('one byte')
    for b in (0x00, 0x01, 0x3f, 0x40, 0x41, 0x7e, 0x7f):
        both(bytes([b]))
        both(bytes([b, 0xff]))
    remark('bytes that all ask for another: short up to nine, too wide from ten on')
    for n in range(1, 13):
        for fill in (0x80, 0xff):
            both(bytes([fill] * n))
    remark('padding up to ten bytes, and a byte more')
    for n in range(1, 12):
        both(bytes([0x80] * (n - 1) + [0x00]))
        both(bytes([0xff] * (n - 1) + [0x7f]))
        both(bytes([0x81] + [0x80] * max(0, n - 2) + [0x00]))
    remark('nine bytes and ten: the last byte at each edge')
    for n in (8, 9, 10):
        for fill in (0x80, 0xff):
            for last in (0x00, 0x01, 0x02, 0x03, 0x3f, 0x40, 0x7d, 0x7e, 0x7f, 0x80, 0x81, 0xff):
                both(bytes([fill] * (n - 1) + [last]))
                both(bytes([fill] * (n - 1) + [last, 0x00]))
    remark('two bytes and three: the values at each edge, as short as they may be and padded, and cut')
    for bits in (6, 7, 13, 14, 20, 21):
        for value in (2**bits - 1, 2**bits, 2**bits + 1):
            for pad in (0, 1):
                for data in (written(value, pad), written(-value, pad)):
                    both(data)
                both(written(value, pad)[:-1])
    remark('two bytes, three and four: each byte at its edges, and the place after it')
    for front in ((0x80,), (0x81,), (0xbf,), (0xc0,), (0xff,), (0x80, 0x80), (0x80, 0xff), (0xff, 0x80), (0xff, 0xff),
                  (0x81, 0x80), (0x80, 0x81), (0xc0, 0xbf), (0xbf, 0xc0), (0x80,) * 3, (0xff,) * 3):
        for last in (0x00, 0x01, 0x02, 0x3f, 0x40, 0x41, 0x7e, 0x7f):
            both(bytes([*front, last]))
            both(bytes([0x7f, *front, last, 0xff]), 1)
    remark('a number in the middle, and the place after it')
    data = bytes.fromhex('80ffb964807f00e58e26c0bb78ff')
    for at in range(len(data) + 1):
        both(data, at)


# ---- strings of a table: bytes.find

def strings():
    file = b'HEAD\x00sync\x00\x00caf\xc3\xa9\x00\xff\xfe\x00post\xe2\x82\x00end'
    sizes = (0, 1, 5, 6, 7, 12, len(file) - 4, len(file) - 4 - 3, len(file) - 4 + 1, MASK64)
    for kind in 'tn':
        remark('a file with a table from place 4 on, of several sizes: %s'
               % ('texts' if kind == 't' else 'names, which must be UTF-8'))
        for size in sizes:
            for offset in list(range(0, 27)) + [2**32 - 1]:
                table = file[4:4 + size] if 4 + size <= len(file) else b''
                end = table.find(0, offset) if offset < len(table) else -1
                good = end >= 0 and (kind == 't' or utf8(table[offset:end]))
                if good:
                    case(kind, file, 4, size, offset, a=4 + offset, b=end - offset)
                else:
                    case(kind, file, 4, size, offset, tag='-')
        remark('tables that are no part of the file')
        for place, size in ((len(file), 0), (len(file), 1), (len(file) + 1, 0), (MASK64, 1), (MASK64, MASK64), (1, MASK64)):
            case(kind, file, place, size, 0, tag='-')
    remark('the part at a place, or an empty part')
    for place in (0, 1, 4, len(file) - 1, len(file), len(file) + 1, 2**63, MASK64):
        for size in (0, 1, 4, 8, len(file), 2**63, MASK64):
            part = file[place:place + size] if place + size <= len(file) else b''
            if len(part) <= 8:
                case('p', file, place, size, a=len(part), b=int.from_bytes(part, 'big'))


# ---- UTF-8: Python's codec

def utf8(data):
    try:
        data.decode('utf-8')
        return True
    except UnicodeDecodeError:
        return False


def judged(data):
    case('8', data, a=int(utf8(data)))


def utf8_cases():
    remark('the first and last character of each range of RFC 3629')
    edges = (0x1, 0x7f, 0x80, 0x7ff, 0x800, 0xfff, 0x1000, 0xcfff, 0xd000, 0xd7ff, 0xe000, 0xffff, 0x10000, 0x3ffff,
             0x40000, 0xfffff, 0x100000, 0x10ffff)
    judged(b'')
    judged(b'\x00')
    for c in edges:
        data = chr(c).encode('utf-8')
        judged(data)
        judged(b'a' + data + b'z')
        for cut in range(1, len(data)):
            judged(data[:cut])
            judged(data[:cut] + b'z')
            judged(b'a' + data[:cut])
    judged(''.join(map(chr, edges)).encode('utf-8'))
    remark('surrogates')
    for c in (0xd800, 0xdbff, 0xdc00, 0xdfff):
        judged(chr(c).encode('utf-8', 'surrogatepass'))
    remark('longer forms than needed')
    for data in ('c080', 'c1bf', 'e08080', 'e09fbf', 'f0808080', 'f08fbfbf', 'f8808080', 'fc80808080', 'c0af', 'e080af'):
        judged(bytes.fromhex(data))
    remark('above U+10FFFF')
    for data in ('f4908080', 'f4bfbfbf', 'f5808080', 'f7bfbfbf', 'f888808080', 'fbbfbfbfbf', 'fdbfbfbfbfbf'):
        judged(bytes.fromhex(data))
    remark('each first byte alone, and with each edge of the second byte')
    for lead in range(256):
        judged(bytes([lead]))
    for lead in range(0xc0, 0x100):
        for second in (0x7f, 0x80, 0x8f, 0x90, 0x9f, 0xa0, 0xbf, 0xc0):
            judged(bytes([lead, second]))
            judged(bytes([lead, second, 0x80]))
            judged(bytes([lead, second, 0x80, 0xbf]))
    remark('each later byte at its edges')
    for wrong in (0x00, 0x7f, 0xc0, 0xff):
        judged(bytes([0xe1, 0x80, wrong]))
        judged(bytes([0xf1, 0x80, wrong, 0x80]))
        judged(bytes([0xf1, 0x80, 0x80, wrong]))
    remark('the length of a sequence by its first byte, as RULES has it')
    for lead in range(256):
        length = 1 if lead < 0x80 else 2 if 0xc2 <= lead <= 0xdf else 3 if 0xe0 <= lead <= 0xef else 4 if 0xf0 <= lead <= 0xf4 else 0
        case('l', b'', r=lead, a=length)


# ---- signed numbers: Python's integers, reduced

def signed(bits):
    return bits - 2**64 if bits >= 2**63 else bits


def toward_zero(a, d):
    return abs(a) // abs(d) * (1 if (a < 0) == (d < 0) else -1)


def signed_sums():
    edges = (0, 1, 2, 2**63 - 1, 2**63, 2**63 + 1, MASK64 - 1, MASK64)
    remark('wrapping sums and differences')
    for p in edges:
        for q in edges:
            case('+', b'', p, q, a=(p + q) & MASK64)
            case('-', b'', p, q, a=(p - q) & MASK64)
            case('6', b'', p, q, a=(p + signed(q)) & MASK64)
            case('3', b'', p % 2**32, q, a=(p % 2**32 + signed(q)) % 2**32)
    remark('quotient toward zero, remainder with the sign of the dividend; a divisor of 0 gives 0 and the dividend')
    for a in (0, 1, 7, 251, 255):
        for d in (0, 1, 2, 3, 15, 255, 256, 2**63 - 1, -1, -2, -3, -15, -255, -256, -2**63):
            q = toward_zero(a, d) if d else 0
            case('/', b'', a, d & MASK64, a=q & MASK64)
            case('%', b'', a, d & MASK64, a=(a - q * d) & MASK64)


remark('Made by tests/vectors/make.py; tests/vectors/README.md says what a line means.')
fixed()
leb128()
strings()
utf8_cases()
signed_sums()
