"""The packed record, by the sentences of paper 01, with the mark of paper 02's Order 7 behind the data."""
from offsets import LAST_OFFSET

WIDTHS = (48, 5, 3, 1, 29, 4, 64, 1, 5)

def well_formed(f):
    offset, bus, kind, extended, ident, length, data = f
    b = data.to_bytes(8, 'big')
    if kind not in range(6) or bus not in range(17) or extended not in (0, 1) or length not in range(9): return False
    if offset > LAST_OFFSET: return False
    if ident > (0x1FFFFFFF if extended else 0x7FF): return False
    if any(b[length:]): return False
    if kind in (2, 3) and any(b): return False
    if kind == 4 and (extended, ident, length) != (0, 0, 4): return False
    if kind == 5:
        positions = set(range(2, 16)) | {17, 18, 19} | set(range(23, 29))
        if extended or length != 4 or ident not in (1, 2, 4, 8) or b[0] not in (0, 1) or b[1] not in positions: return False
    return True

def mark_of(before, f):
    """of a record behind another, or of the first, before which there is None: 1 exactly if its offset is below"""
    return int(before is not None and f[0] < before[0])

def marks(found): return [mark_of(before, f) for before, f in zip([None, *found], found)]

def bits(f, mark, spare=0):
    """the 160 bits of seven fields, well formed or not, of a mark and of the spare bits; what does not fit is cut off"""
    text = ''.join(format(v, '064b')[-w:] for v, w in zip((*f, mark, spare), WIDTHS))
    return bytes(int(text[i:i + 8], 2) for i in range(0, 160, 8))

def packed(found):
    """the bytes of records in their order, with their marks"""
    return b''.join(map(bits, found, marks(found)))

def pack(f, mark, room):
    """number, place and bytes"""
    if not well_formed(f) or mark > 1: return 23, 1, b''
    if room < 20: return 25, 0, b''
    return 0, 0, bits(f, mark)

def unpack(s):
    """number, place, fields and mark"""
    if len(s) != 20: return 20, 0, None, 0
    text, f, at = ''.join(format(b, '08b') for b in s), [], 0
    for w in WIDTHS:
        f.append(int(text[at:at + w], 2))
        at += w
    *f, mark, spare = f
    if spare or not well_formed(f): return 23, 1, None, 0
    return 0, 0, tuple(f), mark

def several(s):
    """the fields of each packed record, or the number and place of a refusal"""
    if len(s) % 20 or len(s) > 19_999_980: return 20, 0, []
    before, found = None, []
    for k in range(len(s) // 20):
        number, _, f, said = unpack(s[20 * k:20 * k + 20])
        if number or said != mark_of(before, f): return 23, k + 1, []
        before = f
        found.append(f)
    return 0, 0, found
