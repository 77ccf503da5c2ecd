"""Rows, by the columns of paper 01 and its sentences on writing."""
import re
import offsets

LAST_NUMBER = 999_999

def decimal(s): return int(s) if re.fullmatch(rb'0|[1-9][0-9]*', s) else None

def data_bytes(fields, n):
    """so many fields as the first of eight bytes"""
    if len(fields) != n or not all(re.fullmatch(rb'[0-9A-Fa-f]{2}', f) for f in fields): return None
    return bytes(int(f, 16) for f in fields).ljust(8, b'\0')

def carried(version, offset, bus):
    if version == 11: return bus == 0 and offset % 100 == 0
    return version == 12 and 1 <= bus <= 16

def written(version, k, offset, bus, kind, extended, ident, length, data):
    """the row as it is written"""
    ms, us = divmod(offset, 1000)
    fields = ['%d)' % k, '%d.%d' % (ms, us // 100) if version == 11 else '%d.%03d' % (ms, us)]
    if version == 12: fields.append(str(bus))
    fields.append({0: 'Rx', 1: 'Tx', 2: 'Rx', 3: 'Tx', 4: 'Warng', 5: 'Error'}[kind])
    fields.append('F' * 8 if kind == 4 else '%08X' % ident if extended else '%04X' % ident)
    fields.append(str(length))
    fields += ['RTR'] if kind in (2, 3) else ['%02X' % b for b in data.to_bytes(8, 'big')[:length]]
    return ' '.join(fields)

def number(line):
    """the row number with which a line begins, or 0"""
    m = re.match(rb' *([1-9][0-9]{0,5})\)', line)
    return int(m[1]) if m else 0

def row(version, k, line):
    """(offset, bus, kind, extended, id, length, data) or None"""
    if len(line) > 250 or version not in (11, 12): return None
    f = [x for x in line.split(b' ') if x]
    if len(f) < 2 or f[0] != b'%d)' % k or not 1 <= k <= LAST_NUMBER: return None
    offset = offsets.read(f[1], 1 if version == 11 else 3)
    if offset is None: return None
    rest, bus = f[2:], 0
    if version == 12:
        bus = decimal(rest[0]) if rest else None
        if bus is None or not 1 <= bus <= 16: return None
        rest = rest[1:]
    if len(rest) < 3: return None
    column, ident, length, data = rest[0], rest[1], rest[2], rest[3:]
    if not re.fullmatch(rb'[0-9A-Fa-f]+', ident) or not re.fullmatch(rb'[0-8]', length): return None
    value, wide, length = int(ident, 16), len(ident), int(length)
    if column in (b'Rx', b'Tx'):
        if (wide, value <= (0x7FF if wide == 4 else 0x1FFFFFFF)) not in ((4, True), (8, True)): return None
        kind = 0 if column == b'Rx' else 1
        if data == [b'RTR']: return offset, bus, kind + 2, wide // 8, value, length, 0
        got = data_bytes(data, length)
        return None if got is None else (offset, bus, kind, wide // 8, value, length, int.from_bytes(got, 'big'))
    if column == b'Warng':
        got = data_bytes(data[:4], 4)
        words = all(re.fullmatch(rb'[A-Z]+', w) for w in data[4:])
        if wide != 8 or value != 0xFFFFFFFF or length != 4 or got is None or not words: return None
        return offset, bus, 4, 0, 0, 4, int.from_bytes(got, 'big')
    if column == b'Error':
        got = data_bytes(data, 4)
        positions = set(range(2, 16)) | {17, 18, 19} | set(range(23, 29))
        if wide != 4 or value not in (1, 2, 4, 8) or length != 4 or got is None or got[0] > 1 or got[1] not in positions: return None
        return offset, bus, 5, 0, value, 4, int.from_bytes(got, 'big')
    return None
