"""Texts, by paper 01's lines of a trace, its sentences on writing, and its numbers, with the first number of paper 02's Order 3."""
import re
import clock, records, rows

def start(line):
    m = re.fullmatch(rb'; *\$STARTTIME=(0|[1-9][0-9]{0,4})\.([0-9]{1,10}) *', line)
    if not m: return None
    ms = clock.start(int(m[1]), m[2])
    return ms if ms <= clock.LAST_START else None

def refused(number, place): return (number, place, 0, 0, 0, 0, 0), []

def read(text, room):
    """the seven numbers, and the records"""
    rest, place, version, began, first, found = text, 0, None, None, 0, []
    while True:
        place += 1
        if not rest:
            if place <= 2: return refused(place + 3, place)
            break
        end = re.search(rb'[\r\n]', rest)
        if not end or rest[end.start():end.start() + 2] != b'\r\n': return refused(2, place)
        line, rest = rest[:end.start()], rest[end.start() + 2:]
        if len(line) > 250: return refused(3, place)
        if place == 1:
            m = re.fullmatch(rb'; *\$FILEVERSION=1\.([12]) *', line)
            if not m: return refused(4, 1)
            version = 10 + int(m[1])
        elif place == 2:
            began = start(line)
            if began is None: return refused(5, 2)
        elif line[:1] == b';':
            if line[1:].lstrip(b' ')[:1] == b'$': return refused(6, place)
        else:
            if not found: first = rows.number(line)
            r = rows.row(version, first + len(found), line)
            if r is None: return refused(7, place)
            found.append(r)
    if 20 * len(found) > room: return refused(8, 0)
    back = next((k for k, mark in enumerate(records.marks(found), 1) if mark), 0)
    return (0, 0, version, began, len(found), back, first), found

def numbered(first, count):
    """whether so many rows may have the numbers from the first on"""
    if count == 0: return first == 0
    return first >= 1 and first + count - 1 <= rows.LAST_NUMBER

def write(version, start, first, s, room):
    """number, place and text"""
    number, place, found = records.several(s)
    if number == 20: return 20, 0, ''
    if version not in (11, 12): return 21, 0, ''
    if start > clock.LAST_START: return 22, 0, ''
    if not numbered(first, len(s) // 20): return 26, 0, ''
    if number: return number, place, ''
    for k, f in enumerate(found, 1):
        if not rows.carried(version, f[0], f[1]): return 24, k, ''
    day, ms = divmod(start, clock.DAY)
    lines = [';$FILEVERSION=' + {11: '1.1', 12: '1.2'}[version], ';$STARTTIME=%d.%010d' % (day, clock.fraction(ms))]
    lines += [rows.written(version, k, *f) for k, f in enumerate(found, first)]
    text = ''.join(line + '\r\n' for line in lines)
    return (25, 0, '') if len(text) > room else (0, 0, text)
