"""Telemotive ASCII lines, read back, by paper 02's Orders 4, 5 and 6 over paper 01's sentences on the export."""
import re
from datetime import date
from ascii_lines import LAST_CHANNEL
from offsets import LAST_OFFSET

LAST_DAY = 99_999
CHANNELS = {b'#%d' % b: b for b in range(LAST_CHANNEL + 1)}
DIRECTIONS = {b'Rx': 0, b'Tx': 1}

def refused(number, place): return (number, place, 0, 0), []

def days(day, month, year):
    """since 30.12.1899, or None"""
    try: found = (date(year, month, day) - date(1899, 12, 30)).days
    except ValueError: return None
    return found if 0 <= found <= LAST_DAY else None

def stamp(day, time):
    """in microseconds, or None"""
    d = re.fullmatch(rb'([0-9]{2})\.([0-9]{2})\.([0-9]{4})', day)
    t = re.fullmatch(rb'([0-9]{2}):([0-9]{2}):([0-9]{2})\.([0-9]{4})', time)
    if not d or not t: return None
    since = days(*map(int, d.groups()))
    hour, minute, second, part = map(int, t.groups())
    if since is None or hour > 23 or minute > 59 or second > 59: return None
    return (((since * 24 + hour) * 60 + minute) * 60 + second) * 1_000_000 + part * 100

def ident(word, extended):
    width, most = (8, 0x1FFFFFFF) if extended else (3, 0x7FF)
    if not re.fullmatch(rb'[0-9A-Fa-f]{%d}' % width, word): return None
    return int(word, 16) if int(word, 16) <= most else None

def data_bytes(length, words):
    """the length and the eight bytes as one number, or None"""
    if not re.fullmatch(rb'[0-8]', length) or len(words) != int(length): return None
    if not all(re.fullmatch(rb'[0-9A-Fa-f]{2}', w) for w in words): return None
    return int(length), int.from_bytes(bytes(int(w, 16) for w in words).ljust(8, b'\0'), 'big')

def line(s):
    """the stamp, and the fields of the record behind its offset; or None"""
    if len(s) > 250 or s[:1] == b' ' or s[-1:] == b' ': return None
    parts = re.split(rb' +', s)
    extended = parts[2:3] == [b'CANExt']
    if parts[2:3] != [b'CANExt' if extended else b'CAN'] or parts[4:5] != [b'|']: return None
    if extended and parts[5:6] != [b'EXTENDED']: return None
    frame = parts[6:] if extended else parts[5:]
    if len(frame) < 3 or frame[0] not in DIRECTIONS or parts[3] not in CHANNELS: return None
    at, value, data = stamp(*parts[:2]), ident(frame[1], extended), data_bytes(frame[2], frame[3:])
    if at is None or value is None or data is None: return None
    return at, (CHANNELS[parts[3]], DIRECTIONS[frame[0]], int(extended), value, *data)

def read(text, room):
    """number, place, start and records, and the fields of each record"""
    if len(text) > 134_217_728: return refused(1, 0)
    *ended, open_line = text.split(b'\n')
    start, found = 0, []
    for place, s in enumerate(ended, 1):
        got = line(s[:-1] if s[-1:] == b'\r' else s)
        if got is None: return refused(31, place)
        at, fields = got
        if place == 1: start = at // 1000
        if at < start * 1000: return refused(32, place)
        if at - start * 1000 > LAST_OFFSET: return refused(33, place)
        found.append((at - start * 1000, *fields))
    if open_line: return refused(31, len(ended) + 1)
    if len(found) > 999_999: return refused(34, 0)
    if 20 * len(found) > room: return refused(8, 0)
    return (0, 0, start, len(found)), found
