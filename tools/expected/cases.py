#!/usr/bin/env python3
"""The output that cases must give: reads the cases in its file stdin, judges each by the papers, and sees that the cases which they name are among them,
with answers that were taken from them by hand."""
import sys
import ascii_lines, clock, digits, explain, inputs, read_ascii, records, rows, traces
from template import fill, plain, shown

def value(word):
    """a number in decimal, or behind an x in hexadecimal; the program takes one of more digits for 0"""
    base, figures, most = (16, word[1:] or '0', 16) if word[0] == 'x' else (10, word, 19)
    assert len(figures) <= most, word
    return int(figures, base)

def numbers(words): return ' '.join(map(str, words))

def fields(f): return '%d %d %d %d %d %d %016x' % tuple(f)

def refused(number, place): return '%d %d untouched' % (number, place)

def found(n): return 'none' if n is None else str(n)

# Reading

def read(text, room):
    seven, found = traces.read(text, room)
    packed = records.packed(found).hex()
    return numbers(seven) + ('' if seven[0] else ' ' + packed) + ' untouched'

def again(text, room, channel):
    (number, _, version, start, _, _, first), found = traces.read(text, 60)
    if number: return 'none'
    s = records.packed(found)
    assert len(s) == 60, text
    return written(version, start, first, s, room) + ' ' + exported(start, channel, s, room)

def row(text, version, number):
    r = rows.row(version, number, text)
    return fields(r) if r else 'none'

# Explaining

def explained(text, version, number): return numbers(explain.explain(text, version, number))

# Reading lines of Telemotive ASCII back

def ascii_read(text, room):
    four, found = read_ascii.read(text, room)
    packed = records.packed(found).hex()
    return numbers(four) + ('' if four[0] else ' ' + packed) + ' untouched'

def returned(text, room, channel):
    (number, _, start, _), found = read_ascii.read(text, 700)
    if number: return 'none'
    s = records.packed(found)
    number, _, made, *_ = ascii_lines.export(start, channel, s, room)
    return exported(start, channel, s, room) + ('' if number else ' ' + ascii_read(made.encode(), 240))

# One record, and one row

def bits_of(f, last):
    """fields, and the last six bits as one number: the mark and the spare bits"""
    return records.bits(f, last >> 5, last)

def pack(text, *given):
    *f, mark, room = given
    number, place, s = records.pack(f, mark, room)
    return refused(number, place) if number else '0 0 %s untouched' % s.hex()

def unpack(text, *given):
    *f, last, count = given
    s = bits_of(f, last).ljust(40, b'\xee')[:count]
    number, place, f, mark = records.unpack(s)
    return '%s %d %d' % (s.hex(), number, place) + ('' if number else ' %s %d' % (fields(f), mark))

def put(text, version, number, *f):
    if not records.well_formed(f) or not rows.carried(version, f[0], f[1]) or not 1 <= number <= rows.LAST_NUMBER: return 'none'
    line = rows.written(version, number, *f)
    return '%d %d %s untouched' % (len(line), len(line) + 2, shown('\xee\xee' + line))

# Several records

def record_of(words):
    given = [value(word) for word in words.split(' ')] + [0] * 8
    return bits_of(given[:7], given[7])

def records_of(text, own):
    """the bytes of records; the one behind a bar takes the place of one of them"""
    given, _, other = text.decode().partition('|')
    made = [record_of(words) for words in given.split(';') if words]
    if own: made[own - 1:own] = [record_of(other)]
    return b''.join(made).ljust(300, b'\xff')

def written(version, start, first, s, room):
    number, place, text = traces.write(version, start, first, s, room)
    if number: return refused(number, place)
    return '0 0 %d %s untouched %s' % (len(text), shown(text), read(text.encode(), 240))

def exported(start, channel, s, room):
    number, place, text, lines, left_out = ascii_lines.export(start, channel, s, room)
    return refused(number, place) if number else '0 0 %d %d %d %s untouched' % (len(text), lines, left_out, shown(text))

def write(text, version, start, first, count, room, own=0): return written(version, start, first, records_of(text, own)[:count], room)

def export(text, start, channel, count, room, own=0): return exported(start, channel, records_of(text, own)[:count], room)

# Digits and time

def spelled(text, n, width):
    made = ''.join('\xee' + x for x in digits.spellings(n, width))
    return shown(made) + ' untouched'

def fraction(text, ms):
    f = clock.fraction(ms)
    return numbers((f, clock.start(99999, '%010d' % f) % clock.DAY))

# Inputs

def converted(text, room=inputs.RECORDS, page=inputs.PAGE):
    said = inputs.convert(text, room, page)
    return 'none untouched' if said is None else '%d %s untouched' % (len(said), shown(said))

def long(text, count):
    before, line, behind = text.decode('latin1').split('|')
    return converted((before + ''.join(plain(line, k) for k in range(1, count + 1)) + behind).encode('latin1'))

def noise(text, seed, count, low):
    before, behind = text.split(b'|')
    return converted(before + inputs.noise(seed, count, low) + behind)

# The cases: how many numbers each takes, and what comes back for its text and its numbers

ARMS = {
    'read': (1, read), 'cut': (2, lambda text, room, count: read(text[:count], room)), 'again': (2, again), 'row': (2, row),
    'pack': (9, pack), 'unpack': (9, unpack), 'put': (9, put), 'write': (6, write), 'export': (5, export),
    'decimal': (0, lambda text: found(digits.decimal(text))), 'padded': (0, lambda text: found(digits.padded(text))),
    'hex': (0, lambda text: found(digits.hexadecimal(text))), 'digits': (2, spelled),
    'start': (1, lambda text, days: str(clock.start(days, text))), 'fraction': (1, fraction),
    'date': (1, lambda text, days: numbers(clock.day(days))), 'stamp': (2, lambda text, start, offset: numbers(clock.stamp(start, offset))),
    'explain': (2, explained), 'begin': (3, lambda text, version, number, count: explained(text[:count], version, number)),
    'ascii': (1, ascii_read), 'part': (2, lambda text, room, count: ascii_read(text[:count], room)), 'return': (2, returned),
    'convert': (2, converted), 'long': (1, long), 'noise': (3, noise),
}

def answer(line):
    name, _, text = line.partition(': ')
    what, *words = name.split(' ')
    if what not in ARMS: return 'no such case'
    takes, judged = ARMS[what]
    return judged(text.encode('latin1'), *map(value, words[1:2 * takes:2]))

lines, given = [], ''
for family in open(sys.argv[1], encoding='ascii').read().split('\n'):
    if family[:1] == '%': given = family[1:]
    if not family or family[0] in '/%': continue
    first, last, line = family.split(' ', 2) if family[0].isdigit() else (0, 0, family)
    for n in range(int(first), int(last) + 1):
        lines.append(shown(fill(line, n, '%')) + ' -> ' + answer(fill(line, n, plain(given, n))))

# The paper's small trace, its limits, the errors that look right, what Order 1 says of a line, Order 3 of first numbers, Order 4 of lines that are read back,
# Order 5 of offsets, Order 6 of the channel for bus 0, and Order 7 of marks: how these lines begin. The answers are the papers'; where they print none, as for the
# start near a half (3,160,952,640,065.49984 before rounding), for the bits of a record, for the fields of Order 1, for the bytes of Order 3, for the starts and
# offsets of Order 4, for the rows, bits and stamps at the limit of Order 5 (which is twelve F, and 55 past a multiple of 100; 10^14 is 5AF3107A4000), for the lines
# of Order 6 and their lengths (44 bytes for a standard ID with one digit of channel and no data), and for the records of Order 7, whose last byte has 20 where they
# step back, they were worked out by hand.

PAPER = r'''
read room 100 small trace: %1) 0.000 1 Rx 0123 2 0A FF\r\n2) 1500.250 2 Tx 18AB0001 0\r\n3) 1500.249 1 Rx 0124 3 RTR\r\n -> 0 0 12 3160987200000 3 3 1 000000000000080000048c82bfc0000000000000
again room 300 channel 1 small trace: %1) 0.000 1 Rx 0123 2 0A FF\r\n2) 1500.250 2 Tx 18AB0001 0\r\n3) 1500.249 1 Rx 0124 3 RTR\r\n -> 0 0 135 ;$FILEVERSION=1.2\r\n;$STARTTIME=36585.5000000000\r\n1) 0.000 1 Rx 0123 2 0A FF\r\n2) 1500.250 2 Tx 18AB0001 0\r\n3) 1500.249 1 Rx 0124 3 RTR\r\n untouched 0 0 12 3160987200000 3 3 1 000000000000080000048c82bfc0000000000000
write version 12 start 3160987200000 first 1 bytes 60 room 135: % -> 0 0 135 ;$FILEVERSION=1.2\r\n;$STARTTIME=36585.5000000000\r\n1) 0.000 1 Rx 0123 2 0A FF\r\n2) 1500.250 2 Tx 18AB0001 0\r\n3) 1500.249 1 Rx 0124 3 RTR\r\n untouched 0 0 12 3160987200000 3 3 1 000000000000080000048c82bfc0000000000000
export start 3160987200000 channel 1 bytes 60 room 111: % -> 0 0 111 2 1 29.02.2000 12:00:00.0000 CAN #1 | Rx 123 2 0a ff\r\n29.02.2000 12:00:01.5002 CANExt #2 | EXTENDED Tx 18ab0001 0\r\n untouched
convert records 72800 page 313040 small trace: %1) 0.000 1 Rx 0123 2 0A FF\r\n2) 1500.250 2 Tx 18AB0001 0\r\n3) 1500.249 1 Rx 0124 3 RTR\r\n -> 111 29.02.2000 12:00:00.0000 CAN #1 | Rx 123 2 0a ff\r\n29.02.2000 12:00:01.5002 CANExt #2 | EXTENDED Tx 18ab0001 0\r\n untouched
read room 100 day 0: ;$FILEVERSION=1.2\r\n;$STARTTIME=0.0\r\n -> 0 0 12 0 0 0 0
read room 100 day 37704, last digits 33: ;$FILEVERSION=1.2\r\n;$STARTTIME=37704.5364870833\r\n -> 0 0 12 3257671952484 0 0 0
read room 100 day 39878, last digits 47: ;$FILEVERSION=1.2\r\n;$STARTTIME=39878.6772258947\r\n -> 0 0 12 3445517712317 0 0 0
read room 100 day past the last start, 99: ;$FILEVERSION=1.2\r\n;$STARTTIME=99999.9999999999\r\n -> 5 2 0 0 0 0 0 untouched
read room 100 id of four digits, 2047: %1) 0.000 1 Rx 07FF 0\r\n -> 0 0 12 3160987200000 1 0 1
read room 100 id of four digits, 2048: %1) 0.000 1 Rx 0800 0\r\n -> 7 3 0 0 0 0 0 untouched
read room 100 id of eight digits, 536870911: %1) 0.000 1 Rx 1FFFFFFF 0\r\n -> 0 0 12 3160987200000 1 0 1
read room 100 id of eight digits, 536870912: %1) 0.000 1 Rx 20000000 0\r\n -> 7 3 0 0 0 0 0 untouched
read room 100 length 0 with no byte: %1) 0.000 1 Rx 0123 0\r\n -> 0 0 12 3160987200000 1 0 1
read room 100 length 0 with one byte: %1) 0.000 1 Rx 0123 0 00\r\n -> 7 3 0 0 0 0 0 untouched
read room 100 length 8 with RTR: %1) 0.000 1 Rx 0123 8 RTR\r\n -> 0 0 12 3160987200000 1 0 1
pack offset 0 bus 1 kind 0 extended 0 id x123 length 2 data x0AFF000000000000 mark 0 room 20 -> 0 0 000000000000080000048c82bfc0000000000000
unpack offset 0 bus 1 kind 0 extended 0 id x123 length 2 data x0AFF000000000000 last 0 bytes 20 -> 000000000000080000048c82bfc0000000000000 0 0
export start 3160944000000 channel 1 bytes 20 room 300: % -> 0 0 50 1 0 29.02.2000
start day 0: 0 -> 0
start day 37704: 5364870833 -> 3257671952484
start day 39878: 6772258947 -> 3445517712317
date days 36585 -> 29 2 2000
date days 25569 -> 1 1 1970
read room 100 bus 16: %1) 0.000 16 Rx 0123 0\r\n -> 0 0 12 3160987200000 1 0 1 00000000000080
read room 100 bus 17: %1) 0.000 17 Rx 0123 0\r\n -> 7 3 0 0 0 0 0 untouched
read room 100 position 15: %1) 0.000 1 Error 0001 4 00 0F 00 00\r\n -> 0 0 12 3160987200000 1 0 1
read room 100 position 16: %1) 0.000 1 Error 0001 4 00 10 00 00\r\n -> 7 3 0 0 0 0 0 untouched
read room 100 row 3 with number 2: %1) 0.000 1 Rx 0123 0\r\n2) 0.000 1 Rx 0123 0\r\n2) 0.000 1 Rx 0123 0\r\n -> 7 5 0 0 0 0 0 untouched
read room 100 two header lines and no rows: % -> 0 0 12 3160987200000 0 0 0
read room 100 lone CR: \r -> 2 1 0 0 0 0 0 untouched
read room 100 offset 4294967296: %1) 4294967296.000 1 Rx 0123 0\r\n -> 0 0 12 3160987200000 1 0 1 03e80000000008
read room 100 day near a half: ;$FILEVERSION=1.2\r\n;$STARTTIME=36585.1000007581\r\n -> 0 0 12 3160952640065 0 0 0
read room 100 id of eight digits, 291: %1) 0.000 1 Rx 00000123 0\r\n -> 0 0 12 3160987200000 1 0 1 000000000000088000048c00
read room 100 word AB: %1) 0.000 1 Warng FFFFFFFF 4 00 00 00 08 AB\r\n -> 0 0 12 3160987200000 1 0 1 0000000000000c0000000100000002
read room 60 of 60 bytes, row 3 refused: ;$FILEVERSION=1.1\r\n;$STARTTIME=0.5\r\n1) 0.0 Rx 0123 0\r\n2) 0.1 Rx 0123 0\r\n2) 0.2 Rx 0123 0\r\n -> 7 5 0 0 0 0 0 untouched
explain version 12 number 1: 1) 0.000 1 Rx 0123 2 0A FF -> 30 0 0 0
explain version 11 number 1: 1) 0.000 1 Rx 0123 2 0A FF -> 0 0 1 2
explain version 12 number 1: 2) 0.000 1 Rx 0123 2 0A FF -> 0 0 1 1
explain version 12 number 1: 1) 0.000 17 Rx 0123 2 0A FF -> 0 0 1 3
explain version 12 number 1: 1) 0.000 1 Warnng FFFFFFFF 4 00 00 00 08 -> 0 0 1 4
explain version 11 number 1: 1) 0.0 Warnng FFFFFFFF 4 00 00 00 08 -> 0 0 1 3
explain version 12 number 1: 1) 0.000 1 Rx 0800 2 0A FF -> 0 0 1 5
explain version 12 number 1: 1) 0.000 1 Rx 0123 9 -> 0 0 1 6
explain version 12 number 1: 1) 0.000 1 Rx 0123 8 -> 0 0 2 6
explain version 12 number 1: 1) 0.000 1 Rx 0123 8 01 -> 0 0 2 7
explain version 12 number 1: 1) 0.000 1 Rx 0123 0 00 -> 0 0 1 7
explain version 12 number 1: 1) 0.000 1 Rx 0123 2 RTR RTR -> 0 0 1 8
explain version 12 number 1: 1) 0.000 1 Error 0001 4 00 10 00 00 -> 0 0 1 8
explain version 12 number 1: 1) 0.000 1 Warng FFFFFFFF 4 01 02 03 -> 0 0 2 9
explain version 12 number 1: 1) 0.000 1 Warng FFFFFFFF 4 00 00 00 08 A -> 30 0 0 0
explain version 12 number 1: 1) 0.000 1 Warng FFFFFFFF 4 00 00 00 08 Ab -> 0 0 1 11
explain version 12 number 1:  -> 0 0 2 0
explain version 11 number 1:    -> 0 0 2 0
explain version 12 number 1: ; -> 30 0 0 0
explain version 12 number 1: ;\x09$X -> 30 0 0 0
explain version 12 number 1: ;$X -> 0 0 1 1
explain version 12 number 1: ; $X -> 0 0 1 1
explain version 12 number 1: 1) 0.000 1 Rx 0123 9\r\n -> 30 0 0 0
explain version 12 number 1000000: x -> 30 0 0 0
explain version 12 number xFFFFFFFFFFFFFFFF: 18446744073709551615) 0.000 1 Rx 0123 0 -> 30 0 0 0
explain version 13 number 1: ; -> 21 0 0 0
explain version 10 number 0: 0) 0.0 Rx 0123 0 -> 21 0 0 0
read room 100 row 1 with number 0: %0) 0.000 1 Rx 0123 0\r\n -> 7 3 0 0 0 0 0 untouched
read room 100 row 1 with number 1 and a zero before: %01) 0.000 1 Rx 0123 0\r\n -> 7 3 0 0 0 0 0 untouched
read room 100 row 1 with number 2: %2) 0.000 1 Rx 0123 0\r\n -> 0 0 12 3160987200000 1 0 2 000000000000080000048c000000000000000000 untouched
read room 100 row 1 with number 4117: %4117) 0.000 1 Rx 0123 0\r\n -> 0 0 12 3160987200000 1 0 4117 000000000000080000048c000000000000000000 untouched
read room 100 row 1 with number 999999: %999999) 0.000 1 Rx 0123 0\r\n -> 0 0 12 3160987200000 1 0 999999 000000000000080000048c000000000000000000 untouched
read room 100 row 1 with number 1000000: %1000000) 0.000 1 Rx 0123 0\r\n -> 7 3 0 0 0 0 0 untouched
read room 100 row 2 behind 4117 with number 4116: %4117) 0.000 1 Rx 0123 0\r\n4116) 0.000 1 Rx 0123 0\r\n -> 7 4 0 0 0 0 0 untouched
read room 100 row 2 behind 4117 with number 4117: %4117) 0.000 1 Rx 0123 0\r\n4117) 0.000 1 Rx 0123 0\r\n -> 7 4 0 0 0 0 0 untouched
read room 100 row 2 behind 4117 with number 4118: %4117) 0.000 1 Rx 0123 0\r\n4118) 0.000 1 Rx 0123 0\r\n -> 0 0 12 3160987200000 2 0 4117
read room 100 row 2 behind 4117 with number 4119: %4117) 0.000 1 Rx 0123 0\r\n4119) 0.000 1 Rx 0123 0\r\n -> 7 4 0 0 0 0 0 untouched
read room 100 row 2 behind 999999 with number 1000000: %999999) 0.000 1 Rx 0123 0\r\n1000000) 0.000 1 Rx 0123 0\r\n -> 7 4 0 0 0 0 0 untouched
read room 100 row 2 behind 999999 with number 1: %999999) 0.000 1 Rx 0123 0\r\n1) 0.000 1 Rx 0123 0\r\n -> 7 4 0 0 0 0 0 untouched
read room 100 gap in the middle: %4117) 0.000 1 Rx 0123 0\r\n4118) 0.000 1 Rx 0123 0\r\n4120) 0.000 1 Rx 0123 0\r\n4121) 0.000 1 Rx 0123 0\r\n -> 7 5 0 0 0 0 0 untouched
read room 100 no rows, but a comment like one: %;4117) 0.000 1 Rx 0123 0\r\n; 1) 0.000 1 Rx 0123 0\r\n -> 0 0 12 3160987200000 0 0 0
read room 100 comment like row 1 before row 4117: %;1) 0.000 1 Rx 0123 0\r\n4117) 0.000 1 Rx 0123 0\r\n -> 0 0 12 3160987200000 1 0 4117
read room 100 row 4119 at 5.499: %4117) 5.000 1 Rx 0123 0\r\n4118) 5.500 1 Rx 0123 0\r\n4119) 5.499 1 Rx 0123 0\r\n -> 0 0 12 3160987200000 3 3 4117
again room 144 channel 1 from row 4117: %4117) 0.000 1 Rx 0123 2 0A FF\r\n4118) 1500.250 2 Tx 18AB0001 0\r\n4119) 1500.249 1 Rx 0124 3 RTR\r\n -> 0 0 144 ;$FILEVERSION=1.2\r\n;$STARTTIME=36585.5000000000\r\n4117) 0.000 1 Rx 0123 2 0A FF\r\n4118) 1500.250 2 Tx 18AB0001 0\r\n4119) 1500.249 1 Rx 0124 3 RTR\r\n untouched 0 0 12 3160987200000 3 3 4117 000000000000080000048c82bfc0000000000000
write version 12 start 0 first 0 bytes 0 room 300: % -> 0 0 45 ;$FILEVERSION=1.2\r\n;$STARTTIME=0.0000000000\r\n untouched 0 0 12 0 0 0 0  untouched
write version 12 start 0 first 1 bytes 0 room 300: % -> 26 0 untouched
write version 12 start 0 first 0 bytes 20 room 300: % -> 26 0 untouched
write version 12 start 0 first 999999 bytes 20 room 300: % -> 0 0 78 ;$FILEVERSION=1.2\r\n;$STARTTIME=0.0000000000\r\n999999) 0.000 1 Rx 0123 2 0A FF\r\n untouched 0 0 12 0 1 0 999999 000000000000080000048c82bfc0000000000000 untouched
write version 12 start 0 first 1000000 bytes 20 room 300: % -> 26 0 untouched
write version 12 start 0 first 999998 bytes 40 room 300: %;% -> 0 0 111
write version 12 start 0 first 999999 bytes 40 room 300: %;% -> 26 0 untouched
write version 12 start 0 first xFFFFFFFFFFFFFFFF bytes 60 room 300: %;%;% -> 26 0 untouched
write version 12 start 8640000000000 first 0 bytes 20 room 0: 0 0 0 0 x123 2 x0AFF000000000000 1 -> 22 0 untouched
write version 12 start 8639999999999 first 0 bytes 20 room 0: 0 0 0 0 x123 2 x0AFF000000000000 1 -> 26 0 untouched
write version 12 start 8639999999999 first 1 bytes 20 room 0: 0 0 0 0 x123 2 x0AFF000000000000 1 -> 23 1 untouched
write version 12 start 0 first 4117 bytes 60 room 300 own 2: %;%;%|% 1 -> 23 2 untouched
write version 12 start 0 first 4117 bytes 60 room 300 own 3: %;%;%|0 0 0 0 x123 2 x0AFF000000000000 -> 24 3 untouched
explain version 12 number 0: 1) 0.000 1 Rx 0123 2 0A FF -> 30 0 0 0
explain version 12 number 0: 4117) 0.000 1 Rx 0123 2 0A FF -> 30 0 0 0
explain version 12 number 0: 999999) 0.000 1 Rx 0123 2 0A FF -> 30 0 0 0
explain version 12 number 0: 0) 0.000 1 Rx 0123 0 -> 0 0 1 1
explain version 12 number 0: 01) 0.000 1 Rx 0123 0 -> 0 0 1 1
explain version 12 number 0: 1000000) 0.000 1 Rx 0123 0 -> 0 0 1 1
explain version 12 number 0: 4117) 0.000 17 Rx 0123 2 0A FF -> 0 0 1 3
explain version 12 number 0: 4117) 0.000 1 Rx 0123 8 01 -> 0 0 2 7
explain version 12 number 0: x -> 0 0 1 1
explain version 11 number 0:  -> 0 0 2 0
explain version 12 number 0: ;4117) 0.000 1 Rx 0123 0 -> 30 0 0 0
explain version 12 number 0: 4117)\r0.000 1 Rx 0123 0 -> 30 0 0 0
explain version 11 number 999999: 999999) 0.0 Rx 0123 0 -> 30 0 0 0
explain version 11 number 999999: 999998) 0.0 Rx 0123 0 -> 0 0 1 1
explain version 11 number 1000000: 1000000) 0.0 Rx 0123 0 -> 30 0 0 0
ascii room 100 small trace: % -> 0 0 3160987200000 2 000000000000080000048c82bfc000000000000000000016e42811e2ac0004000000000000000000 untouched
return room 300 channel 0 small trace: % -> 0 0 111 2 0 29.02.2000 12:00:00.0000 CAN #1 | Rx 123 2 0a ff\r\n29.02.2000 12:00:01.5002 CANExt #2 | EXTENDED Tx 18ab0001 0\r\n untouched 0 0 3160987200000 2 000000000000080000048c82bfc000000000000000000016e42811e2ac0004000000000000000000 untouched
return room 110 channel 0 small trace: % -> 25 0 untouched
return room 300 channel 0 LF: 29.02.2000 12:00:00.0000 CAN #1 | Rx 123 2 0a ff\n29.02.2000 12:00:01.5002 CANExt #2 | EXTENDED Tx 18ab0001 0\n -> 0 0 111 2 0 29.02.2000 12:00:00.0000 CAN #1 | Rx 123 2 0a ff\r\n29.02.2000 12:00:01.5002 CANExt #2 | EXTENDED Tx 18ab0001 0\r\n untouched
part room 100 bytes 0: % -> 0 0 0 0  untouched
part room 100 bytes 49: % -> 31 1 0 0 untouched
part room 100 bytes 50: % -> 0 0 3160987200000 1 000000000000080000048c82bfc0000000000000 untouched
part room 100 bytes 51: % -> 31 2 0 0 untouched
part room 100 bytes 110: % -> 31 2 0 0 untouched
ascii room 19 one line: 29.02.2000 12:00:00.0000 CAN #1 | Rx 123 2 0a ff\r\n -> 8 0 0 0 untouched
ascii room 20 one line: 29.02.2000 12:00:00.0000 CAN #1 | Rx 123 2 0a ff\r\n -> 0 0 3160987200000 1 000000000000080000048c82bfc0000000000000 untouched
ascii room 39 small trace: % -> 8 0 0 0 untouched
ascii room 0 no lines:  -> 0 0 0 0  untouched
return room 0 channel 0 no lines:  -> 0 0 0 0 0  untouched 0 0 0 0  untouched
ascii room 0 a line that is none comes before a short room: 29.02.2000 12:00:00.0000 CAN #1 | Rx 123 2 0a ff\r\nx\r\n -> 31 2 0 0 untouched
ascii room 100 not ended: % 2 0a ff -> 31 1 0 0 untouched
ascii room 100 ended by CR: % 2 0a ff\r -> 31 1 0 0 untouched
ascii room 100 ended by CR CR LF: % 2 0a ff\r\r\n -> 31 1 0 0 untouched
ascii room 100 an LF alone: \n -> 31 1 0 0 untouched
ascii room 100 second line empty: % 0\n\n% 0\n -> 31 2 0 0 untouched
ascii room 100 0 blanks behind the date: 29.02.200012:00:00.0000 CAN #1 | Rx 123 2 0a ff\r\n -> 31 1 0 0 untouched
ascii room 100 2 blanks behind the date: 29.02.2000  12:00:00.0000 CAN #1 | Rx 123 2 0a ff\r\n -> 0 0 3160987200000 1 000000000000080000048c82bfc0000000000000 untouched
ascii room 100 1 blanks at the start:  29.02.2000 12:00:00.0000 CAN #1 | Rx 123 2 0a ff\r\n -> 31 1 0 0 untouched
ascii room 100 1 blanks at the end: 29.02.2000 12:00:00.0000 CAN #1 | Rx 123 2 0a ff \r\n -> 31 1 0 0 untouched
ascii room 100 1 blanks between # and the channel: 29.02.2000 12:00:00.0000 CAN # 1 | Rx 123 0\r\n -> 31 1 0 0 untouched
ascii room 100 no blank before the bar: % CAN #1| Rx 123 0\r\n -> 31 1 0 0 untouched
ascii room 100 tab behind the date: 29.02.2000\x0912:00:00.0000 CAN #1 | Rx 123 2 0a ff\r\n -> 31 1 0 0 untouched
ascii room 100 can for CAN: % can #1 | Rx 123 0\r\n -> 31 1 0 0 untouched
ascii room 100 CANEXT for CANExt: % CANEXT #1 | EXTENDED Rx 00000123 0\r\n -> 31 1 0 0 untouched
ascii room 100 Extended for EXTENDED: % CANExt #1 | Extended Rx 00000123 0\r\n -> 31 1 0 0 untouched
ascii room 100 RX for Rx: % CAN #1 | RX 123 0\r\n -> 31 1 0 0 untouched
ascii room 100 EXTENDED with CAN and eight digits: % CAN #1 | EXTENDED Rx 00000123 0\r\n -> 31 1 0 0 untouched
ascii room 100 CANExt without EXTENDED and eight digits: % CANExt #1 | Rx 00000123 0\r\n -> 31 1 0 0 untouched
ascii room 100 Tx: % CAN #1 | Tx 123 0\r\n -> 0 0 3160987200000 1 000000000000090000048c000000000000000000 untouched
ascii room 100 channel 0: % CAN #0 | Rx 123 0\r\n -> 0 0 3160987200000 1 000000000000000000048c000000000000000000 untouched
ascii room 100 channel 16: % CAN #16 | Rx 123 0\r\n -> 0 0 3160987200000 1 000000000000800000048c000000000000000000 untouched
ascii room 100 channel 17: % CAN #17 | Rx 123 0\r\n -> 31 1 0 0 untouched
ascii room 100 channel 1 with a zero before: % CAN #01 | Rx 123 0\r\n -> 31 1 0 0 untouched
ascii room 100 standard ID 7FF: % CAN #1 | Rx 7FF 0\r\n -> 0 0 3160987200000 1 0000000000000800001ffc000000000000000000 untouched
ascii room 100 standard ID 800: % CAN #1 | Rx 800 0\r\n -> 31 1 0 0 untouched
ascii room 100 standard ID 0123: % CAN #1 | Rx 0123 0\r\n -> 31 1 0 0 untouched
ascii room 100 extended ID 00000123: % CANExt #1 | EXTENDED Rx 00000123 0\r\n -> 0 0 3160987200000 1 000000000000088000048c000000000000000000 untouched
ascii room 100 extended ID 1fffffff: % CANExt #1 | EXTENDED Rx 1fffffff 0\r\n -> 0 0 3160987200000 1 00000000000008fffffffc000000000000000000 untouched
ascii room 100 extended ID 20000000: % CANExt #1 | EXTENDED Rx 20000000 0\r\n -> 31 1 0 0 untouched
ascii room 100 length 8: % CAN #1 | Rx 123 8 01 02 03 04 05 06 07 08\r\n -> 0 0 3160987200000 1 000000000000080000048e004080c1014181c200 untouched
ascii room 100 length 9: % CAN #1 | Rx 123 9 01 02 03 04 05 06 07 08 09\r\n -> 31 1 0 0 untouched
ascii room 100 length 8 and 7 bytes: % CAN #1 | Rx 123 8 01 02 03 04 05 06 07\r\n -> 31 1 0 0 untouched
ascii room 100 length 2 and one byte more: % CAN #1 | Rx 123 2 01 02 00\r\n -> 31 1 0 0 untouched
ascii room 100 length 1 with a zero before: % CAN #1 | Rx 123 01 01\r\n -> 31 1 0 0 untouched
ascii room 100 byte a: % CAN #1 | Rx 123 1 a\r\n -> 31 1 0 0 untouched
ascii room 100 RTR with length 0: % CAN #1 | Rx 123 0 RTR\r\n -> 31 1 0 0 untouched
ascii room 100 29.12.1899: 29.12.1899% -> 31 1 0 0 untouched
ascii room 100 30.12.1899: 30.12.1899% -> 0 0 43200000 1 000000000000080000048c000000000000000000 untouched
ascii room 100 29.02.1900: 29.02.1900% -> 31 1 0 0 untouched
ascii room 100 01.03.1900: 01.03.1900% -> 0 0 5313600000 1 000000000000080000048c000000000000000000 untouched
ascii room 100 29.02.2001: 29.02.2001% -> 31 1 0 0 untouched
ascii room 100 29.02.2004: 29.02.2004% -> 0 0 3287217600000 1 000000000000080000048c000000000000000000 untouched
ascii room 100 29.02.2100: 29.02.2100% -> 31 1 0 0 untouched
ascii room 100 01.03.2100: 01.03.2100% -> 0 0 6316747200000 1 000000000000080000048c000000000000000000 untouched
ascii room 100 13.10.2173: 13.10.2173% -> 0 0 8639956800000 1 000000000000080000048c000000000000000000 untouched
ascii room 100 14.10.2173: 14.10.2173% -> 31 1 0 0 untouched
ascii room 100 time 23h59m59.9999: 29.02.2000 23:59:59.9999% -> 0 0 3161030399999 1 000000000384080000048c000000000000000000 untouched
ascii room 100 time 24h00m00.0000: 29.02.2000 24:00:00.0000% -> 31 1 0 0 untouched
ascii room 100 first stamp of all: 30.12.1899 00:00:00.0000% -> 0 0 0 1 000000000000080000048c000000000000000000 untouched
ascii room 100 last stamp of all: 13.10.2173 23:59:59.9999% -> 0 0 8639999999999 1 000000000384080000048c000000000000000000 untouched
ascii room 100 first stamp with 9 tenths of a millisecond: 29.02.2000 12:00:00.0009% -> 0 0 3160987200000 1 000000000384080000048c000000000000000000 untouched
return room 300 channel 0 first stamp with 9 tenths of a millisecond: 29.02.2000 12:00:00.0009% -> 0 0 44 1 0 29.02.2000 12:00:00.0009 CAN #1 | Rx 123 0\r\n untouched 0 0 3160987200000 1 000000000384080000048c000000000000000000 untouched
ascii room 100 second stamp 0.9 ms before, at the start: 29.02.2000 12:00:00.0009%29.02.2000 12:00:00.0000% -> 0 0 3160987200000 2 000000000384080000048c000000000000000000000000000000080000048c000000000000000020 untouched
ascii room 100 second stamp 0.1 ms before the start: 29.02.2000 12:00:00.0019%29.02.2000 12:00:00.0009% -> 32 2 0 0 untouched
ascii room 100 offset at the limit: 30.12.1899 00:00:00.0000%30.11.1908 19:29:36.7106% -> 0 0 0 2 000000000000080000048c000000000000000000ffffffffffc8080000048c000000000000000000 untouched
ascii room 100 offset past the limit: 30.12.1899 00:00:00.0000%30.11.1908 19:29:36.7107% -> 33 2 0 0 untouched
ascii room 100 a late stamp, at the limit: 12.11.2164 04:30:23.2890%13.10.2173 23:59:59.9996% -> 0 0 8358525023289 2 000000000000080000048c000000000000000000ffffffffffc8080000048c000000000000000000 untouched
ascii room 100 the last stamp of all, past the limit: 12.11.2164 04:30:23.2899%13.10.2173 23:59:59.9999% -> 33 2 0 0 untouched
ascii room 100 the first of twelve digits of milliseconds: 30.12.1899 00:00:00.0000%02.03.1903 09:46:40.0000% -> 0 0 0 2 000000000000080000048c0000000000000000005af3107a4000080000048c000000000000000000 untouched
ascii room 100 31 on a line before the start: 29.02.2000 12:00:00.0000%28.02.2000 12:00:00.0000 CAN #17 | Rx 123 0\r\n -> 31 2 0 0 untouched
ascii room 100 32 at line 2 before 33 at line 3: 29.02.2000 12:00:00.0000%28.02.2000 12:00:00.0000%29.02.2012 12:00:00.0000% -> 32 2 0 0 untouched
ascii room 100 33 at line 2 before 32 at line 3: 29.02.2000 12:00:00.0000%29.02.2012 12:00:00.0000%28.02.2000 12:00:00.0000% -> 33 2 0 0 untouched
ascii room 0 32 before a short room: 29.02.2000 12:00:00.0000%28.02.2000 12:00:00.0000% -> 32 2 0 0 untouched
read room 100 offset 281474976710.655: %1) 281474976710.655 1 Rx 0123 0\r\n -> 0 0 12 3160987200000 1 0 1 ffffffffffff080000048c000000000000000000 untouched
read room 100 offset 281474976710.656: %1) 281474976710.656 1 Rx 0123 0\r\n -> 7 3 0 0 0 0 0 untouched
read room 100 offset 281474976710.6: ;$FILEVERSION=1.1\r\n;$STARTTIME=36585.5\r\n1) 281474976710.6 Rx 0123 0\r\n -> 0 0 11 3160987200000 1 0 1 ffffffffffc8000000048c000000000000000000 untouched
read room 100 offset 281474976710.7: ;$FILEVERSION=1.1\r\n;$STARTTIME=36585.5\r\n1) 281474976710.7 Rx 0123 0\r\n -> 7 3 0 0 0 0 0 untouched
read room 100 offset 100000000000: %1) 100000000000.000 1 Rx 0123 0\r\n -> 0 0 12 3160987200000 1 0 1 5af3107a4000080000048c000000000000000000 untouched
read room 100 offset 140737488355.328: %1) 140737488355.328 1 Rx 0123 0\r\n -> 0 0 12 3160987200000 1 0 1 800000000000080000048c000000000000000000 untouched
read room 100 offset 999999999999.999: %1) 999999999999.999 1 Rx 0123 0\r\n -> 7 3 0 0 0 0 0 untouched
read room 100 offset 1000000000000.000: %1) 1000000000000.000 1 Rx 0123 0\r\n -> 7 3 0 0 0 0 0 untouched
read room 100 offset of a zero and 11 nines: %1) 099999999999.999 1 Rx 0123 0\r\n -> 7 3 0 0 0 0 0 untouched
read room 100 row 1 at the limit, row 2 at 0: %1) 281474976710.655 1 Rx 0123 0\r\n2) 0.000 1 Rx 0123 0\r\n -> 0 0 12 3160987200000 2 2 1 ffffffffffff080000048c000000000000000000000000000000080000048c000000000000000020 untouched
row version 12 number 1: 1) 281474976710.655 1 Rx 0123 0 -> 281474976710655 1 0 0 291 0 0000000000000000
row version 12 number 1: 1) 281474976711.000 1 Rx 0123 0 -> none
row version 11 number 1: 1) 281474976710.655 Rx 0123 0 -> none
pack offset 281474976710655 bus 1 kind 0 extended 0 id x123 length 2 data x0AFF000000000000 mark 0 room 20 -> 0 0 ffffffffffff080000048c82bfc0000000000000 untouched
pack offset 281474976710656 bus 1 kind 0 extended 0 id x123 length 2 data x0AFF000000000000 mark 0 room 20 -> 23 1 untouched
pack offset 281474976710656 bus 1 kind 0 extended 0 id x123 length 2 data x0AFF000000000000 mark 0 room 19 -> 23 1 untouched
pack offset 562949953421311 bus 1 kind 0 extended 0 id x123 length 2 data x0AFF000000000000 mark 0 room 21 -> 23 1 untouched
pack offset xFFFFFFFFFFFFFFFF bus 1 kind 0 extended 0 id x123 length 2 data x0AFF000000000000 mark 0 room 21 -> 23 1 untouched
pack offset 281474976710655 bus 16 kind 1 extended 1 id x1FFFFFFF length 8 data xFFFFFFFFFFFFFFFF mark 0 room 21 -> 0 0 ffffffffffff81fffffffe3fffffffffffffffc0 untouched
unpack offset 140737488355328 bus 1 kind 0 extended 0 id x123 length 2 data x0AFF000000000000 last 0 bytes 20 -> 800000000000080000048c82bfc0000000000000 0 0 140737488355328 1 0 0 291 2 0aff000000000000
unpack offset 281474976710655 bus 1 kind 0 extended 0 id x123 length 2 data x0AFF000000000000 last 0 bytes 20 -> ffffffffffff080000048c82bfc0000000000000 0 0 281474976710655 1 0 0 291 2 0aff000000000000
put version 12 number 999999 offset 281474976710655 bus 16 kind 1 extended 1 id x1FFFFFFF length 8 data xFFFFFFFFFFFFFFFF -> 65 67 \xee\xee999999) 281474976710.655 16 Tx 1FFFFFFF 8 FF FF FF FF FF FF FF FF untouched
put version 12 number 999999 offset 281474976710656 bus 16 kind 1 extended 1 id x1FFFFFFF length 8 data xFFFFFFFFFFFFFFFF -> none
put version 11 number 999999 offset 281474976710600 bus 0 kind 1 extended 1 id x1FFFFFFF length 8 data xFFFFFFFFFFFFFFFF -> 60 62 \xee\xee999999) 281474976710.6 Tx 1FFFFFFF 8 FF FF FF FF FF FF FF FF untouched
write version 12 start 0 first 999999 bytes 20 room 111: 281474976710655 16 1 1 x1FFFFFFF 8 xFFFFFFFFFFFFFFFF -> 25 0 untouched
write version 12 start 0 first 999999 bytes 20 room 112: 281474976710655 16 1 1 x1FFFFFFF 8 xFFFFFFFFFFFFFFFF -> 0 0 112 ;$FILEVERSION=1.2\r\n;$STARTTIME=0.0000000000\r\n999999) 281474976710.655 16 Tx 1FFFFFFF 8 FF FF FF FF FF FF FF FF\r\n untouched 0 0 12 0 1 0 999999 ffffffffffff81fffffffe3fffffffffffffffc0 untouched
write version 11 start 0 first 1 bytes 20 room 300: 281474976710655 0 0 0 x123 2 x0AFF000000000000 -> 24 1 untouched
write version 12 start 8639999999999 first 999997 bytes 60 room 249: 281474976710655 16 1 1 x1FFFFFFF 8 xFFFFFFFFFFFFFFFF;281474976710654 16 1 1 x1FFFFFFF 8 xFFFFFFFFFFFFFFFF 32;281474976710655 16 1 1 x1FFFFFFF 8 xFFFFFFFFFFFFFFFF -> 25 0 untouched
write version 12 start 8639999999999 first 999997 bytes 60 room 250: 281474976710655 16 1 1 x1FFFFFFF 8 xFFFFFFFFFFFFFFFF;281474976710654 16 1 1 x1FFFFFFF 8 xFFFFFFFFFFFFFFFF 32;281474976710655 16 1 1 x1FFFFFFF 8 xFFFFFFFFFFFFFFFF -> 0 0 250
export start 0 channel 1 bytes 20 room 46: 281474976710655 1 0 0 x123 -> 0 0 44 1 0 30.11.1908 19:29:36.7106 CAN #1 | Rx 123 0\r\n untouched
export start 8639999999999 channel 1 bytes 20 room 46: 281474976710655 1 0 0 x123 -> 0 0 44 1 0 14.09.2182 19:29:36.7096 CAN #1 | Rx 123 0\r\n untouched
export start 8639999999999 channel 1 bytes 20 room 46: 281404800000999 1 0 0 x123 -> 0 0 44 1 0 13.09.2182 23:59:59.9999 CAN #1 | Rx 123 0\r\n untouched
export start 8639999999999 channel 1 bytes 20 room 46: 281404800001000 1 0 0 x123 -> 0 0 44 1 0 14.09.2182 00:00:00.0000 CAN #1 | Rx 123 0\r\n untouched
stamp start 8639999999999 offset 281474976710655 -> 14 9 2182 103257 19 29 36 7096
stamp start 8639999999999 offset 281474976710555 -> 14 9 2182 103257 19 29 36 7095
stamp start 3160987200000 offset 140737488355328 -> 15 8 2004 38214 9 44 48 3553
explain version 12 number 1: 1) 281474976710.655 1 Rx 0123 2 0A FF -> 30 0 0 0
explain version 12 number 1: 1) 281474976710.656 1 Rx 0123 2 0A FF -> 0 0 1 2
explain version 11 number 1: 1) 281474976710.6 Rx 0123 2 0A FF -> 30 0 0 0
explain version 11 number 1: 1) 281474976710.7 Rx 0123 2 0A FF -> 0 0 1 2
explain version 12 number 1: 1) 281474976710.655 1 Rx 0123 9 -> 0 0 1 6
explain version 12 number 1: 1) 281474976710.656 1 Rx 0123 9 -> 0 0 1 2
explain version 12 number 1: 1) 1000000000000.000 1 Rx 0123 0 -> 0 0 1 2
explain version 12 number 1: 1) 281474976710.655 -> 0 0 2 2
begin version 12 number 1 bytes 18: 1) 281474976710.656 1 Rx 0123 0 -> 0 0 1 2
begin version 12 number 999999 bytes 24: 999999) 281474976710.655 16 Tx 1FFFFFFF 8 FF FF FF FF FF FF FF FF -> 0 0 2 2
begin version 12 number 999999 bytes 65: 999999) 281474976710.655 16 Tx 1FFFFFFF 8 FF FF FF FF FF FF FF FF -> 30 0 0 0
ascii room 100 part 3554 on both sides of 47 bits: 30.12.1899 00:00:00.0000%15.06.1904 21:44:48.3554% -> 0 0 0 2 000000000000080000048c000000000000000000800000000048080000048c000000000000000000 untouched
convert records 72800 page 313040 last stamp: ;$FILEVERSION=1.2\r\n;$STARTTIME=99999.9999999942\r\n1) 281474976710.655 9 Tx 0000 0\r\n -> 44 14.09.2182 19:29:36.7096 CAN #9 | Tx 000 0\r\n untouched
convert records 72800 page 313040 7, line 3, past the last offset: ;$FILEVERSION=1.2\r\n;$STARTTIME=99999.9999999942\r\n1) 281474976710.656 9 Tx 0000 0\r\n -> 21 refused 7 at line 3\r\n untouched
again room 300 channel 1 at the limit: %1) 281474976710.655 1 Rx 0123 2 0A FF\r\n2) 140737488355.328 2 Tx 18AB0001 0\r\n3) 100000000000.000 1 Rx 0124 3 RTR\r\n -> 0 0 162 ;$FILEVERSION=1.2\r\n;$STARTTIME=36585.5000000000\r\n1) 281474976710.655 1 Rx 0123 2 0A FF\r\n2) 140737488355.328 2 Tx 18AB0001 0\r\n3) 100000000000.000 1 Rx 0124 3 RTR\r\n untouched 0 0 12 3160987200000 3 2 1 ffffffffffff080000048c82bfc0000000000000
export start 0 channel 0 bytes 20 room 300: 0 0 0 0 x123 2 x0AFF000000000000 -> 0 0 50 1 0 30.12.1899 00:00:00.0000 CAN #0 | Rx 123 2 0a ff\r\n untouched
export start 0 channel 1 bytes 20 room 300: 0 0 0 0 x123 2 x0AFF000000000000 -> 0 0 50 1 0 30.12.1899 00:00:00.0000 CAN #1 | Rx 123 2 0a ff\r\n untouched
export start 0 channel 9 bytes 20 room 300: 0 0 0 0 x123 2 x0AFF000000000000 -> 0 0 50 1 0 30.12.1899 00:00:00.0000 CAN #9 | Rx 123 2 0a ff\r\n untouched
export start 0 channel 10 bytes 20 room 300: 0 0 0 0 x123 2 x0AFF000000000000 -> 0 0 51 1 0 30.12.1899 00:00:00.0000 CAN #10 | Rx 123 2 0a ff\r\n untouched
export start 0 channel 16 bytes 20 room 300: 0 0 0 0 x123 2 x0AFF000000000000 -> 0 0 51 1 0 30.12.1899 00:00:00.0000 CAN #16 | Rx 123 2 0a ff\r\n untouched
export start 0 channel 17 bytes 20 room 300: 0 0 0 0 x123 2 x0AFF000000000000 -> 35 0 untouched
export start 8639999999999 channel 16 bytes 20 room 300: 281474976710655 0 1 1 x1FFFFFFF 8 xFFFFFFFFFFFFFFFF -> 0 0 86 1 0 14.09.2182 19:29:36.7096 CANExt #16 | EXTENDED Tx 1fffffff 8 ff ff ff ff ff ff ff ff\r\n untouched
export start 0 channel 0 bytes 20 room 300: 0 1 0 0 x123 -> 0 0 44 1 0 30.12.1899 00:00:00.0000 CAN #1 | Rx 123 0\r\n untouched
export start 0 channel 16 bytes 20 room 300: 0 1 0 0 x123 -> 0 0 44 1 0 30.12.1899 00:00:00.0000 CAN #1 | Rx 123 0\r\n untouched
export start 0 channel 17 bytes 20 room 300: 0 1 0 0 x123 -> 35 0 untouched
export start 0 channel 2 bytes 20 room 300: 0 16 0 1 x123 -> 0 0 62 1 0 30.12.1899 00:00:00.0000 CANExt #16 | EXTENDED Rx 00000123 0\r\n untouched
export start 0 channel 16 bytes 20 room 300: 0 17 0 0 x123 -> 23 1 untouched
export start 0 channel 17 bytes 20 room 300: 0 17 0 0 x123 -> 35 0 untouched
export start 3160987200000 channel 1 bytes 60 room 300: % -> 0 0 161 3 0 29.02.2000 12:00:00.0000 CAN #1 | Rx 123 2 0a ff\r\n29.02.2000 12:00:00.0005 CAN #1 | Rx 123 2 0a ff\r\n29.02.2000 12:00:00.0010 CANExt #1 | EXTENDED Tx 18ab0001 0\r\n untouched
export start 3160987200000 channel 0 bytes 60 room 300: % -> 0 0 161 3 0 29.02.2000 12:00:00.0000 CAN #0 | Rx 123 2 0a ff\r\n29.02.2000 12:00:00.0005 CAN #1 | Rx 123 2 0a ff\r\n29.02.2000 12:00:00.0010 CANExt #0 | EXTENDED Tx 18ab0001 0\r\n untouched
export start 3160987200000 channel 0 bytes 140 room 300: % -> 0 0 132 3 4 29.02.2000 12:00:00.0000 CAN #0 | Rx 123 0\r\n29.02.2000 12:00:00.0002 CAN #1 | Rx 123 0\r\n29.02.2000 12:00:00.0006 CAN #0 | Tx 123 0\r\n untouched
export start 0 channel 10 bytes 280 room 597 own 0 of bus 0: % -> 25 0 untouched
export start 0 channel 10 bytes 280 room 598 own 0 of bus 0: % -> 0 0 598 9 5
export start 0 channel 16 bytes 0 room 0: 0 0 0 0 x123 -> 0 0 0 0 0  untouched
export start 0 channel 17 bytes 0 room 0: 0 0 0 0 x123 -> 35 0 untouched
export start 0 channel 16 bytes 80 room 0: 0 0 2 0 x124 3;0 0 3 1 x124 3;0 0 4 0 0 4 x0000000800000000;0 0 5 0 8 4 x0019080000000000 -> 0 0 0 0 4  untouched
export start 0 channel 17 bytes 80 room 0: 0 0 2 0 x124 3;0 0 3 1 x124 3;0 0 4 0 0 4 x0000000800000000;0 0 5 0 8 4 x0019080000000000 -> 35 0 untouched
export start 0 channel 32 bytes 20 room 300: 0 0 0 0 x123 -> 35 0 untouched
export start 0 channel 256 bytes 20 room 300: 0 0 0 0 x123 -> 35 0 untouched
export start 0 channel 4294967296 bytes 20 room 300: 0 0 0 0 x123 -> 35 0 untouched
export start 0 channel 4294967297 bytes 20 room 300: 0 1 0 0 x123 -> 35 0 untouched
export start 0 channel x8000000000000000 bytes 20 room 300: 0 0 0 0 x123 -> 35 0 untouched
export start 0 channel xFFFFFFFFFFFFFFFF bytes 0 room 0: 0 0 0 0 x123 -> 35 0 untouched
export start 8640000000000 channel 17 bytes 59 room 133 own 2: %|1000 1 1 0 x124 0 0 1 -> 20 0 untouched
export start 8640000000000 channel 17 bytes 60 room 133 own 2: %|1000 1 1 0 x124 0 0 1 -> 22 0 untouched
export start 8639999999999 channel 17 bytes 60 room 133 own 2: %|1000 1 1 0 x124 0 0 1 -> 35 0 untouched
export start 8639999999999 channel 16 bytes 60 room 133 own 2: %|1000 1 1 0 x124 0 0 1 -> 23 2 untouched
export start 8639999999999 channel 16 bytes 60 room 133 own 0: % -> 25 0 untouched
export start 8639999999999 channel 16 bytes 60 room 134 own 0: % -> 0 0 134 3 0 13.10.2173 23:59:59.9990 CAN #16 | Rx 123 0\r\n14.10.2173 00:00:00.0000 CAN #1 | Tx 124 0\r\n14.10.2173 00:00:00.0010 CAN #16 | Rx 125 0\r\n untouched
export start 0 channel 9 bytes 20 room 43: 0 0 0 0 x123 -> 25 0 untouched
export start 0 channel 9 bytes 20 room 44: 0 0 0 0 x123 -> 0 0 44 1 0 30.12.1899 00:00:00.0000 CAN #9 | Rx 123 0\r\n untouched
export start 0 channel 10 bytes 20 room 44: 0 0 0 0 x123 -> 25 0 untouched
export start 0 channel 10 bytes 20 room 45: 0 0 0 0 x123 -> 0 0 45 1 0 30.12.1899 00:00:00.0000 CAN #10 | Rx 123 0\r\n untouched
export start 8639999999999 channel 16 bytes 20 room 85: 281474976710655 0 1 1 x1FFFFFFF 8 xFFFFFFFFFFFFFFFF -> 25 0 untouched
ascii room 100 channel 0, extended: % CANExt #0 | EXTENDED Rx 00000123 0\r\n -> 0 0 3160987200000 1 000000000000008000048c000000000000000000 untouched
ascii room 20 channel 0, Tx: % CAN #0 | Tx 7FF 2 0A ff\n -> 0 0 3160987200000 1 0000000000000100001ffc82bfc0000000000000 untouched
ascii room 100 channel 0 with a zero before: % CAN #00 | Rx 123 0\r\n -> 31 1 0 0 untouched
ascii room 100 channel 16 with a zero before: % CAN #016 | Rx 123 0\r\n -> 31 1 0 0 untouched
ascii room 100 channel of 0 zeros: % CAN # | Rx 123 0\r\n -> 31 1 0 0 untouched
ascii room 100 channel of 1 zeros, extended: % CANExt #0 | EXTENDED Rx 00000123 0\r\n -> 0 0 3160987200000 1 000000000000008000048c000000000000000000 untouched
ascii room 100 channel of 2 zeros, extended: % CANExt #00 | EXTENDED Rx 00000123 0\r\n -> 31 1 0 0 untouched
ascii room 100 channel 0 behind 1 blanks: % CAN # 0 | Rx 123 0\r\n -> 31 1 0 0 untouched
ascii room 100 channel 0 and 0 blanks before the bar: % CAN #0| Rx 123 0\r\n -> 31 1 0 0 untouched
ascii room 100 channel 0 and 2 blanks before the bar: % CAN #0  | Rx 123 0\r\n -> 0 0 3160987200000 1 000000000000000000048c000000000000000000 untouched
ascii room 100 channels 0, 1, 0 and 16: % CAN #0 | Rx 123 0\n% CAN #1 | Rx 123 0\n% CAN #0 | Rx 123 0\n% CAN #16 | Rx 123 0\n -> 0 0 3160987200000 4 000000000000000000048c000000000000000000000000000000080000048c000000000000000000000000000000000000048c000000000000000000000000000000800000048c000000000000000000 untouched
ascii room 100 channel 17 behind channel 0: % CAN #0 | Rx 123 0\n% CAN #17 | Rx 123 0\n -> 31 2 0 0 untouched
return room 300 channel 0 line of channel 0: % CAN #0 | Rx 123 0\r\n -> 0 0 44 1 0 29.02.2000 12:00:00.0000 CAN #0 | Rx 123 0\r\n untouched 0 0 3160987200000 1 000000000000000000048c000000000000000000 untouched
return room 300 channel 0 line of channel 16: % CAN #16 | Rx 123 0\r\n -> 0 0 45 1 0 29.02.2000 12:00:00.0000 CAN #16 | Rx 123 0\r\n untouched 0 0 3160987200000 1 000000000000800000048c000000000000000000 untouched
return room 300 channel 0 line of channel 17: % CAN #17 | Rx 123 0\r\n -> none
return room 300 channel 5 line of channel 0: % CAN #0 | Rx 123 0\r\n -> 0 0 44 1 0 29.02.2000 12:00:00.0000 CAN #5 | Rx 123 0\r\n untouched 0 0 3160987200000 1 000000000000280000048c000000000000000000 untouched
return room 300 channel 16 line of channel 0: % CAN #0 | Rx 123 0\r\n -> 0 0 45 1 0 29.02.2000 12:00:00.0000 CAN #16 | Rx 123 0\r\n untouched 0 0 3160987200000 1 000000000000800000048c000000000000000000 untouched
return room 300 channel 17 line of channel 0: % CAN #0 | Rx 123 0\r\n -> 35 0 untouched
return room 300 channel 5 line of channel 1: % CAN #1 | Rx 123 0\r\n -> 0 0 44 1 0 29.02.2000 12:00:00.0000 CAN #1 | Rx 123 0\r\n untouched 0 0 3160987200000 1 000000000000080000048c000000000000000000 untouched
return room 300 channel 17 line of channel 1: % CAN #1 | Rx 123 0\r\n -> 35 0 untouched
return room 300 channel 0 lines of channels 0, 1 and 0: % CAN #0 | Rx 123 0\n% CAN #1 | Tx 7FF 0\n% CANExt #0 | EXTENDED Rx 00000123 1 aB\n -> 0 0 152 3 0 29.02.2000 12:00:00.0000 CAN #0 | Rx 123 0\r\n29.02.2000 12:00:00.0000 CAN #1 | Tx 7ff 0\r\n29.02.2000 12:00:00.0000 CANExt #0 | EXTENDED Rx 00000123 1 ab\r\n untouched 0 0 3160987200000 3 000000000000000000048c0000000000000000000000000000000900001ffc000000000000000000000000000000008000048c6ac000000000000000 untouched
return room 300 channel 1 lines of channels 0, 1 and 0: % CAN #0 | Rx 123 0\n% CAN #1 | Tx 7FF 0\n% CANExt #0 | EXTENDED Rx 00000123 1 aB\n -> 0 0 152 3 0 29.02.2000 12:00:00.0000 CAN #1 | Rx 123 0\r\n29.02.2000 12:00:00.0000 CAN #1 | Tx 7ff 0\r\n29.02.2000 12:00:00.0000 CANExt #1 | EXTENDED Rx 00000123 1 ab\r\n untouched 0 0 3160987200000 3 000000000000080000048c0000000000000000000000000000000900001ffc000000000000000000000000000000088000048c6ac000000000000000 untouched
return room 0 channel 16 no lines:  -> 0 0 0 0 0  untouched 0 0 0 0  untouched
return room 0 channel 17 no lines:  -> 35 0 untouched
return room 300 channel 17 refused: x\r\n -> none
again room 300 channel 0 version 1.1: ;$FILEVERSION=1.1\r\n;$STARTTIME=36585.5\r\n1) 0.0 Rx 0123 2 0A FF\r\n2) 1500.2 Tx 18AB0001 0\r\n3) 1500.1 Rx 0124 3 RTR\r\n -> 0 0 123 ;$FILEVERSION=1.1\r\n;$STARTTIME=36585.5000000000\r\n1) 0.0 Rx 0123 2 0A FF\r\n2) 1500.2 Tx 18AB0001 0\r\n3) 1500.1 Rx 0124 3 RTR\r\n untouched 0 0 11 3160987200000 3 3 1 000000000000000000048c82bfc000000000000000000016e42801e2ac000400000000000000000000000016e3c40200000490c00000000000000020 untouched 0 0 111 2 1 29.02.2000 12:00:00.0000 CAN #0 | Rx 123 2 0a ff\r\n29.02.2000 12:00:01.5002 CANExt #0 | EXTENDED Tx 18ab0001 0\r\n untouched
again room 300 channel 17 version 1.1: ;$FILEVERSION=1.1\r\n;$STARTTIME=36585.5\r\n1) 0.0 Rx 0123 2 0A FF\r\n2) 1500.2 Tx 18AB0001 0\r\n3) 1500.1 Rx 0124 3 RTR\r\n -> 0 0 123 ;$FILEVERSION=1.1\r\n;$STARTTIME=36585.5000000000\r\n1) 0.0 Rx 0123 2 0A FF\r\n2) 1500.2 Tx 18AB0001 0\r\n3) 1500.1 Rx 0124 3 RTR\r\n untouched 0 0 11 3160987200000 3 3 1 000000000000000000048c82bfc000000000000000000016e42801e2ac000400000000000000000000000016e3c40200000490c00000000000000020 untouched 35 0 untouched
convert records 72800 page 313040 version 1.1: ;$FILEVERSION=1.1\r\n;$STARTTIME=25569.99999999\r\n; comment\r\n  1)   0.1  Tx  07ff  1  aB  \r\n2) 1.0 Rx 1FFFFFFF 0\r\n -> 108 01.01.1970 23:59:59.9991 CAN #1 | Tx 7ff 1 ab\r\n02.01.1970 00:00:00.0000 CANExt #1 | EXTENDED Rx 1fffffff 0\r\n untouched
convert records 72800 page 313040 version 1.1, both forms, both ways: ;$FILEVERSION=1.1\r\n;$STARTTIME=36585.5\r\n1) 0.0 Rx 0123 2 0A FF\r\n2) 0.1 Tx 07FF 0\r\n3) 0.2 Rx 00000123 0\r\n4) 0.3 Tx 1FFFFFFF 1 AB\r\n5) 0.4 Rx 0124 3 RTR\r\n -> 219 29.02.2000 12:00:00.0000 CAN #1 | Rx 123 2 0a ff\r\n29.02.2000 12:00:00.0001 CAN #1 | Tx 7ff 0\r\n29.02.2000 12:00:00.0002 CANExt #1 | EXTENDED Rx 00000123 0\r\n29.02.2000 12:00:00.0003 CANExt #1 | EXTENDED Tx 1fffffff 1 ab\r\n untouched
convert records 20 page 43 version 1.1: ;$FILEVERSION=1.1\r\n;$STARTTIME=36585.5\r\n1) 0.0 Rx 0123 0\r\n -> none untouched
convert records 20 page 44 version 1.1: ;$FILEVERSION=1.1\r\n;$STARTTIME=36585.5\r\n1) 0.0 Rx 0123 0\r\n -> 44 29.02.2000 12:00:00.0000 CAN #1 | Rx 123 0\r\n untouched
read room 100 small trace: %1) 0.000 1 Rx 0123 2 0A FF\r\n2) 1500.250 2 Tx 18AB0001 0\r\n3) 1500.249 1 Rx 0124 3 RTR\r\n -> 0 0 12 3160987200000 3 3 1 000000000000080000048c82bfc000000000000000000016e45a11e2ac000400000000000000000000000016e4590a00000490c00000000000000020 untouched
pack % mark 1 room 20 -> 0 0 000000000000080000048c82bfc0000000000020 untouched
pack % mark 1 room 19 -> 25 0 untouched
pack % mark 2 room 19 -> 23 1 untouched
pack % mark 32 room 21 -> 23 1 untouched
pack % mark 4294967297 room 21 -> 23 1 untouched
pack % mark x8000000000000001 room 21 -> 23 1 untouched
pack offset 281474976710655 bus 16 kind 1 extended 1 id x1FFFFFFF length 8 data xFFFFFFFFFFFFFFFF mark 1 room 21 -> 0 0 ffffffffffff81fffffffe3fffffffffffffffe0 untouched
unpack offset 0 bus 1 kind 0 extended 0 id x123 length 2 data x0AFF000000000000 last 0 bytes 20 -> 000000000000080000048c82bfc0000000000000 0 0 0 1 0 0 291 2 0aff000000000000 0
unpack offset 0 bus 1 kind 0 extended 0 id x123 length 2 data x0AFF000000000000 last 32 bytes 20 -> 000000000000080000048c82bfc0000000000020 0 0 0 1 0 0 291 2 0aff000000000000 1
unpack offset 0 bus 1 kind 0 extended 0 id x123 length 2 data x0AFF000000000000 last 16 bytes 20 -> 000000000000080000048c82bfc0000000000010 23 1
unpack offset 0 bus 1 kind 0 extended 0 id x123 length 2 data x0AFF000000000000 last 33 bytes 20 -> 000000000000080000048c82bfc0000000000021 23 1
unpack % last 32 bytes 21 -> 000000000000080000048c82bfc0000000000020ee 20 0
write version 12 start 0 first 1 bytes 80 room 300: 5 1;3%;5 1;4% -> 0 0 133 ;$FILEVERSION=1.2\r\n;$STARTTIME=0.0000000000\r\n1) 0.005 1 Rx 0000 0\r\n2) 0.003 1 Rx 0000 0\r\n3) 0.005 1 Rx 0000 0\r\n4) 0.004 1 Rx 0000 0\r\n untouched 0 0 12 0 4 2 1 0000000000050800000000000000000000000000000000000003080000000000000000000000002000000000000508000000000000000000000000000000000000040800000000000000000000000020 untouched
write version 12 start 0 first 1 bytes 80 room 300: 5 1;3%;5 1;4 1 -> 23 4 untouched
write version 12 start 0 first 1 bytes 80 room 300: 5 1;3%;5%;4% -> 23 3 untouched
write version 12 start 0 first 1 bytes 80 room 300: 5 1;3 1;5 1;4% -> 23 2 untouched
write version 12 start 0 first 1 bytes 80 room 300: 5%;3%;5 1;4 1 -> 23 1 untouched
write version 12 start 0 first 1 bytes 80 room 300: 5 1;5 1;5 1;5 1 -> 0 0 133 ;$FILEVERSION=1.2
write version 12 start 0 first 1 bytes 80 room 300: 5 1;5 1;5 1;5% -> 23 4 untouched
write version 12 start 0 first 1 bytes 80 room 300: 5 1;3%;4%;2% -> 23 3 untouched
write version 12 start 0 first 1 bytes 80 room 300: 5 1;8 1;7 1;6 1 -> 23 3 untouched
write version 12 start 0 first 1 bytes 20 room 300: 0% -> 23 1 untouched
write version 12 start 0 first 1 bytes 40 room 300: 281474976710654 1;281474976710653% -> 0 0 111 ;$FILEVERSION=1.2
write version 12 start 0 first 1 bytes 40 room 300: 281474976710654 1;281474976710653 1 -> 23 2 untouched
write version 12 start 0 first 1 bytes 80 room 300 own 2: 5 1;5 1;5%;5 1|5 17 -> 23 2 untouched
write version 12 start 0 first 1 bytes 80 room 300 own 4: 5 1;5 1;5%;5 1|5 17 -> 23 3 untouched
write version 12 start 0 first 1 bytes 80 room 300 own 1: 5 1;5 1;5 17;5 1|5% -> 23 1 untouched
write version 12 start 0 first 1 bytes 80 room 300 own 4: 5 1;5 1;5 17;5 1|5% -> 23 3 untouched
write version 12 start 8639999999999 first 0 bytes 40 room 0: 5 0;4 0 -> 26 0 untouched
write version 12 start 8639999999999 first 1 bytes 40 room 0: 5 0;4 0 -> 23 2 untouched
write version 12 start 8639999999999 first 1 bytes 40 room 0: 5 0;4 0 0 0 0 0 0 32 -> 24 1 untouched
write version 11 start 0 first 1 bytes 40 room 80: 500 0;400 0 0 0 0 0 0 32 -> 25 0 untouched
write version 11 start 0 first 1 bytes 40 room 81: 500 0;400 0 0 0 0 0 0 32 -> 0 0 81 ;$FILEVERSION=1.1\r\n;$STARTTIME=0.0000000000\r\n1) 0.5 Rx 0000 0\r\n2) 0.4 Rx 0000 0\r\n untouched 0 0 11 0 2 2 1 0000000001f400000000000000000000000000000000000001900000000000000000000000000020 untouched
export start 0 channel 1 bytes 80 room 300: 5 1;3%;5 1;4% -> 0 0 176 4 0 30.12.1899 00:00:00.0000 CAN #1 | Rx 000 0\r\n
export start 0 channel 1 bytes 80 room 300: 5 1;3%;5 1;4 1 -> 23 4 untouched
export start 0 channel 1 bytes 80 room 300: 5 1;3 1;5 1;4% -> 23 2 untouched
export start 0 channel 1 bytes 80 room 300: 5%;3%;5 1;4 1 -> 23 1 untouched
export start 0 channel 1 bytes 80 room 300: 5 1;8 1;7 1;6 1 -> 23 3 untouched
export start 0 channel 1 bytes 60 room 300: 5 1;9 1 2 0 x124 3;7% -> 0 0 88 2 1 30.12.1899
export start 0 channel 1 bytes 60 room 300: 5 1;9 1 2 0 x124 3;7 1 -> 23 3 untouched
export start 0 channel 1 bytes 80 room 300 own 4: 5 1;5 1;5%;5 1|5 17 -> 23 3 untouched
export start 8639999999999 channel 17 bytes 40 room 0: 5 0;4 0 -> 35 0 untouched
export start 8639999999999 channel 16 bytes 40 room 0: 5 0;4 0 -> 23 2 untouched
read room 100 steps: ;$FILEVERSION=1.2\r\n;$STARTTIME=36585.5\r\n1) 5.000%2) 3.000%3) 5.000%4) 4.000% -> 0 0 12 3160987200000 4 2 1 000000001388080000048c000000000000000000000000000bb8080000048c000000000000000020000000001388080000048c000000000000000000000000000fa0080000048c000000000000000020 untouched
ascii room 100 steps: 29.02.2000 12:00:00.0015%13%15%14 CAN #1 | Rx 123 0\n -> 0 0 3160987200001 4 0000000001f4080000048c00000000000000000000000000012c080000048c0000000000000000200000000001f4080000048c000000000000000000000000000190080000048c000000000000000020 untouched
again room 300 channel 1 small steps: ;$FILEVERSION=1.2\r\n;$STARTTIME=36585.5\r\n1) 0.150%2) 0.120%3) 0.119% -> 0 0 115 ;$FILEVERSION=1.2\r\n;$STARTTIME=36585.5000000000\r\n1) 0.150 1 Rx 0123 0\r\n2) 0.120 1 Rx 0123 0\r\n3) 0.119 1 Rx 0123 0\r\n untouched 0 0 12 3160987200000 3 2 1 000000000096080000048c000000000000000000000000000078080000048c000000000000000020000000000077080000048c000000000000000020 untouched 0 0 132 3 0 29.02.2000 12:00:00.0001 CAN #1 | Rx 123 0\r\n29.02.2000 12:00:00.0001 CAN #1 | Rx 123 0\r\n29.02.2000 12:00:00.0001 CAN #1 | Rx 123 0\r\n untouched
return room 300 channel 0 steps: 29.02.2000 12:00:00.0015%13%14 CAN #1 | Rx 123 0\n -> 0 0 132 3 0 29.02.2000 12:00:00.0015 CAN #1 | Rx 123 0\r\n29.02.2000 12:00:00.0013 CAN #1 | Rx 123 0\r\n29.02.2000 12:00:00.0014 CAN #1 | Rx 123 0\r\n untouched 0 0 3160987200001 3 0000000001f4080000048c00000000000000000000000000012c080000048c000000000000000020000000000190080000048c000000000000000000 untouched
'''
LONG = [r'read room 100 comment with %d x: %%;%s\r\n -> %s' % (x, 'x' * x, said) for x, said in ((249, '0 0 12'), (250, '3 3 0 0 0 0 0'))]
LONG += ['explain version 12 number 1: 1) 0.000 1 Rx 0123 %d%s -> %s' % (n, ' ' * 232, said) for n, said in ((0, '30 0 0 0'), (9, '0 0 1 6'))]
LONG += [r'ascii room 100 48 bytes and %d blanks, LF: 29.02.2000 12:00:00.0000 CAN #1 | Rx 123 2 0a %sff\n -> %s' % (n, ' ' * n, said)
         for n, said in ((202, '0 0 3160987200000 1 000000000000080000048c82bfc0000000000000 untouched'), (203, '31 1 0 0 untouched'))]
for said in PAPER.strip('\n').split('\n') + LONG: assert any(line.startswith(said) for line in lines), said
print('\n'.join(lines))
