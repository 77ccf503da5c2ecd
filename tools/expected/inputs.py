"""What the program prints for an input, bus 0 as channel 1 (paper 02's Order 6)."""
import ascii_lines, traces

RECORDS, PAGE = 72_800, 313_040
CHANNEL = 1

def refused(number, place): return 'refused %d at line %d\r\n' % (number, place)

def prints(text, room):
    """None where the trace is good and its records have no room"""
    if len(text) > 65_536: return refused(1, 0)
    (number, place, _, start, *_), found = traces.read(text, room)
    if number == 8: return None
    return refused(number, place) if number else ''.join(ascii_lines.lines(start, CHANNEL, found))

def convert(text, room, page):
    """what is printed, or None where what is lent is too short"""
    said = prints(text, room)
    return None if said is None or len(said) > page else said

def noise(seed, n, low):
    """those of n bytes of a generator that are at least `low`"""
    x, made = seed, []
    for _ in range(n):
        x = (x * 1_103_515_245 + 12_345) % 2 ** 31
        made.append(x // 65_536 % 256)
    return bytes(b for b in made if b >= low)
