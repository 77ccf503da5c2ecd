"""A trace of more than a hundred megabytes, with the most rows that there can be."""
ROWS = 999_999
# A comment stands behind each row of which the position is a multiple of this.
COMMENT_EVERY = 4
SELDOM = '1ABCDEF0'
SELDOM_AT = 876_543
STEP_EVERY = 250_000

_made = []


def write(path):
    if not _made:
        _made.append(b''.join(parts()))
    path.write_bytes(_made[0])


def parts():
    yield b';$FILEVERSION=1.2\r\n;$STARTTIME=45000.5\r\n'
    offset = 0
    for at in range(ROWS):
        offset += 50 + at * 7919 % 350 if at % STEP_EVERY else -10 if at else 0
        name = SELDOM if at == SELDOM_AT else ids(at)
        yield b'%6d) %12d.%03d %2d  Rx     %8s  8  %02X %02X 33 44 55 66 77 88 \r\n' % (at + 1, offset // 1000, offset % 1000, 1 + at % 2, name.encode(), at & 255, at >> 8 & 255)
        if at % COMMENT_EVERY == 0:
            yield b';' + b'c' * 130 + b'\r\n'


def ids(at):
    """A hundred IDs, some often and some seldom."""
    place = at * 2654435761 % 4294967296 % 100 * (at % 100) // 100
    return f'{place * 16 + 5:04X}' if place % 2 else f'{0x18FE0000 + place:08X}'


def row_at_or_behind(line):
    """The position of the row on a line, or of the first one behind it. Four rows and a comment are five lines, the first row behind line 2."""
    behind_head = line - 3
    group, place = divmod(behind_head, COMMENT_EVERY + 1)
    # The comment stands behind the first row of each group.
    return group * COMMENT_EVERY + (0 if place == 0 else max(place - 1, 1))
