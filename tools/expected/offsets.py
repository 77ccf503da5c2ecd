"""The offset, by paper 01's second column with the limit of paper 02's Order 5: the whole of the 48 bits that a record has for it."""
import re

LAST_OFFSET = 281_474_976_710_655
MOST_DIGITS = len(str(LAST_OFFSET // 1000))

def read(field, behind):
    """of a field with so many digits behind its point: microseconds, or None"""
    m = re.fullmatch(rb'(0|[1-9][0-9]{0,%d})\.([0-9]{%d})' % (MOST_DIGITS - 1, behind), field)
    if not m: return None
    offset = int(m[1]) * 1000 + int(m[2].ljust(3, b'0'))
    return offset if offset <= LAST_OFFSET else None
