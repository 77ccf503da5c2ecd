"""What is wrong with a line that is no row, by Orders 1, 3 and 5 of paper 02 over the columns of paper 01. A kind of row is a list of forms, one for each of its fields,
and none leans on what another field holds; so fields begin a row exactly if one by one they have the first forms of some kind. A form is a pattern or, where the value
has a limit, a test."""
import re
import offsets

BYTE = rb'[0-9A-Fa-f]{2}'
BUS = rb'[1-9]|1[0-6]'
FRAME_ID = rb'0[0-7][0-9A-Fa-f]{2}|[01][0-9A-Fa-f]{7}'
POSITION = b'(?i:%s)' % b'|'.join(b'%02x' % p for p in (*range(2, 16), 17, 18, 19, *range(23, 29)))
WORD = rb'[A-Z]+'

def row_number(number):
    """that number, or for 0, which is a first row's, any from 1 to 999,999"""
    return rb'%d\)' % number if number else rb'[1-9][0-9]{0,5}\)'

def offset(behind): return lambda field: offsets.read(field, behind) is not None

def kinds(version, number):
    """the forms of the fields of each kind of row, and the form of any number of fields behind them, or None"""
    head = [row_number(number), offset(1)] if version == 11 else [row_number(number), offset(3), BUS]
    for length in range(9):
        frame = head + [b'Rx|Tx', FRAME_ID, b'%d' % length]
        yield frame + [BYTE] * length, None
        yield frame + [b'RTR'], None
    yield head + [b'Warng', b'[Ff]{8}', b'4'] + [BYTE] * 4, WORD
    yield head + [b'Error', b'000[1248]', b'4', b'0[01]', POSITION, BYTE, BYTE], None

def has(field, form): return form(field) if callable(form) else re.fullmatch(form, field) is not None

def goes_on(kind, i, field):
    """whether a kind of row may have this as its field i, from 1"""
    forms, more = kind
    form = forms[i - 1] if i <= len(forms) else more
    return form is not None and has(field, form)

def is_comment(line): return re.fullmatch(rb'; *(?:[^ $].*)?', line, re.S) is not None

def explain(line, version, number):
    """number, place, reason (1 wrong field, 2 ended early) and field"""
    if version not in (11, 12): return 21, 0, 0, 0
    if number > 999_999 or b'\r' in line or b'\n' in line or is_comment(line): return 30, 0, 0, 0
    fields = re.findall(rb'[^ ]+', line)
    begun = list(kinds(version, number))
    for i, field in enumerate(fields, 1):
        begun = [kind for kind in begun if goes_on(kind, i, field)]
        if not begun: return 0, 0, 1, i
    if any(len(forms) <= len(fields) for forms, _ in begun): return 30, 0, 0, 0
    return 0, 0, 2, len(fields)
