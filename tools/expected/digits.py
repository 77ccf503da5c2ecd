"""Numbers as digit strings."""
import re

def read(s, form, base):
    return int(s or b'0', base) if re.fullmatch(form, s) else None

def decimal(s): return read(s, rb'0|[1-9][0-9]{0,18}', 10)

def padded(s): return read(s, rb'[0-9]{0,19}', 10)

def hexadecimal(s): return read(s, rb'[0-9a-fA-F]{0,16}', 16)

def last(digits, w):
    """the last w digits, with zeros before them where there are fewer"""
    return digits[-w:].rjust(w, '0') if w else ''

def spellings(n, w):
    """in decimal, in w decimal digits, and in w hexadecimal digits of both letter cases"""
    return [str(n), last(str(n), w), last('%X' % n, w), last('%x' % n, w)]
