"""Lines that take a number, and texts as they are printed; crates/cases/stdin says how a line is written."""
import re

def plain(line, n):
    """a line without %, with its number"""
    made = ''
    meant = {'r': '\r', 'n': '\n', 't': '\t', '\\': '\\'}
    for m in re.finditer(r'\\x(..)|\\(.)|\*(.)|(.)', line, re.S):
        code, letter, many, b = m.groups()
        if code: made += chr(int(code, 16))
        elif letter: made += meant[letter]
        elif many: made += many * n
        elif b == '_': made += ' ' * n
        elif b == '^': made += ''.join(' %02X' % i for i in range(1, n + 1))
        else: made += {'#': '%d' % n, '@': '%02X' % n, '?': '%04X' % n, '!': '%08X' % n}.get(b, b)
    return made

def fill(line, n, given):
    """a line with its number and the text that % stands for"""
    return given.join(plain(part, n) for part in line.split('%'))

def shown(text):
    """in one line; of a long text its ends"""
    if len(text) > 800: return shown(text[:60]) + '. %d .' % len(text) + shown(text[-60:])
    letters = {'\r': '\\r', '\n': '\\n'}
    return ''.join(letters.get(b) or (b if ' ' <= b <= '~' else '\\x%02x' % ord(b)) for b in text)
