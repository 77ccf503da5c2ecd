"""Telemotive ASCII, by paper 01's "Writing" and "Numbers given back", with the channel of paper 02's Order 6 for bus 0."""
import clock, records

LAST_CHANNEL = 16

def line(start, channel, offset, bus, kind, extended, ident, length, data):
    """the line of a data frame, bus 0 as a channel"""
    d, month, year, _, hour, minute, second, part = clock.stamp(start, offset)
    parts = ['%02d.%02d.%04d %02d:%02d:%02d.%04d' % (d, month, year, hour, minute, second, part)]
    parts += ['CANExt' if extended else 'CAN', '#%d' % (channel if bus == 0 else bus), '|']
    parts += ['EXTENDED'] * extended + [{0: 'Rx', 1: 'Tx'}[kind], '%08x' % ident if extended else '%03x' % ident, str(length)]
    parts += ['%02x' % b for b in data.to_bytes(8, 'big')[:length]]
    return ' '.join(parts) + '\r\n'

def lines(start, channel, found): return [line(start, channel, *f) for f in found if f[2] in (0, 1)]

def export(start, channel, s, room):
    """number, place, text, lines, left out"""
    number, place, found = records.several(s)
    if number == 20: return 20, 0, '', 0, 0
    if start > clock.LAST_START: return 22, 0, '', 0, 0
    if channel > LAST_CHANNEL: return 35, 0, '', 0, 0
    if number: return number, place, '', 0, 0
    made = lines(start, channel, found)
    text = ''.join(made)
    return (25, 0, '', 0, 0) if len(text) > room else (0, 0, text, len(made), len(found) - len(made))
