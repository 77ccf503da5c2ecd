"""The files that are dropped on the page, besides the samples: good ones and broken ones of either form."""

HEAD_12 = b';$FILEVERSION=1.2\r\n;$STARTTIME=36585.5\r\n'
HEAD_11 = b';$FILEVERSION=1.1\r\n;$STARTTIME=36585.5\r\n'
FRAME = b'29.02.2000 12:00:00.0000 CAN #1 | Rx 123 2 0a ff\r\n'


def rows(version, *lines):
    head = HEAD_11 if version == 11 else HEAD_12
    return head + b''.join(line + b'\r\n' for line in lines)


def good():
    every_kind = [b'1) 0.000 1 Rx 0123 2 0A FF', b'2) 1.000 16 Tx 1FFFFFFF 8 00 11 22 33 44 55 66 77', b'3) 1.000 2 Rx 07FF 3 RTR',
                  b'4) 1.001 3 Tx 18AB0001 0 RTR', b'5) 2.000 4 Warng FFFFFFFF 4 00 00 00 08 BUSHEAVY', b'6) 0.500 5 Error 0008 4 00 1C FF 00']
    return {
        'no-rows.trc': HEAD_12,
        'comments-only.trc': HEAD_11 + b';\r\n; nothing was recorded\r\n',
        'every-kind.trc': rows(12, *every_kind),
        'comments-between.trc': rows(12, b';---', every_kind[0], b'; \t\xff', b'2) 2.000 1 Rx 0123 0', b';'),
        'blanks.trc': rows(12, b'   1)      0.000   1   Rx   0123   2   0a  ff   '),
        'last-number.trc': rows(11, b'999999) 281474976710.6 Rx 0000 0'),
        'largest-offset.trc': rows(12, b'7) 281474976710.655 16 Tx 1FFFFFFF 8 ff fe fd fc fb fa f9 f8', b'8) 0.000 1 Rx 0000 0'),
        'last-start.trc': b';$FILEVERSION=1.1\r\n;$STARTTIME=99999.9999999942\r\n1) 0.1 Rx 0001 1 01\r\n',
        'Name With Blanks & <b>.TRC': rows(11, b'1) 0.1 Rx 0001 1 01'),
        'many-ids.trc': rows(11, *[b'%d) %d.0 Rx %04X 1 %02X' % (i + 1, i, i % 700, i % 256) for i in range(2000)]),
        'thousands.trc': rows(12, *[b'%d) %d.%03d 1 Rx %04X 2 %02X %02X' % (i + 1, i * 3 + i % 5, i % 1000, i % 9, i % 256, i // 256) for i in range(12_345)]),
        'one-frame.asc': FRAME,
        'empty.asc': b'',
        'exported.txt': FRAME + b'29.02.2000 12:00:01.5002 CANExt #2 | EXTENDED Tx 18ab0001 0\r\n',
        'lf-and-capitals.asc': FRAME.replace(b'\r\n', b'\n').replace(b'0a ff', b'0A   FF'),
        'both-channels.asc': FRAME + FRAME.replace(b'#1', b'#0'),
    }


def broken():
    return {**broken_heads(), **broken_rows(), **broken_ascii()}


def broken_heads():
    return {
        'empty.trc': b'',
        'lf-ends.trc': rows(12, b'1) 0.000 1 Rx 0123 0').replace(b'\r\n', b'\n'),
        'cr-ends.trc': rows(12, b'1) 0.000 1 Rx 0123 0').replace(b'\r\n', b'\r'),
        'cr-at-the-end.trc': rows(12, b'1) 0.000 1 Rx 0123 0')[:-1],
        'half-a-line.trc': rows(12, b'1) 0.000 1 Rx 0123 0') + b'2) 0.0',
        'long-comment.trc': HEAD_12 + b';' + b'x' * 250 + b'\r\n',
        'version-2.trc': b';$FILEVERSION=2.1\r\n;$STARTTIME=36585.5\r\n',
        'small-letters.trc': b';$fileversion=1.1\r\n;$STARTTIME=36585.5\r\n',
        'byte-order-mark.trc': b'\xef\xbb\xbf' + HEAD_12,
        'utf-16.trc': HEAD_12.decode().encode('utf-16'),
        'no-start.trc': b';$FILEVERSION=1.1\r\n',
        'start-is-a-row.trc': b';$FILEVERSION=1.1\r\n1) 0.1 Rx 0001 1 01\r\n',
        'start-comma.trc': b';$FILEVERSION=1.1\r\n;$STARTTIME=36585,5\r\n',
        'start-blank.trc': b';$FILEVERSION=1.1\r\n; $STARTTIME=36585.5\r\n',
        'dollar.trc': HEAD_12 + b';   $COLUMNS=N,O,T\r\n',
        'A-ROW.TRC': b'1) 0.000 1 Rx 0123 0\r\n',
        'noise.bin': bytes(range(256)) * 40,
        'nuls.trc': bytes(5000),
    }


def broken_rows():
    row = b'1) 0.000 1 Rx 0123 2 0A FF'
    return {
        'row-missing.trc': rows(12, row, b'3) 1.000 1 Rx 0123 0'),
        'number-zero.trc': rows(12, b'0) 1.000 1 Rx 0123 0'),
        'behind-the-last.trc': rows(11, b'999999) 0.1 Rx 0000 0', b'1000000) 0.2 Rx 0000 0'),
        'bus-17.trc': rows(12, row, b'2) 1.000 17 Rx 0123 0'),
        'bus-in-11.trc': rows(11, b'1) 0.0 1 Rx 0123 0'),
        'tab.trc': rows(12, b'1) 0.000\t1 Rx 0123 0'),
        'nul-and-high.trc': rows(12, b'1) 0.000 1 Rx \x00\xff\x7f 0'),
        'error-position.trc': rows(12, b'1) 0.000 1 Error 0001 4 00 10 00 00'),
        'warning-length.trc': rows(12, b'1) 0.000 1 Warng FFFFFFFF 3 00 00 00'),
        'empty-line.trc': rows(12, row, b'', b'2) 1.000 1 Rx 0123 0'),
        'only-blanks.trc': rows(12, b'    '),
        'one-too-many.trc': rows(12, row + b' 00'),
        'offset-11-in-12.trc': rows(12, b'1) 0.0 1 Rx 0123 0'),
        'byte-missing.trc': rows(12, b'1) 0.000 1 Rx 0123 8 00 11 22 33 44 55 66'),
        'long-field.trc': rows(12, b'1) ' + b'9' * 200 + b' 1 Rx 0123 0'),
    }


def broken_ascii():
    return {
        'HEADING.ASC': b'Date Time Bus\r\n' + FRAME,
        'heading.asc': b'Date Time Bus\r\n' + FRAME,
        'blank-before.asc': b' ' + FRAME,
        'blank-behind.asc': FRAME.replace(b'\r\n', b' \r\n'),
        'empty-line.asc': FRAME + b'\r\n' + FRAME,
        'not-ended.asc': FRAME + FRAME[:-2],
        'short.asc': FRAME.replace(b' ff', b''),
        'long.asc': FRAME.replace(b'0a ff', b'0a' + b' ' * 250 + b'ff'),
        'one-more.asc': FRAME.replace(b'ff', b'ff 00'),
        'before-start.asc': FRAME + FRAME.replace(b'12:00:00', b'11:59:59'),
        'years-later.asc': FRAME + FRAME.replace(b'2000', b'2024'),
        'a-trace.asc': HEAD_12,
    }
