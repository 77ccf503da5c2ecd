"""Every file, dropped on the page: what is shown is what `./bushingowl`, `./owl` and the Rust crate say, and what can be kept is what they make."""
import re
from pathlib import Path

from said import KINDS, form_by_byte

# Number and bytes of each line around a refused one, as they are seen.
AROUND = '''return [...document.querySelectorAll('[data-test="around"] tr')].map((row) => {
  const seen = row.cloneNode(true);
  for (const one of seen.querySelectorAll(".unseen, .missing")) one.remove();
  return [seen.querySelector("th").textContent, seen.querySelector("td").textContent];
})'''


def check_file(page, said, room):
    page.anew()
    page.drop(said.path)
    page.until_done()
    [[name, state]] = page.states()
    equal('name', name, said.path.name)
    equal('state', state, 'accepted' if said.accepted else 'refused')
    if said.accepted:
        check_facts(page, said)
        check_rows(page, said)
        check_outputs(page, said, room)
    else:
        check_refusal(page, said)


def equal(what, shown, is_so):
    assert shown == is_so, f'{what}: the page has {shown!r}, and it is {is_so!r}'


def check_facts(page, said):
    rows, check = said.rows(), said.check
    equal('version', page.text('fact-version'), 'Telemotive ASCII' if said.form == 'ascii' else check['version'])
    equal('start', page.text('fact-start'), re.search(r'start (\S+ \S+),', said.head)[1])
    equal('rows', page.text('fact-rows'), f'{check["lines" if said.form == "ascii" else "rows"]:,}')
    for kind in KINDS:
        equal(kind, page.text('kind-' + kind.replace(' ', '-')), f'{said.kinds()[kind]:,}')
    back = check['first_step_back']
    equal('first step back', page.text('fact-first-step-back').split(',')[0], 'none' if back is None else f'row {back}')
    offsets = [int(row['offset_us']) for row in rows]
    equal('time covered', microseconds(page.text('fact-covered')), max(offsets) - min(offsets) if rows else None)
    equal('IDs', page.text('fact-ids'), f'{len({row["id"] for row in rows if row["kind"][:2] in ("Rx", "Tx")}):,}')
    check_small_facts(page, said, offsets)
    if said.bench is not None:
        assert not said.bench.startswith(b'refused'), said.bench


def check_small_facts(page, said, offsets):
    """What stands below the facts in small letters."""
    rows = said.rows()
    lines, backs = said.path.read_bytes().count(b'\n'), sum(row['step_back'] == '1' for row in rows)
    told = [f'{lines:,} line{"" if lines == 1 else "s"}']
    if rows:
        stamps = [rows[offsets.index(end(offsets))]['stamp'] for end in (min, max)]
        told += [f'numbers {rows[0]["row"]} to {rows[-1]["row"]}', ' to '.join(stamps)]
    if backs:
        told.append(f'{backs:,} step{"" if backs == 1 else "s"} back in all')
    equal('small facts', page.browser.run('return [...document.querySelectorAll(".facts small")].map((one) => one.textContent)'), told)


def microseconds(span):
    """A span of time as the page spells it; nothing where there is none."""
    if span == 'none':
        return None
    units = {'ms': 1000, 's': 10**6, 'min': 60 * 10**6, 'h': 3600 * 10**6, 'd': 86400 * 10**6}
    parts = re.findall(r'([\d,.]+) (\w+)', span)
    return sum(round(float(number.replace(',', '')) * units[unit]) for number, unit in parts)


def check_rows(page, said):
    rows = said.rows()
    for index in sorted({0, len(rows) // 2, len(rows) - 1} - {-1}):
        if index >= len(rows):
            continue
        line = line_of(said, index)
        page.enter('find-line', str(line))
        page.click('find-go')
        equal(f'row {index}', page.until_row(index), cells_of(rows[index], line))


def line_of(said, index):
    """The line on which a row stands, counted without the page's or the library's help."""
    lines = said.path.read_bytes().split(b'\n')[:-1]
    if said.form == 'ascii':
        return index + 1
    return [number for number, line in enumerate(lines, 1) if number > 2 and not line.startswith(b';')][index]


def cells_of(row, line):
    offset = int(row['offset_us'])
    data = ' '.join(re.findall('..', row['data']))
    back = 'steps back' if row['step_back'] == '1' else ''
    return [row['row'], str(line), row['stamp'], f'{offset // 1000}.{offset % 1000:03}', row['bus'], row['kind'], row['id'], row['length'], data, back]


def check_outputs(page, said, room):
    outputs = said.outputs()
    for what, made in outputs.items():
        came, bytes_ = page.download(f'make-{what}', room / f'{said.path.name}-{what}')
        equal(f'{what}, whether it is made', came is None, made is None)
        if made is None:
            continue
        name, is_so = made
        equal(f'{what}, its name', came, in_folder(name))
        equal(f'{what}, its bytes', bytes_, is_so)
        equal(f'{what}, what is said', page.text('made'), f'{name}: {said.counted(what)}')
        assert name in page.text(f'make-{what}'), page.text(f'make-{what}')
    if said.bench is not None:
        equal('ASCII export, by the bench program', outputs['ascii'][1], said.bench)
    lines = said.crate if said.form == 'ascii' else said.crate.split(b'\r\n', 1)[1]
    equal('ASCII export, by the Rust crate', outputs['ascii'][1], lines)


def in_folder(name):
    """A name as the browser writes it, which has letters of its own for those that some systems can't have."""
    return re.sub(r'[<>:"/\\|?*]', '_', name)


def check_refusal(page, said):
    check = said.check
    equal('refusal', page.text('words'), check['reason'])
    equal('why', page.text('why'), said.why())
    equal('expected', page.text('expected'), said.expected())
    equal('remedy', page.text('remedy'), said.remedy())
    number, place = check['refusal'], check['place']
    first = said.crate.split(b'\r\n')[0].decode()
    equal('refusal, by the Rust crate', first, f'refused {number} at line {place}')
    if said.bench is not None:
        equal('refusal, by the bench program', said.bench.decode().strip(), first)
    if said.expected():
        check_marked(page, said, place)
        check_around(page, said, place)
    equal('lines around', page.is_there('around'), bool(said.expected()))
    equal('whether the other form is offered', page.is_there('read-other'), form_by_byte(said.path) != said.form)
    for hook in ('make-ascii', 'make-house', 'make-csv', 'list'):
        assert not page.is_there(hook), f'a refused file has {hook}'


def check_around(page, said, place):
    """The lines around the refused one, each with its number, its bytes and its end. Of long lines a part is shown."""
    shown = page.browser.run(AROUND)
    lines = re.findall(rb'[^\n]*\n|[^\n]+\Z', said.path.read_bytes())
    # A line that is missing stands behind the last one.
    lines += [b''] * (place - len(lines))
    first = max(1, place - 3)
    equal('lines around', [number for number, _ in shown], [str(number) for number in range(first, min(len(lines), place + 3) + 1)])
    for (number, text), line in zip(shown, lines[first - 1:]):
        if len(line) <= 260:
            equal(f'line {number}', text, ''.join(map(shown_byte, line)))


def shown_byte(byte):
    return {0: 'NUL', 9: 'TAB', 10: 'LF', 13: 'CR'}.get(byte) or (chr(byte) if 32 <= byte <= 126 else f'x{byte:02X}')


def check_marked(page, said, place):
    """What is marked are the letters over the carets of `owl explain`, where they can be seen."""
    shown, carets = [line.split(' | ', 1)[1] for line in said.explained if ' | ' in line][:2]
    start = carets.index('^')
    marked = shown[start:start + carets.count('^')]
    is_marked = page.text('wrong')
    if re.search(r'\\x', marked) or '...' in shown:
        return
    missing = len(carets.strip()) == 1 and re.search(r'ended|ends|empty|there is none', said.why())
    equal('what is marked', is_marked, '^' if missing else marked)
