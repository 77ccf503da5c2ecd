"""The picture as it is drawn: the pixels of each strip and each mark, the cursor, and what hands do in it, held to the rows of a trace that is made here."""
import re

from check_files import equal
from files import rows

IDS = ['0100', '0200', '18AB0001', '0300']
ROWS = 60

# Which columns have a bar in each strip, and a mark in each lane.
DRAWN = '''const [columns, strips] = arguments;
const of = (name, lines, up) => {
  const canvas = document.querySelector(name), height = canvas.height / lines, across = canvas.width / columns;
  const pen = canvas.getContext("2d"), all = [];
  for (let line = 0; line < lines; line += 1) {
    const y = Math.round((line + 1) * height) - up, filled = [];
    for (let column = 0; column < columns; column += 1) {
      if (pen.getImageData(Math.floor((column + 0.5) * across), y, 1, 1).data[3] > 0) filled.push(column);
    }
    all.push(filled);
  }
  return all;
};
return [of(".strips", strips, 4), of(".marks", 2, 3)];'''
# Presses the buttons fifty times in each direction at once; tells how often a picture was asked for.
COUNTED = '''const done = arguments[0], post = Worker.prototype.postMessage;
let count = 0;
Worker.prototype.postMessage = function (said) { count += said.call === "picture"; return post.call(this, said); };
const press = (name) => document.querySelector(`[data-test="${name}"]`).click();
for (let turn = 0; turn < 50; turn += 1) press("zoom-in");
for (let turn = 0; turn < 50; turn += 1) press("zoom-out");
setTimeout(() => { Worker.prototype.postMessage = post; done(count); }, 1000);'''
# The colour of the last row's bar, at the right end, and that of the theme.
INK = '''const canvas = document.querySelector(".strips");
const [red, green, blue] = canvas.getContext("2d").getImageData(canvas.width - 1, Math.round(canvas.height / 5) - 4, 1, 1).data;
const drawn = "#" + [red, green, blue].map((part) => part.toString(16).padStart(2, "0")).join("");
const wanted = getComputedStyle(document.documentElement).getPropertyValue("--strip-ink").trim()'''
COLUMNS = 'return Math.floor(document.querySelector(".plot").clientWidth / 2)'
CURSOR = '''const line = document.querySelector(".cursor"), plot = document.querySelector(".plot");
return line.hidden ? -1 : Math.floor((line.getBoundingClientRect().left + 1 - plot.getBoundingClientRect().left) * arguments[0] / plot.clientWidth)'''


def made_rows():
    """Each with its offset in microseconds and the name of its strip. Each eighth steps back, and two are error frames."""
    all_rows = []
    for index in range(ROWS):
        offset = 5_000_000 + index * 101_003 - (150_000 if index % 8 == 7 else 0)
        name = 'Error' if index in (20, 41) else IDS[min(index % 7, 3)]
        all_rows.append((offset, name))
    return all_rows


def text_of(all_rows):
    lines = []
    for number, (offset, name) in enumerate(all_rows, 1):
        what = 'Error 0001 4 00 02 00 00' if name == 'Error' else f'Rx {name} 0'
        lines.append(f'{number}) {offset // 1000}.{offset % 1000:03} 1 {what}'.encode())
    return rows(12, *lines)


def cases(folder):
    named = {name: case for name, case in globals().items() if name.startswith('case_')}
    for name, case in named.items():
        yield name[5:].replace('_', ' '), lambda page, case=case: shown(page, folder, case)


def shown(page, folder, case):
    all_rows = made_rows()
    path = folder / 'drawn.trc'
    path.write_bytes(text_of(all_rows))
    page.anew()
    page.drop(path)
    page.until_done()
    page.browser.until('return document.querySelector("[data-test=shows]").textContent')
    page.browser.until('return document.querySelector("[data-test=cursor]").textContent')
    case(page, all_rows)


def column_of(offset, start, end, columns):
    return max(column for column in range(columns) if start + column * (end - start + 1) // columns <= offset)


def ranked(all_rows):
    names = [name for _, name in all_rows]
    return sorted(set(names), key=lambda name: (-names.count(name), name))


def check_drawn(page, all_rows, start, end):
    columns = page.browser.run(COLUMNS)
    strips, marks = page.browser.run(DRAWN, columns, len(ranked(all_rows)))
    at = lambda wanted: sorted({column_of(offset, start, end, columns) for index, (offset, name) in enumerate(all_rows)
                                if start <= offset <= end and wanted(index, offset, name)})
    for name, strip in zip(ranked(all_rows), strips):
        equal(f'columns of {name}', strip, at(lambda _, __, one: one == name))
    equal('steps back', marks[0], at(lambda index, offset, _: index > 0 and offset < all_rows[index - 1][0]))
    equal('errors', marks[1], at(lambda _, __, one: one == 'Error'))


def ends(all_rows):
    offsets = [offset for offset, _ in all_rows]
    return min(offsets), max(offsets)


def told(page, row):
    """Waits until the cursor tells of a row, by its number."""
    page.browser.until('return document.querySelector("[data-test=cursor]").textContent.startsWith(arguments[0])', f'Row {row},')


def keys(page, keys_):
    page.browser.run('document.querySelector("[data-test=plot]").focus()')
    page.browser.keys(keys_)


def case_every_strip_and_mark_is_drawn(page, all_rows):
    names = page.browser.run('return [...document.querySelectorAll(".names li")].map((one) => one.textContent)')
    counts = [name for _, name in all_rows]
    equal('names', names, [f'{name} {counts.count(name)}' for name in ranked(all_rows)])
    check_drawn(page, all_rows, *ends(all_rows))
    for theme in ('dark', 'light'):
        page.browser.theme(theme)
        check_drawn(page, all_rows, *ends(all_rows))


def case_its_colours_are_those_of_the_theme(page, all_rows):
    """Of either theme, at once when it changes; and black while it is printed."""
    try:
        for theme in ('dark', 'light', 'dark'):
            page.browser.theme(theme)
            page.browser.until(f'{INK}; return drawn === wanted', seconds=5)
            page.browser.run('dispatchEvent(new Event("beforeprint"))')
            equal('on paper', page.browser.run(f'{INK}; return drawn'), '#000000')
            page.browser.run('dispatchEvent(new Event("afterprint"))')
            equal('behind the print', page.browser.run(f'{INK}; return drawn === wanted'), True)
    finally:
        page.browser.theme('light')


def case_a_part_of_it_is_drawn(page, all_rows):
    """Twice as large around the cursor, and half a picture later; then narrower; then the whole again."""
    keys(page, '\ue010')  # End
    told(page, ROWS)
    keys(page, '+')
    start, end = ends(all_rows)
    half = end - (end - start + 1) // 2 + 1
    until_shows(page, half, end)
    check_drawn(page, all_rows, half, end)
    page.browser.run('[...document.querySelectorAll(".controls button")].find((one) => one.textContent === "Earlier").click()')
    size = end - half + 1
    until_shows(page, half - size // 2, end - size // 2)
    check_drawn(page, all_rows, half - size // 2, end - size // 2)
    try:
        page.browser.size(700, 900)
        page.browser.until('return document.querySelector(".marks").width === document.querySelector(".plot").clientWidth')
        page.browser.run_later('setTimeout(arguments[0], 500)')
        check_drawn(page, all_rows, half - size // 2, end - size // 2)
    finally:
        page.browser.size(1280, 900)
    keys(page, '0')
    page.browser.until('return document.querySelector("[data-test=shows]").textContent.startsWith("the whole")')


def until_shows(page, start, end):
    ms = lambda offset: f'{offset // 1000}.{offset % 1000:03} ms'
    page.browser.until('return document.querySelector("[data-test=shows]").textContent.startsWith(arguments[0])', f'{ms(start)} to {ms(end)}', seconds=5)


def case_zoomed_faster_than_it_is_drawn(page, all_rows):
    """Whatever is pressed while a picture is awaited, what is drawn in the end is what was wanted last, and what is said of it is true."""
    counts = page.browser.run_later(COUNTED)
    assert counts < 40, f'{counts} pictures were asked for'
    start, end = ends(all_rows)
    page.browser.until('return document.querySelector("[data-test=shows]").textContent.startsWith("the whole")')
    check_drawn(page, all_rows, start, end)


def case_zoomed_away_from_the_cursor(page, all_rows):
    """Where the cursor is not to be seen, it is the middle that is zoomed to."""
    keys(page, '\ue011')  # Home
    told(page, 1)
    keys(page, '+\ue00f\ue00f')  # Page down, twice
    start, end = ends(all_rows)
    size = (end - start + 1) // 2
    until_shows(page, start + size, start + 2 * size - 1)
    before = page.text('shows')
    keys(page, '+')
    page.browser.until('return document.querySelector("[data-test=shows]").textContent !== arguments[0]', before)
    begin, last = [round(float(part) * 1000) for part in re.findall(r'([\d.]+) ms', page.text('shows'))[:2]]
    assert abs((begin + last) / 2 - (start + 1.5 * size)) < 2, page.text('shows')


def case_the_cursor_stands_where_its_row_is(page, all_rows):
    columns = page.browser.run(COLUMNS)
    start, end = ends(all_rows)
    for key, row in (('\ue011', 1), ('\ue014', 2), ('\ue014', 3), ('\ue012', 2), ('\ue010', ROWS)):
        keys(page, key)
        told(page, row)
        equal('column of the cursor', page.browser.run(CURSOR, columns), column_of(all_rows[row - 1][0], start, end, columns))
    for row in (8, 16, 21, 24, 32):
        page.click('next-mark') if row > 8 else keys(page, '\ue011m')
        told(page, row)
    keys(page, '\ue007')  # Enter
    equal('row in the list', selected(page), 32)
    equal('focus', page.browser.run('return document.activeElement.dataset.test'), 'list')


def selected(page):
    return page.browser.until('return Number(document.querySelector(\'[data-test="row"][aria-selected="true"]\')?.children[0].textContent)')


def case_pointed_at(page, all_rows):
    """The row at the mouse is told; where a mark is clicked, it is the marked row that is shown."""
    columns = page.browser.run(COLUMNS)
    start, end = ends(all_rows)
    for row, below in ((11, 150), (16, 8), (21, 40)):
        page.browser.run('document.querySelector("[data-test=picture]").scrollIntoView()')
        left, top, width = page.browser.run('const box = document.querySelector(".plot").getBoundingClientRect(); return [box.left, box.top, box.width]')
        x = left + (column_of(all_rows[row - 1][0], start, end, columns) + 0.5) * width / columns
        for kind in ('mouseMoved', 'mousePressed', 'mouseReleased'):
            page.browser.cdp('Input.dispatchMouseEvent', type=kind, x=x, y=top + below, button='none' if kind == 'mouseMoved' else 'left', clickCount=1)
        told(page, row)
        page.browser.until('return document.querySelector(\'[data-test="row"][aria-selected="true"]\')?.children[0].textContent === arguments[0]', str(row))


def case_the_first_step_back_is_shown(page, all_rows):
    page.browser.run('document.querySelector(".facts button").click()')
    page.browser.until('return document.querySelector(\'[data-test="row"][aria-selected="true"]\')?.children[9].textContent === "steps back"')
    equal('row', selected(page), 8)
    told(page, 8)
