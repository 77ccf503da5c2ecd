"""The list of rows and the search above it: keys, wheel, mouse, what is copied, what is found."""
from check_files import equal
from files import rows

ROWS = 300
SELECTED = 'return Number(document.querySelector(\'[data-test="row"][aria-selected="true"]\')?.children[0].textContent ?? 0)'
# Whether the selected row is wholly in view, below the heads of the columns.
IN_VIEW = '''const list = document.querySelector('[data-test="list"]').getBoundingClientRect(), head = document.querySelector(".list-head").getBoundingClientRect();
const row = document.querySelector('[data-test="row"][aria-selected="true"]').getBoundingClientRect();
return row.top >= head.bottom - 1 && row.bottom <= list.bottom'''
# How many whole rows have room below the heads.
VISIBLE = '''const row = document.querySelector(".row").offsetHeight;
return Math.floor((document.querySelector('[data-test="list"]').clientHeight - row) / row)'''
ACTIVE = '''const list = document.querySelector('[data-test="list"]');
return document.getElementById(list.getAttribute("aria-activedescendant"))?.getAttribute("aria-selected") === "true"'''
COPIED = '''const event = new ClipboardEvent("copy", { clipboardData: new DataTransfer(), bubbles: true, cancelable: true });
document.querySelector('[data-test="row"]').dispatchEvent(event);
return event.clipboardData.getData("text/plain")'''
UP, DOWN, PAGE_UP, PAGE_DOWN, HOME, END = '\ue013\ue015\ue00e\ue00f\ue011\ue010'


def cases(folder):
    named = {name: case for name, case in globals().items() if name.startswith('case_')}
    for name, case in named.items():
        yield name[5:].replace('_', ' '), lambda page, case=case: listed(page, folder, case)


def listed(page, folder, case):
    """Rows 1 to 300, with the ID 0111 in each hundredth and one extended ID of the same number."""
    names = [b'00000111' if number == 250 else b'0111' if number % 100 == 0 else b'0222' for number in range(1, ROWS + 1)]
    path = folder / 'listed.trc'
    path.write_bytes(rows(12, *[b'%d) %d.000 1 Rx %s 1 %02X' % (number, number, name, number % 256) for number, name in enumerate(names, 1)]))
    page.anew()
    page.drop(path)
    page.until_done()
    page.until_row(0)
    case(page)


def until_selected(page, number):
    page.browser.until(f'{SELECTED.replace("return ", "return (")}) === arguments[0]', number, seconds=5)
    equal(f'row {number}, whether it is in view', page.browser.run(IN_VIEW), True)
    equal(f'row {number}, whether it is the active one', page.browser.run(ACTIVE), True)


def case_the_list_by_keys(page):
    page.browser.run('document.querySelector("[data-test=list]").focus()')
    for key, number in ((DOWN, 1), (DOWN, 2), (DOWN, 3), (UP, 2), (UP, 1), (UP, 1), (END, ROWS), (DOWN, ROWS), (UP, ROWS - 1), (HOME, 1)):
        page.browser.keys(key)
        until_selected(page, number)
    visible = page.browser.run(VISIBLE)
    for key, number in ((PAGE_DOWN, 1 + visible), (PAGE_DOWN, 1 + 2 * visible), (PAGE_UP, 1 + visible), (PAGE_UP, 1), (PAGE_UP, 1)):
        page.browser.keys(key)
        until_selected(page, number)


def case_a_row_is_clicked_and_copied(page):
    page.browser.run('document.querySelector(\'[data-test="row"][data-index="4"]\').click()')
    until_selected(page, 5)
    equal('what is copied', page.browser.run(COPIED), '5\t7\t29.02.2000 12:00:00.0050\t5.000\t1\tRx\t0222\t1\t05\t')
    page.browser.until('return document.querySelector("[data-test=cursor]").textContent.startsWith("Row 5,")')
    page.browser.run('''const rows = [2, 3].map((index) => document.querySelector(`[data-test="row"][data-index="${index}"]`));
        getSelection().setBaseAndExtent(rows[0].children[2].firstChild, 3, rows[1].children[2].firstChild, 5)''')
    equal('what is copied of marked rows', [line.split('\t')[0] for line in page.browser.run(COPIED).split('\r\n')], ['3', '4'])


def case_the_wheel_turns_by_whole_rows(page):
    height = page.browser.run('return document.querySelector(".row").offsetHeight')
    turn = '''const list = document.querySelector("[data-test=list]");
        const event = new WheelEvent("wheel", { deltaY: arguments[0], bubbles: true, cancelable: true });
        list.dispatchEvent(event);
        return [list.scrollTop, event.defaultPrevented]'''
    equal('turned up at the top', page.browser.run(turn, -height), [0, False])
    equal('turned by one and a half', page.browser.run(turn, 1.5 * height), [height, True])
    equal('turned by a half', page.browser.run(turn, 0.5 * height), [2 * height, True])
    equal('turned back', page.browser.run(turn, -2 * height), [0, True])


def case_found_by_its_id(page):
    """Forwards and backwards, and from the other end again; four digits are a standard ID, eight an extended one, three either."""
    steps = [('0111', 'next', 100, ''), ('0111', 'next', 200, ''), ('0111', 'previous', 100, ''), ('0111', 'previous', 300, ', from the last again'),
             ('0111', 'next', 100, ', from the first again'), ('00000111', 'next', 250, ''), ('111', 'next', 300, ''), ('111', 'previous', 250, '')]
    for text, way, number, more in steps:
        page.enter('find-id', text)
        page.click(f'find-{way}')
        page.browser.until('return document.querySelector("[data-test=find-said]").textContent === arguments[0]', f'row {number}, line {number + 2}{more}', seconds=5)
        until_selected(page, number)
    steps = [('0333', 'no row has the ID 0333'), ('Error', 'no row has the ID Error'), ('xyz', 'an ID is one to eight'), ('', 'an ID is one to eight')]
    for text, words in steps:
        page.enter('find-id', text)
        page.click('find-next')
        page.browser.until('return document.querySelector("[data-test=find-said]").textContent.startsWith(arguments[0])', words, seconds=5)
    until_selected(page, 250)


def case_found_by_its_line(page):
    steps = [('1', 'line 1 is no row; the next one is row 1 on line 3'), ('302', 'line 302 is row 300'), ('303', 'the file has lines 1 to 302'),
             ('0', 'a line is a number'), ('x', 'a line is a number')]
    for text, words in steps:
        page.enter('find-line', text)
        page.click('find-go')
        page.browser.until('return document.querySelector("[data-test=find-said]").textContent.startsWith(arguments[0])', words, seconds=5)
    until_selected(page, 300)
