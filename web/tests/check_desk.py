"""Several files on the desk: which are open, whose worker is kept, and that the keyboard is never lost."""
import big
from check_files import equal
from files import rows
from said import ROOT

FOCUS = 'return document.activeElement.dataset.test ?? document.activeElement.tagName'
OPEN = """return [...document.querySelectorAll('[data-test="open"]')].filter((one) => one.getAttribute("aria-expanded") === "true").map((one) => one.textContent)"""
# The most files that web/view/holding.js keeps.
HELD = 6


def cases(folder):
    named = {name: case for name, case in globals().items() if name.startswith('case_')}
    for name, case in named.items():
        yield name[5:].replace('_', ' '), lambda page, case=case: case(page, folder)


def workers(page):
    """How many there are, by the browser."""
    return sum(target['type'] == 'worker' for target in page.browser.cdp('Target.getTargets', filter=[{}])['targetInfos'])


def until_workers(page, count):
    for _ in range(100):
        if workers(page) == count:
            return
        page.browser.run_later('setTimeout(arguments[0], 20)')
    equal('workers', workers(page), count)


def several(folder, count):
    paths = [folder / f'several-{number:02}.trc' for number in range(count)]
    for path in paths:
        path.write_bytes(rows(11, *[b'%d) 0.1 Rx 0001 0' % (number + 1) for number in range(3000)]))
    return paths


def press(page, hook, at=0):
    page.browser.run('document.querySelectorAll(`[data-test="${arguments[0]}"]`)[arguments[1]].click()', hook, at)


def case_what_is_open_stays_open(page, folder):
    """While others are read, the one that is looked at is not taken away, nor the keyboard that is in it."""
    paths = several(folder, 30)
    page.anew()
    page.drop(*paths)
    page.browser.until('return document.querySelector("[data-test=file]").dataset.state === "accepted"')
    press(page, 'open')
    page.browser.run('document.querySelector("[data-test=list]").focus()')
    page.until_done(len(paths))
    equal('open', page.browser.run(OPEN), [paths[0].name])
    equal('focus', page.browser.run(FOCUS), 'list')
    until_workers(page, HELD)


def case_each_is_opened_and_closed(page, folder):
    """Of those that were opened the last ones stay open; behind the last that is closed there is no worker any more, and the keyboard is at the beginning."""
    paths = several(folder, 12)
    page.anew()
    page.drop(*paths)
    page.until_done(len(paths))
    page.browser.until('return document.querySelectorAll("[data-test=link] a").length === arguments[0]', len(paths))
    for at, path in enumerate(paths):
        page.browser.run('document.querySelectorAll("[data-test=link] a")[arguments[0]].click()', at)
        page.browser.until(f'{OPEN}.includes(arguments[0])', path.name)
        equal('focus', page.browser.run('return document.activeElement.dataset.name'), path.name)
    equal('open', page.browser.run(OPEN), [path.name for path in paths[-HELD:]])
    until_workers(page, HELD)
    for left in range(len(paths) - 1, -1, -1):
        press(page, 'close')
        equal('focus', page.browser.run(FOCUS), 'file' if left else 'choose')
    until_workers(page, 0)
    page.browser.until('return document.title === "Bushingowl"')


def case_the_keyboard_stays_with_what_is_shut(page, folder):
    """A file that gives its memory back is shut, with the keyboard in it; then that is at its name. So where it is read as the other form."""
    paths = several(folder, HELD + 1)
    page.anew()
    page.drop(*paths)
    page.until_done(len(paths))
    press(page, 'open')
    page.browser.until(f'{OPEN}.length === 1')
    page.browser.run('document.querySelector("[data-test=list]").focus()')
    for at in range(1, len(paths)):
        press(page, 'open', at)
        page.browser.until(f'{OPEN}.includes(arguments[0])', paths[at].name)
    equal('open', page.browser.run(OPEN), [path.name for path in paths[1:]])
    equal('focus', page.browser.run('return document.activeElement.textContent'), paths[0].name)
    big.write(folder / 'big.asc')
    page.anew()
    page.drop(folder / 'big.asc')
    page.until_done()
    page.browser.run('document.querySelector("[data-test=read-other]").focus()')
    press(page, 'read-other')
    equal('focus', page.browser.run(FOCUS), 'stop')
    page.until_done(seconds=120)
    equal('focus', page.browser.run(FOCUS), 'open')


def case_wanted_before_it_is_read(page, folder):
    """A file that is asked for while it waits comes before the others, and is opened."""
    big.write(folder / 'big.trc')
    paths = [folder / 'big.trc', folder / 'big.trc', *several(folder, 12)]
    page.anew()
    page.drop(*paths)
    page.browser.until('return document.querySelectorAll("[data-test=link] a").length === arguments[0]', len(paths))
    page.browser.run('document.querySelectorAll("[data-test=link] a")[arguments[0]].click()', len(paths) - 1)
    page.until_done(len(paths), seconds=120)
    equal('open', page.browser.run(OPEN), [paths[-1].name])


def case_closed_while_it_is_read(page, folder):
    big.write(folder / 'big.trc')
    page.anew()
    page.drop(folder / 'big.trc')
    page.browser.until('return document.querySelector("[data-test=file]")?.dataset.state === "reading"')
    press(page, 'close')
    equal('states', page.states(), [])
    equal('focus', page.browser.run(FOCUS), 'choose')
    until_workers(page, 0)


def case_stopping_ends_the_worker(page, folder):
    big.write(folder / 'big.trc')
    page.anew()
    page.drop(folder / 'big.trc')
    page.browser.until('return document.querySelector("[data-test=file]")?.dataset.state === "reading"')
    page.browser.run('document.querySelector("[data-test=stop]").focus()')
    press(page, 'stop')
    equal('states', page.states(), [['big.trc', 'stopped']])
    equal('focus', page.browser.run(FOCUS), 'again')
    until_workers(page, 0)


def case_a_folder_is_no_file(page, folder):
    (folder / 'a folder').mkdir(exist_ok=True)
    page.anew()
    page.drop(folder / 'a folder')
    page.browser.until('return document.querySelector("[data-test=notice]").textContent.startsWith("a folder is a folder")')
    equal('states', page.states(), [])
    page.drop(folder / 'a folder', ROOT / 'samples/small.trc')
    page.until_done()
    equal('states', page.states(), [['small.trc', 'accepted']])
    page.drop(ROOT / 'samples/small.trc')
    page.until_done(2)
    equal('notice', page.text('notice'), '')
    page.drop()
    equal('states', len(page.states()), 2)


def case_read_again_in_the_form_that_was_chosen(page, folder):
    big.write(folder / 'big.asc')
    page.anew()
    page.drop(folder / 'big.asc')
    page.until_done()
    equal('states', page.states(), [['big.asc', 'refused']])
    press(page, 'read-other')
    page.browser.until('return document.querySelector("[data-test=file]").dataset.state === "reading"')
    press(page, 'stop')
    press(page, 'again')
    page.until_done(seconds=120)
    equal('states', page.states(), [['big.asc', 'accepted']])


def case_a_refused_file_has_no_worker(page, folder):
    page.anew()
    page.drop(ROOT / 'samples/wrong-row.trc', ROOT / 'samples/small.trc')
    page.until_done(2)
    until_workers(page, 1)


def case_a_link_keeps_the_keyboard(page, folder):
    """The link of a file that turns out to be refused goes to the top, with the keyboard if it is there."""
    big.write(folder / 'big.trc')
    paths = [folder / 'big.trc', folder / 'big.trc', ROOT / 'samples/small.trc', ROOT / 'samples/wrong-row.trc']
    page.anew()
    page.drop(*paths)
    page.browser.until('return document.querySelectorAll("[data-test=link] a").length === arguments[0]', len(paths))
    page.browser.run('document.querySelectorAll("[data-test=link] a")[arguments[0]].focus()', len(paths) - 1)
    page.until_done(len(paths), seconds=120)
    page.browser.until('return document.querySelector("[data-test=link]").textContent.includes("refused")')
    equal('focus', page.browser.run('return document.activeElement.textContent'), 'wrong-row.trc')
