"""The page's looks, to be looked at: both themes, a small screen, and the sheet that is printed. What a program can see is checked: nothing runs over the width,
and each file is printed on one sheet."""
import re
import time

from check_files import equal
from said import ROOT

SHOTS = ROOT / 'target/web/shots'
SIZES = {'wide': (1280, 900), 'small': (360, 740)}
FILES = {'accepted': 'dosing.trc', 'refused': 'wrong-row.trc', 'ascii': 'no-such-date.asc', 'steps': 'selection.trc'}


def cases(room):
    SHOTS.mkdir(parents=True, exist_ok=True)
    for name, file in FILES.items():
        yield name, lambda page, name=name, file=file: looks(page, name, file)


def check_sheet(page):
    """Nothing stands on paper that can only be pressed, typed into or scrolled."""
    page.browser.cdp('Emulation.setEmulatedMedia', media='print')
    left = page.browser.run('return [...document.querySelectorAll("button:not(.opener), input, select, progress, summary, .list, .help")]'
                            '.filter((one) => one.checkVisibility()).map((one) => one.textContent || one.tagName)')
    page.browser.cdp('Emulation.setEmulatedMedia', media='')
    equal('on paper', left, [])


def looks(page, name, file):
    page.anew()
    page.drop(ROOT / 'samples' / file)
    page.until_done()
    for theme in ('light', 'dark'):
        page.browser.theme(theme)
        for size, (width, height) in SIZES.items():
            page.browser.size(width, height)
            time.sleep(0.4)
            over = page.browser.run('return document.documentElement.scrollWidth - document.documentElement.clientWidth')
            equal(f'{theme}, {size}: what runs over the width', over, 0)
            whole = page.browser.run('return document.documentElement.scrollHeight')
            page.browser.size(width, min(whole, 6000))
            time.sleep(0.4)
            page.browser.screenshot(SHOTS / f'{name}-{theme}-{size}.png')
        page.browser.size(*SIZES['wide'])
        check_sheet(page)
        page.browser.printed(SHOTS / f'{name}-{theme}.pdf')
        pages = len(re.findall(rb'/Type\s*/Page\b(?!s)', (SHOTS / f'{name}-{theme}.pdf').read_bytes()))
        equal(f'{theme}: sheets', pages, 1)
