"""The page in Firefox: it is ready from a file, its worker and its library run under its policy, samples are judged as by owl, and files are made."""
import time

from check_files import equal
from firefox import Firefox
from page import PAGE, DONE
from said import ROOT, Said

SAMPLES = ['dosing.trc', 'edited.asc', 'version-11.trc', 'wrong-row.trc', 'no-such-date.asc', 'cut-off.trc']
STATE = 'return document.querySelector("[data-test=file]")?.dataset.state'
TEXT = 'return document.querySelector(`[data-test="${arguments[0]}"]`)?.textContent ?? ""'


def cases(room):
    yield 'samples', lambda page: samples(room)


def samples(room):
    downloads = room / 'firefox'
    downloads.mkdir()
    firefox = Firefox(downloads)
    try:
        for name in SAMPLES:
            firefox.open(PAGE.as_uri())
            until(lambda: firefox.run('return document.documentElement.dataset.ready === "yes"'))
            firefox.type_into('[data-test=choose]', str(ROOT / 'samples' / name))
            until(lambda: firefox.run(STATE) in DONE)
            check(firefox, Said(ROOT / 'samples' / name), downloads)
    finally:
        firefox.end()


def check(firefox, said, downloads):
    name = said.path.name
    equal(f'{name}, state', firefox.run(STATE), 'accepted' if said.accepted else 'refused')
    if not said.accepted:
        equal(f'{name}, words', firefox.run(TEXT, 'words'), said.check['reason'])
        equal(f'{name}, why', firefox.run(TEXT, 'why'), said.why())
        return
    equal(f'{name}, rows', firefox.run(TEXT, 'fact-rows'), f'{len(said.rows()):,}')
    until(lambda: firefox.run(TEXT, 'cursor').startswith('Row '))
    for what, made in said.outputs().items():
        if made is None:
            continue
        firefox.click(f'[data-test=make-{what}]')
        file = downloads / made[0]
        until(lambda: file.exists() and file.stat().st_size == len(made[1]) and not file.with_name(f'{file.name}.part').exists())
        equal(f'{name}, {what}', file.read_bytes(), made[1])
        file.unlink()


def until(holds):
    end = time.monotonic() + 30
    while not holds():
        assert time.monotonic() < end, 'it did not come true within 30 s'
        time.sleep(0.05)
