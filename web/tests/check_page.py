"""What is promised of the page besides its answers: several files, large ones, stopping, files that vanish, the keyboard."""
import json
import os
import time

import big
import check_access
import check_desk
import check_list
import check_picture
import check_requests
from check_files import equal
from files import rows
from said import ROOT, Said, made, owl


# What is told of how far a file has come, from its first moment on.
FAR = '''window.far = [];
new MutationObserver(() => {
  const told = document.querySelector('[data-test="progress"]')?.textContent;
  if (told && told !== window.far.at(-1)) window.far.push(told);
}).observe(document.getElementById("files"), { subtree: true, childList: true, characterData: true });'''
BARS = 'return [...document.querySelectorAll("progress")].filter((one) => one.checkVisibility()).length'


def cases(room):
    folder = room / 'page'
    folder.mkdir()
    named = {name: case for name, case in globals().items() if name.startswith('case_')}
    for name, case in named.items():
        yield name[5:].replace('_', ' '), lambda page, case=case: case(page, folder)
    for module in (check_desk, check_list, check_picture, check_access, check_requests):
        yield from module.cases(folder)


def sample(name):
    return ROOT / 'samples' / name


def case_two_files(page, folder):
    page.anew()
    page.drop(sample('small.trc'), sample('wrong-row.trc'))
    page.until_done(2)
    equal('states', page.states(), [['small.trc', 'accepted'], ['wrong-row.trc', 'refused']])
    # What is told of all files together comes a moment later.
    page.browser.until('return !document.title.includes("at work")')
    equal('title', page.browser.run('return document.title').split(' - ')[0], '2 files: 1 refused')
    links = page.text('links')
    assert 'small.trc' in links and 'wrong-row.trc' in links, links


def case_chosen_by_the_button(page, folder):
    page.anew()
    page.choose(sample('small.trc'), sample('edited.asc'))
    page.until_done(2)
    equal('states', [state for _, state in page.states()], ['accepted', 'accepted'])


def case_two_hundred_files(page, folder):
    paths = []
    for number in range(200):
        paths.append(folder / f'many-{number:03}.trc')
        paths[-1].write_bytes(rows(11, b'1) 0.1 Rx 0001 1 %02X' % number if number % 10 else b'1) 0.1 Rx'))
    page.anew()
    page.drop(*paths)
    states = page.until_done(200, seconds=120).split()
    equal('refused', states.count('refused'), 20)
    equal('accepted', states.count('accepted'), 180)


def case_a_hundred_megabytes(page, folder):
    """Read while the page stays alive; the list reaches its last row; what is found is what is there."""
    path = folder / 'big.trc'
    big.write(path)
    said = json.loads(owl('check', '--json', str(path)).stdout.splitlines()[0])
    page.anew()
    page.browser.run('''window.longest = 0; let last = performance.now();
        const step = () => { const now = performance.now(); window.longest = Math.max(window.longest, now - last); last = now; setTimeout(step, 0); }; step();''')
    began = time.monotonic()
    page.drop(path)
    page.until_done(seconds=120)
    took = time.monotonic() - began
    equal('rows', page.text('fact-rows'), f'{said["rows"]:,}')
    equal('first step back', page.text('fact-first-step-back').split(',')[0], f'row {said["first_step_back"]}')
    longest = page.browser.run('return window.longest')
    assert longest < 500, f'the page stood still for {longest:.0f} ms'
    print(f'{path.stat().st_size:,} bytes, {said["rows"]:,} rows: {took:.1f} s; the page never stood still for more than {longest:.0f} ms')
    check_long_list(page, said['rows'])


def check_long_list(page, count):
    page.browser.run('document.querySelector(\'[data-test="list"]\').focus()')
    page.browser.keys('\ue010')  # End
    last = page.until_row(count - 1)
    equal('number of the last row', last[0], str(count))
    for line in (3, 700_000, 1_000_000):
        page.enter('find-line', str(line))
        page.click('find-go')
        page.browser.until('return document.querySelector(\'[data-test="find-said"]\').textContent.includes(arguments[0])', f'line {line} ')
        index = big.row_at_or_behind(line)
        equal(f'row at line {line}', page.until_row(index)[0], str(index + 1))
    page.enter('find-id', big.SELDOM)
    page.click('find-next')
    index = big.SELDOM_AT
    equal('ID', page.until_row(index)[6], big.SELDOM)


def case_above_the_limit(page, folder):
    path = folder / 'above.trc'
    with path.open('wb') as file:
        file.write(rows(12))
        file.truncate(134_217_729)
    said = Said(path)
    page.anew()
    page.drop(path)
    page.until_done()
    equal('words', page.text('words'), said.check['reason'])
    equal('remedy', page.text('remedy'), said.remedy())
    equal('refusal', said.check['refusal'], 1)
    path.unlink()


def case_stopped_and_read_again(page, folder):
    path = folder / 'big.trc'
    big.write(path)
    page.anew()
    page.drop(path)
    page.browser.until('return document.querySelector("[data-test=stop]") !== null')
    page.browser.run('document.querySelector("[data-test=stop]").click()')
    time.sleep(2)
    equal('states', page.states(), [['big.trc', 'stopped']])
    assert not page.is_there('fact-rows') and not page.is_there('words')
    page.browser.run('[...document.querySelectorAll("[data-test=file] button")].find((one) => /again/i.test(one.textContent)).click()')
    page.until_done(seconds=120)
    equal('states', page.states(), [['big.trc', 'accepted']])


def case_removed_before_it_is_read(page, folder):
    """It waits behind two large ones; when its turn comes, it is gone."""
    paths = [folder / 'big.trc', folder / 'big-2.trc', folder / 'gone.trc']
    for path in paths[:2]:
        big.write(path)
    paths[2].write_bytes(rows(12))
    page.anew()
    page.drop(*paths)
    paths[2].unlink()
    page.until_done(3, seconds=120)
    equal('states', [state for _, state in page.states()], ['accepted', 'accepted', 'failed'])
    check_nothing_of(page, 'gone.trc')


def case_cut_off_while_it_is_read(page, folder):
    check_meanwhile(page, folder / 'cut.trc', lambda path: os.truncate(path, path.stat().st_size // 2))


def case_removed_while_it_is_read(page, folder):
    check_meanwhile(page, folder / 'removed.trc', os.unlink)


def check_meanwhile(page, path, deed):
    """Half a file is never taken for a whole one: whatever is done to it while it is read, it is read whole, or that it could not be is said."""
    seen = set()
    for attempt in range(5):
        big.write(path)
        page.anew()
        page.drop(path)
        time.sleep(0.04 * attempt)
        deed(path)
        page.until_done(seconds=120)
        [[_, state]] = page.states()
        seen.add(state)
        if state == 'failed':
            check_nothing_of(page, path.name)
        else:
            equal('state', state, 'accepted')
            equal('rows', page.text('fact-rows'), f'{big.ROWS:,}')
    assert 'failed' in seen, 'it was read each time before anything was done to it'


def check_nothing_of(page, name):
    """A file that could not be read shows why, and nothing else."""
    script = '''const file = document.querySelector(`[data-test="file"][data-name="${arguments[0]}"]`);
        return [file.textContent, file.querySelectorAll('[data-test="fact-rows"], [data-test="words"], [data-test="make-csv"]').length]'''
    text, answers = page.browser.run(script, name)
    equal('answers of a file that could not be read', answers, 0)
    assert 'the file could not be read to its end' in text, text


def case_how_far_it_has_come(page, folder):
    """It is told while a file is read, and rises; behind that nothing is told any more, nor behind a file that was made."""
    path = folder / 'big.trc'
    big.write(path)
    page.anew()
    page.browser.run(FAR)
    page.drop(path)
    page.until_done(seconds=120)
    told = page.browser.run('return window.far')
    doing = list(dict.fromkeys(words.split(' ', 1)[0] for words in told))
    equal('what is done', doing, ['waiting', 'reading', 'judging', 'looking'])
    for word in ('reading', 'looking'):
        parts = [int(words.split()[-2]) for words in told if words.startswith(word)]
        assert parts == sorted(parts) and len(set(parts)) > 5, parts
    equal('bars', page.browser.run(BARS), 0)
    page.download('make-csv', folder / 'far')
    page.browser.until('return document.querySelector("[data-test=made]").textContent.includes("rows")')
    equal('bars', page.browser.run(BARS), 0)


def case_the_other_form(page, folder):
    path = folder / 'a-trace.asc'
    path.write_bytes(sample('small.trc').read_bytes())
    page.anew()
    page.drop(path)
    page.until_done()
    equal('states', page.states(), [['a-trace.asc', 'refused']])
    page.click('read-other')
    page.browser.until('return document.querySelector("[data-test=file]").dataset.state === "accepted"')
    equal('rows', page.text('fact-rows'), '3')


def case_the_other_version(page, folder):
    """The house spelling in a version that can't carry the records: the reason is that of owl."""
    for name, version in (('small.trc', '1.1'), ('version-11.trc', '1.2')):
        page.anew()
        page.drop(sample(name))
        page.until_done()
        page.browser.run('''const choice = document.querySelector('[data-test="version"]'); choice.value = arguments[0];
            choice.dispatchEvent(new Event("change"))''', version.replace('.', ''))
        _, words = page.download('make-house', folder / f'other-{name}')
        refused = json.loads(owl('write', '--json', '--version', version, '-o', str(folder), str(sample(name))).stdout.splitlines()[0])
        equal('words', words.split(': ', 1)[1], f'{refused["reason"]}: {refused["detail"]}')


def case_the_channel(page, folder):
    page.anew()
    page.drop(sample('version-11.trc'))
    page.until_done()
    page.browser.run('const choice = document.querySelector(\'[data-test="channel"]\'); choice.value = "7"; choice.dispatchEvent(new Event("change"))')
    _, lines = page.download('make-ascii', folder / 'channel')
    equal('lines of channel 7', lines, made('convert', '--channel', '7', sample('version-11.trc'))[1])


def case_a_name_is_only_a_name(page, folder):
    path = folder / '<img src=x onerror=alert(1)>.trc'
    path.write_bytes(rows(11))
    page.anew()
    page.drop(path)
    page.until_done()
    equal('states', page.states(), [[path.name, 'accepted']])
    equal('images', page.browser.run('return document.images.length'), 0)


def case_a_name_that_turns_round(page, folder):
    """A name with a mark that would show `gpj.trc` as `crt.jpg`: it is seen to be there, wherever the name stands, and the file that is made is named."""
    path = folder / 'rtl\u202egpj.trc'
    path.write_bytes(rows(11))
    (folder / 'turned\u202efolder').mkdir()
    page.anew()
    page.drop(path, sample('small.trc'), folder / 'turned\u202efolder')
    page.until_done(2)
    page.browser.until('return document.querySelectorAll("[data-test=link]").length === 2')
    page.browser.run('document.querySelector("[data-test=open]").click()')
    page.click('make-csv')
    page.browser.until('return document.querySelector("[data-test=made]").textContent.includes("rows")')
    equal('letters that turn round', page.browser.run('return document.body.innerText.includes("\\u202e")'), False)
    for hook in ('open', 'links', 'made', 'make-house', 'notice'):
        assert '\\u202E' in page.text(hook), (hook, page.text(hook))


def case_by_keyboard_alone(page, folder):
    """From the top by the tabulator: every control is reached; the cursor moves, and its row is shown in the list; a row is found."""
    page.anew()
    page.choose(sample('dosing.trc'))
    page.until_done()
    page.browser.run('document.activeElement.blur(); window.scrollTo(0, 0)')
    reached = []
    for _ in range(60):
        page.browser.keys('\ue004')
        hook = page.browser.run('return document.activeElement.dataset.test ?? document.activeElement.tagName')
        if hook == 'BODY':
            break
        reached.append(hook)
        if hook == 'plot':
            check_cursor(page)
        if hook == 'find-id':
            page.browser.keys('05fb\ue007')
            page.browser.until('return document.querySelector(\'[data-test="find-said"]\').textContent.startsWith("row ")')
    wanted = {'choose', 'make-ascii', 'make-house', 'make-csv', 'plot', 'find-id', 'find-line', 'list'}
    equal('what is not reached', sorted(wanted - set(reached)), [])


def check_cursor(page):
    page.browser.keys('\ue011')  # Home
    first = page.browser.until('return document.querySelector(\'[data-test="cursor"]\').textContent')
    page.browser.keys('\ue014')  # to the right
    page.browser.until('return document.querySelector(\'[data-test="cursor"]\').textContent !== arguments[0]', first)
