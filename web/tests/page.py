"""The bench page in a browser: files given to it, and what it shows."""
import time
from pathlib import Path

PAGE = Path(__file__).resolve().parent.parent / 'bushingowl.html'
DONE = ('accepted', 'refused', 'failed')


class Page:
    def __init__(self, browser):
        self.browser = browser
        self.anew()

    def anew(self):
        self.browser.open(PAGE.as_uri())
        # Behind another window nothing is laid out.
        self.browser.cdp('Page.bringToFront')
        self.browser.until('return document.documentElement.dataset.ready === "yes"')

    def drop(self, *paths):
        self.browser.drop(paths)

    def choose(self, *paths):
        """By the button, as opposed to dropping."""
        self.browser.type_into('[data-test=choose]', '\n'.join(str(path) for path in paths))

    def states(self):
        """Each file's name and state, as they stand on the page."""
        return self.browser.run('return [...document.querySelectorAll("[data-test=file]")].map((file) => [file.dataset.name, file.dataset.state])')

    def until_done(self, count=1, seconds=60):
        script = '''const states = [...document.querySelectorAll("[data-test=file]")].map((file) => file.dataset.state);
            return states.length === arguments[0] && states.every((state) => arguments[1].includes(state)) && states.join(" ")'''
        return self.browser.until(script, count, DONE, seconds=seconds)

    def text(self, hook):
        """What stands at a hook; nothing where there is no such one."""
        return self.browser.run('return document.querySelector(`[data-test="${arguments[0]}"]`)?.textContent ?? ""', hook)

    def is_there(self, hook):
        return self.browser.run('return document.querySelector(`[data-test="${arguments[0]}"]`) !== null', hook)

    def click(self, hook):
        self.browser.click(f'[data-test="{hook}"]')

    def enter(self, hook, keys):
        self.browser.run('const field = document.querySelector(`[data-test="${arguments[0]}"]`); field.value = ""; field.focus()', hook)
        self.browser.type_into(f'[data-test="{hook}"]', keys)

    def rows(self):
        """The rows of the list that are in the page, by their positions: the words of each cell."""
        script = '''return [...document.querySelectorAll('[data-test="row"]')].filter((row) => !row.hidden && row.dataset.index !== undefined)
            .map((row) => [Number(row.dataset.index), [...row.children].map((cell) => cell.textContent.trim())])'''
        return {index: cells for index, cells in self.browser.run(script)}

    def until_row(self, index):
        return self.browser.until('''const row = document.querySelector(`[data-test="row"][data-index="${arguments[0]}"]`);
            return row && row.textContent.trim() !== "" && [...row.children].map((cell) => cell.textContent.trim())''', index)

    def download(self, hook, folder):
        """Presses a button, and returns name and bytes of the file that comes; or what is said, where none comes."""
        folder.mkdir()
        self.browser.cdp('Browser.setDownloadBehavior', behavior='allow', downloadPath=str(folder))
        self.click(hook)
        end = time.monotonic() + 60
        while time.monotonic() < end:
            whole = [file for file in folder.iterdir() if file.suffix != '.crdownload' and not file.name.startswith('.')]
            if whole and not any(file.suffix == '.crdownload' for file in folder.iterdir()):
                return whole[0].name, whole[0].read_bytes()
            said = self.text('made')
            if 'refus' in said:
                return None, said
            time.sleep(0.02)
        raise RuntimeError(f'{hook}: nothing came')
