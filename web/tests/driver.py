"""A browser, driven over the WebDriver protocol by Python's own library."""
import base64
import http.client
import json
import shutil
import socket
import subprocess
import tempfile
import time

ELEMENT = 'element-6066-11e4-a52e-4f735466cecf'


class Browser:
    """Chromium without a window, with a profile of its own that is removed afterwards. Downloads go into a folder."""

    def __init__(self, downloads, size=(1280, 900)):
        self.profile = tempfile.mkdtemp(prefix='bushingowl-profile-')
        self.port = free_port()
        self.driver = subprocess.Popen(['chromedriver', f'--port={self.port}'], stdout=subprocess.DEVNULL, stderr=subprocess.DEVNULL)
        self.session = None
        words = ['--headless=new', '--no-sandbox', f'--user-data-dir={self.profile}', f'--window-size={size[0]},{size[1]}', '--disable-gpu',
                 '--disable-background-networking', '--no-first-run', '--disable-dev-shm-usage',
                 # The tests listen on this machine; that a page may ask there is not to be the browser's doing.
                 '--disable-features=LocalNetworkAccessChecks,BlockInsecurePrivateNetworkRequests']
        chrome = {'args': words, 'binary': shutil.which('chromium'),
                  'prefs': {'download.default_directory': str(downloads), 'download.prompt_for_download': False,
                            'profile.default_content_setting_values.automatic_downloads': 1}}
        wanted = {'browserName': 'chrome', 'goog:chromeOptions': chrome, 'goog:loggingPrefs': {'performance': 'ALL', 'browser': 'ALL'}}
        made = self.until_there(lambda: self.call('POST', '/session', {'capabilities': {'alwaysMatch': wanted}}))
        self.session = made['sessionId']
        self.cdp('Browser.setDownloadBehavior', behavior='allow', downloadPath=str(downloads))

    def until_there(self, attempt):
        for _ in range(100):
            try:
                return attempt()
            except OSError:
                time.sleep(0.1)
        return attempt()

    def call(self, method, path, body=None):
        where = f'/session/{self.session}{path}' if self.session else path
        connection = http.client.HTTPConnection('127.0.0.1', self.port, timeout=300)
        connection.request(method, where, json.dumps(body) if body is not None else None, {'Content-Type': 'application/json'})
        answer = json.loads(connection.getresponse().read())['value']
        connection.close()
        if isinstance(answer, dict) and 'error' in answer:
            raise RuntimeError(f'{answer["error"]}: {answer["message"]}')
        return answer

    def open(self, address):
        self.call('POST', '/url', {'url': address})

    def run(self, script, *given):
        """What a script returns that gets these words as arguments."""
        return self.call('POST', '/execute/sync', {'script': script, 'args': list(given)})

    def run_later(self, script, *given):
        """What a script hands to its last argument."""
        return self.call('POST', '/execute/async', {'script': script, 'args': list(given)})

    def cdp(self, command, **given):
        return self.call('POST', '/goog/cdp/execute', {'cmd': command, 'params': given})

    def find(self, selector):
        return self.call('POST', '/element', {'using': 'css selector', 'value': selector})[ELEMENT]

    def click(self, selector):
        self.call('POST', f'/element/{self.find(selector)}/click', {})

    def type_into(self, selector, keys):
        self.call('POST', f'/element/{self.find(selector)}/value', {'text': keys})

    def keys(self, keys):
        """Presses keys one after another, wherever the focus is."""
        strokes = [{'type': kind, 'value': key} for key in keys for kind in ('keyDown', 'keyUp')]
        self.call('POST', '/actions', {'actions': [{'type': 'key', 'id': 'keys', 'actions': strokes}]})

    def drop(self, paths, x=640, y=200):
        """Drops files on the page, as from a file manager."""
        data = {'items': [], 'files': [str(path) for path in paths], 'dragOperationsMask': 1}
        for kind in ('dragEnter', 'dragOver', 'drop'):
            self.cdp('Input.dispatchDragEvent', type=kind, x=x, y=y, data=data)

    def log(self, kind):
        return self.call('POST', '/se/log', {'type': kind})

    def screenshot(self, path):
        path.write_bytes(base64.b64decode(self.call('GET', '/screenshot')))

    def printed(self, path):
        """The page as it is printed on A4."""
        path.write_bytes(base64.b64decode(self.cdp('Page.printToPDF', paperWidth=8.27, paperHeight=11.69, printBackground=True)['data']))

    def theme(self, name):
        self.cdp('Emulation.setEmulatedMedia', features=[{'name': 'prefers-color-scheme', 'value': name}])

    def size(self, width, height):
        self.cdp('Emulation.setDeviceMetricsOverride', width=width, height=height, deviceScaleFactor=1, mobile=False)

    def until(self, script, *given, seconds=60):
        """Waits until a script returns something true, and returns it."""
        end = time.monotonic() + seconds
        while True:
            found = self.run(script, *given)
            if found:
                return found
            if time.monotonic() > end:
                raise RuntimeError(f'it did not come true within {seconds} s: {script} {given}')
            time.sleep(0.02)

    def end(self):
        try:
            self.call('DELETE', '')
        finally:
            self.driver.terminate()
            self.driver.wait()
            shutil.rmtree(self.profile, ignore_errors=True)


def free_port():
    with socket.socket() as taken:
        taken.bind(('127.0.0.1', 0))
        return taken.getsockname()[1]
