"""Firefox without a window, driven over its Marionette protocol by Python's own library, with a profile of its own."""
import json
import shutil
import socket
import subprocess
import tempfile
import time
from pathlib import Path

from driver import free_port


class Firefox:
    def __init__(self, downloads):
        self.profile = tempfile.mkdtemp(prefix='bushingowl-profile-')
        port = free_port()
        wanted = {'marionette.port': port, 'browser.download.folderList': 2, 'browser.download.dir': str(downloads),
                  'browser.download.always_ask_before_handling_new_types': False, 'datareporting.policy.dataSubmissionEnabled': False}
        Path(self.profile, 'user.js').write_text(''.join(f'user_pref({json.dumps(name)}, {json.dumps(value)});\n' for name, value in wanted.items()))
        self.process = subprocess.Popen(['firefox-esr', '--headless', '--marionette', '--no-remote', '-profile', self.profile],
                                        stdout=subprocess.DEVNULL, stderr=subprocess.DEVNULL)
        self.link = self.until_there(port)
        self.said, self.asked = b'', 0
        self.answer()
        self.call('WebDriver:NewSession', capabilities={})

    def until_there(self, port):
        for _ in range(300):
            try:
                return socket.create_connection(('127.0.0.1', port), timeout=120)
            except OSError:
                time.sleep(0.1)
        raise RuntimeError('Firefox does not listen')

    def answer(self):
        while b':' not in self.said:
            self.said += self.link.recv(65536)
        length, self.said = self.said.split(b':', 1)
        while len(self.said) < int(length):
            self.said += self.link.recv(65536)
        answer, self.said = self.said[:int(length)], self.said[int(length):]
        return json.loads(answer)

    def call(self, command, **given):
        self.asked += 1
        words = json.dumps([0, self.asked, command, given]).encode()
        self.link.sendall(b'%d:%s' % (len(words), words))
        _, _, error, value = self.answer()
        if error:
            raise RuntimeError(f'{error["error"]}: {error["message"]}')
        return value

    def open(self, address):
        self.call('WebDriver:Navigate', url=address)

    def run(self, script, *given):
        return self.call('WebDriver:ExecuteScript', script=script, args=list(given))['value']

    def find(self, selector):
        return [*self.call('WebDriver:FindElement', using='css selector', value=selector)['value'].values()][0]

    def type_into(self, selector, keys):
        self.call('WebDriver:ElementSendKeys', id=self.find(selector), text=keys)

    def click(self, selector):
        self.call('WebDriver:ElementClick', id=self.find(selector))

    def end(self):
        self.process.terminate()
        self.process.wait()
        shutil.rmtree(self.profile, ignore_errors=True)
