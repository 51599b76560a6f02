"""Headless Chromium, driven by its debugging pipe: a page is opened and asked, the mouse moved, keys pressed."""

import base64
import fcntl
import json
import os
import select
import shutil
import subprocess
import time

NAMES = ('chromium', 'chromium-browser', 'google-chrome')
READS, WRITES = 3, 4  # the numbers of the pipes that Chromium reads from and writes to
KEYS = {'Enter': (13, '\r'), 'Escape': (27, '')}


class Failed(Exception):
    """The browser did not do what it was told."""


def find():
    """The program's name, or None where no browser is there."""
    return next((name for name in NAMES if shutil.which(name)), None)


class Browser:
    def __init__(self, program, folder, seconds=60, size=(1400, 900)):
        self.seconds, self.calls, self.kept = seconds, 0, b''
        theirs_in, ours_out = os.pipe()
        ours_in, theirs_out = os.pipe()
        ends = [fcntl.fcntl(end, fcntl.F_DUPFD, 10) for end in (theirs_in, theirs_out)]  # clear of 3 and 4
        words = [program, '--headless', '--disable-gpu', '--remote-debugging-pipe', f'--user-data-dir={folder}',
                 '--window-size=%d,%d' % size] + ['--no-sandbox'] * (os.geteuid() == 0) + ['about:blank']
        self.process = subprocess.Popen(
            ['bash', '-c', f'exec "$@" {READS}<&{ends[0]} {WRITES}>&{ends[1]}', '-', *words], pass_fds=ends,
            stdin=subprocess.DEVNULL, stdout=subprocess.DEVNULL, stderr=subprocess.DEVNULL)
        for end in (theirs_in, theirs_out, *ends):
            os.close(end)
        self.reads, self.writes, self.session = ours_in, ours_out, None
        target = self.call('Target.createTarget', url='about:blank')['targetId']
        self.session = self.call('Target.attachToTarget', targetId=target, flatten=True)['sessionId']
        for part in ('Page', 'Runtime'):
            self.call(f'{part}.enable')

    def __enter__(self):
        return self

    def __exit__(self, *_):
        self.process.terminate()
        self.process.wait(self.seconds)
        os.close(self.reads)
        os.close(self.writes)

    def message(self, until):
        """The next that it says."""
        while b'\0' not in self.kept:
            if not select.select([self.reads], [], [], max(0, until - time.monotonic()))[0]:
                raise Failed('it does not answer')
            more = os.read(self.reads, 1 << 16)
            if not more:
                raise Failed('it has ended')
            self.kept += more
        said, _, self.kept = self.kept.partition(b'\0')
        return json.loads(said)

    def call(self, method, awaited=None, **words):
        """Has it do something, and waits for the answer or for an event by that name."""
        self.calls += 1
        asked = {'id': self.calls, 'method': method, 'params': words}
        asked |= {'sessionId': self.session} if self.session else {}
        os.write(self.writes, json.dumps(asked).encode() + b'\0')
        until, answer, seen = time.monotonic() + self.seconds, None, awaited is None
        while answer is None or not seen:
            said = self.message(until)
            seen = seen or said.get('method') == awaited
            if said.get('id') == self.calls:
                answer = said
        if 'error' in answer:
            raise Failed(f'{method}: {answer["error"]["message"]}')
        return answer['result']

    def open(self, address):
        """By way of an empty page, so that an address that differs only behind its # is loaded anew."""
        for place in ('about:blank', address):
            self.call('Page.navigate', awaited='Page.loadEventFired', url=place)

    def ask(self, script):
        """What a script on the page answers."""
        done = self.call('Runtime.evaluate', expression=script, returnByValue=True, awaitPromise=True)
        if 'exceptionDetails' in done:
            raise Failed(done['exceptionDetails'].get('exception', {}).get('description', 'the script failed'))
        return done['result'].get('value')

    def move(self, x, y):
        self.call('Input.dispatchMouseEvent', type='mouseMoved', x=x, y=y)

    def click(self, x, y):
        self.move(x, y)
        for kind in ('mousePressed', 'mouseReleased'):
            self.call('Input.dispatchMouseEvent', type=kind, x=x, y=y, button='left', clickCount=1)

    def type(self, text):
        self.call('Input.insertText', text=text)

    def press(self, key):
        code, text = KEYS[key]
        for kind in ('keyDown', 'keyUp'):
            self.call('Input.dispatchKeyEvent', type=kind, key=key, code=key, windowsVirtualKeyCode=code, text=text)

    def photograph(self, path):
        with open(path, 'wb') as file:
            file.write(base64.b64decode(self.call('Page.captureScreenshot', format='png')['data']))
