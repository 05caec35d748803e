#!/usr/bin/env python3
"""Tries web/viewer/index.html in a headless Chromium of Debian's packages, and takes screenshots to look at.

    tools/compare/watch_the_viewer.py FILMS SHOTS [CHROMIUM]

FILMS is a folder with the films that tools/compare/open_what_look_writes.sh makes in the folder that it is given. The files are
dropped on the page as a user drops them. Each frame that is checked is read from the film by this program and compared
with the dots of the page. SHOTS is where the screenshots go. An error on the page's console fails it, and so does any
request that is not for a local file. The status is 1 where a check failed.
"""
import base64
import json
import os
import subprocess
import sys
import tempfile
import time

FRAME = 244736


class Browser:
    """A Chromium that is told what to do through a pipe."""

    def __init__(self, program, folder):
        down, self.down = os.pipe()
        self.up, up = os.pipe()
        # Chromium reads its commands from 3 and answers to 4.
        words = [
            program, '--headless=new', '--no-sandbox', '--disable-gpu', '--remote-debugging-pipe',
            '--user-data-dir=' + folder, '--window-size=1640,1100', '--autoplay-policy=no-user-gesture-required',
            '--no-first-run', '--disable-background-networking', '--disable-component-update', 'about:blank',
        ]

        def place():
            high = [os.dup2(down, 100), os.dup2(up, 101)]
            for target, source in zip((3, 4), high):
                os.dup2(source, target, inheritable=True)

        self.process = subprocess.Popen(words, preexec_fn=place, close_fds=False, stderr=subprocess.DEVNULL,
                                        stdout=subprocess.DEVNULL)
        os.close(down)
        os.close(up)
        self.rest = b''
        self.number = 0
        self.session = None
        self.errors = []
        self.requests = []

    def message(self):
        while b'\0' not in self.rest:
            part = os.read(self.up, 1 << 20)
            if not part:
                raise EOFError('the browser is gone')
            self.rest += part
        one, self.rest = self.rest.split(b'\0', 1)
        return json.loads(one)

    def note(self, message):
        method, given = message.get('method'), message.get('params', {})
        if method == 'Runtime.exceptionThrown':
            self.errors.append(given['exceptionDetails'].get('exception', {}).get('description', 'an exception'))
        elif method == 'Runtime.consoleAPICalled' and given['type'] in ('error', 'warning', 'assert'):
            self.errors.append(' '.join(str(one.get('value')) for one in given['args']))
        elif method == 'Log.entryAdded' and given['entry']['level'] == 'error':
            self.errors.append(given['entry']['text'])
        elif method == 'Network.requestWillBeSent':
            self.requests.append(given['request']['url'])

    def do(self, method, **given):
        self.number += 1
        command = {'id': self.number, 'method': method, 'params': given}
        if self.session:
            command['sessionId'] = self.session
        os.write(self.down, json.dumps(command).encode() + b'\0')
        while True:
            message = self.message()
            if message.get('id') == self.number:
                if 'error' in message:
                    raise RuntimeError(f"{method}: {message['error']}")
                return message['result']
            self.note(message)

    def value(self, text):
        answer = self.do('Runtime.evaluate', expression=text, returnByValue=True, awaitPromise=True)
        if 'exceptionDetails' in answer:
            raise RuntimeError(f'{text}: {answer["exceptionDetails"]}')
        return answer['result'].get('value')

    def until(self, text, seconds=20):
        end = time.time() + seconds
        while time.time() < end:
            if self.value(text):
                return True
            time.sleep(.05)
        return False

    def drop(self, *names):
        dragged = {'items': [], 'files': [os.path.abspath(name) for name in names], 'dragOperationsMask': 1}
        for kind in ('dragEnter', 'dragOver', 'drop'):
            self.do('Input.dispatchDragEvent', type=kind, x=300, y=300, data=dragged)

    def shot(self, name):
        with open(name, 'wb') as file:
            file.write(base64.b64decode(self.do('Page.captureScreenshot', format='png')['data']))


class Checks:
    def __init__(self):
        self.passed = self.failed = 0

    def same(self, what, found, wanted):
        if found == wanted:
            self.passed += 1
            print(f'ok      {what}: {str(found)[:100]}')
        else:
            self.failed += 1
            print(f'FAILED  {what}: {str(found)[:300]}, not {str(wanted)[:300]}')


def dots_of(name, number):
    """The colours of a frame as the page shows them: a sum over all of them and some dots."""
    with open(name, 'rb') as file:
        file.seek(number * FRAME)
        frame = file.read(FRAME)
    total, some = 0, []
    for at in range(239 * 512):
        dot = frame[2 * at] | frame[2 * at + 1] << 8
        colour = [(c << 3 | c >> 2) for c in (dot & 31, dot >> 5 & 31, dot >> 10 & 31)]
        value = colour[0] | colour[1] << 8 | colour[2] << 16
        total = (31 * total + value) % 2147483647
        if at % 10007 == 0:
            some.append(value)
    return [total, some]


DOTS = '''(() => {
  const data = document.getElementById('%s').getContext('2d').getImageData(0, 0, 512, 478).data;
  let total = 0;
  const some = [];
  for (let at = 0; at < 239 * 512; at++) {
    const upper = 4 * (2 * (at - at %% 512) + at %% 512), lower = upper + 4 * 512;
    const value = data[upper] | data[upper + 1] << 8 | data[upper + 2] << 16;
    if (value !== (data[lower] | data[lower + 1] << 8 | data[lower + 2] << 16)) return 'rows differ';
    total = (31 * total + value) %% 2147483647;
    if (at %% 10007 === 0) some.push(value);
  }
  return [total, some];
})()'''


def go_to(browser, number):
    browser.value(f"(() => {{ const n = document.getElementById('number'); n.value = {number}; n.onchange({{ target: n }}); }})()")
    return browser.until(f'viewer.state.shown === {number} && !viewer.state.busy')


def try_page(browser, films, shots, checks):
    at = lambda name: os.path.join(films, name)
    shot = lambda name: browser.shot(os.path.join(shots, name))
    browser.drop(at('scene.video'), at('scene.audio'))
    checks.same('the scene is open', browser.until('viewer.films[0] && viewer.state.shown === 0'), True)
    checks.same('what is said', browser.value("document.getElementById('status').textContent"),
                'scene.video and scene.audio: 300 frames of ntsc, 159737 samples')
    checks.same('frame 0', browser.value(DOTS % 'first'), dots_of(at('scene.video'), 0))
    shot('scene_0.png')
    checks.same('go to 299', go_to(browser, 299), True)
    checks.same('frame 299', browser.value(DOTS % 'first'), dots_of(at('scene.video'), 299))
    shot('scene_299.png')
    browser.value("document.getElementById('back').click()")
    checks.same('a step back', browser.until('viewer.state.shown === 298'), True)
    checks.same('frame 298', browser.value(DOTS % 'first'), dots_of(at('scene.video'), 298))
    browser.value("document.getElementById('on').click()")
    checks.same('a step on', browser.until('viewer.state.shown === 299'), True)
    browser.value("document.getElementById('save').click()")
    checks.same('the frame is saved as PNG', browser.until('viewer.state.saved > 1000'), True)
    checks.same('go to 60', go_to(browser, 60), True)
    browser.value("document.getElementById('play').click()")
    checks.same('it plays', browser.until('viewer.state.playing && viewer.state.shown > 80'), True)
    browser.value("document.getElementById('play').click()")
    stopped = browser.value('viewer.state.frame')
    time.sleep(.4)
    checks.same('it pauses', browser.value('viewer.state.frame') - stopped < 2 and not browser.value('viewer.state.playing'), True)
    browser.value("(() => { const z = document.getElementById('zoom'); z.value = '2'; z.onchange(); })()")
    checks.same('zoom', browser.value("document.getElementById('first').getBoundingClientRect().width"), 1024)
    shot('zoomed.png')
    browser.value("(() => { const z = document.getElementById('zoom'); z.value = '1'; z.onchange(); })()")

    browser.value("document.getElementById('clear').click()")
    browser.drop(at('demo.video'), at('demo.audio'))
    checks.same('the demo is open', browser.until("viewer.films[0] && viewer.films[0].name.startsWith('demo') && viewer.state.shown === 0"), True)
    browser.drop(at('dot.video'))
    checks.same('a second film is open', browser.until('viewer.films[1] && viewer.state.shown === 0'), True)
    checks.same('frame 0 is alike', browser.value("document.getElementById('marksName').textContent"), 'alike')
    browser.value("document.getElementById('apart').click()")
    checks.same('the next difference', browser.until('viewer.state.shown === 3'), True)
    checks.same('where it is', browser.value("document.getElementById('marksName').textContent"),
                '1 dot differs, the first in row 100, dot 31')
    checks.same('the second film', browser.value(DOTS % 'second'), dots_of(at('dot.video'), 3))
    shot('two_films.png')

    browser.value("document.getElementById('clear').click()")
    browser.drop(at('pal.avi'))
    checks.same('the AVI is open', browser.until("viewer.films[0] && viewer.films[0].name === 'pal.avi' && viewer.state.shown === 0"), True)
    checks.same('what is said', browser.value("document.getElementById('status').textContent"),
                'pal.avi: 60 frames of pal, 38394 samples')
    checks.same('go to 59', go_to(browser, 59), True)
    checks.same('frame 59 of the AVI', browser.value(DOTS % 'first'), dots_of(at('pal.video'), 59))
    with open(at('pal.audio'), 'rb') as file:
        file.seek(4 * 20000)
        wanted = [int.from_bytes(file.read(2), 'little', signed=True) for _ in range(2000)]
    checks.same('samples of the AVI', browser.value("viewer.films[0].sound(20000, 21000).then(sound => [...sound])"), wanted)
    shot('avi.png')

    browser.value("document.getElementById('clear').click()")
    browser.drop(at('cut.video'))
    checks.same('a cut film is told', browser.until("document.getElementById('status').textContent.includes('cut.video is cut')"), True)
    browser.value("document.getElementById('clear').click()")
    browser.drop(at('none.video'), at('none.audio'))
    checks.same('a film of no frames', browser.until("document.getElementById('status').textContent.includes('0 frames')"), True)
    shot('no_frames.png')


def main():
    films, shots = sys.argv[1:3]
    program = sys.argv[3] if len(sys.argv) > 3 else 'chromium'
    os.makedirs(shots, exist_ok=True)
    page = os.path.join(os.path.dirname(os.path.abspath(__file__)), '..', '..', 'web', 'viewer', 'index.html')
    checks = Checks()
    with tempfile.TemporaryDirectory() as folder:
        browser = Browser(program, folder)
        try:
            target = browser.do('Target.createTarget', url='about:blank')['targetId']
            browser.session = browser.do('Target.attachToTarget', targetId=target, flatten=True)['sessionId']
            for domain in ('Page', 'Runtime', 'Log', 'Network'):
                browser.do(domain + '.enable')
            browser.do('Emulation.setDeviceMetricsOverride', width=1640, height=900, deviceScaleFactor=1, mobile=False)
            browser.do('Page.navigate', url='file://' + os.path.realpath(page))
            checks.same('the page is there', browser.until("document.readyState === 'complete' && !!window.viewer"), True)
            try_page(browser, films, shots, checks)
            checks.same('errors on the console', browser.errors, [])
            away = [url for url in browser.requests if not url.startswith(('file:', 'blob:', 'data:', 'about:'))]
            checks.same('requests that leave this machine', away, [])
        finally:
            browser.process.terminate()
            browser.process.wait()
    print(f'{checks.passed} passed, {checks.failed} failed')
    return 1 if checks.failed else 0


if __name__ == '__main__':
    sys.exit(main())
