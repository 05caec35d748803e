#!/usr/bin/env python3
"""Tries web/emulator/index.html in a headless Chromium of Debian's packages, and compares its frames with those of `snes`.

    tools/compare/watch_the_page.py SHOTS [CHROMIUM]

tools/build_page.sh has to be run before. The page plays the game live while keys are pressed. Then the sums that it took of each
frame's picture and samples have to be those of `snes sums` for the script that it took down: 600 frames of it. So too after a
rewind, after resets, by a link, and for dropped files in PAL. SHOTS is where screenshots go. SNES and SCENE may name built programs in place of
./snes and ./scene. An error on the page's console fails it, and so does any request that is not for a local file. The
status is 1 where a check failed.
"""
import os
import struct
import subprocess
import sys
import tempfile
import time
import zlib

from watch_the_viewer import FRAME, Browser, Checks

TOP = os.path.join(os.path.dirname(os.path.abspath(__file__)), '..', '..')
SNES = os.environ.get('SNES', os.path.join(TOP, 'snes'))
SCENE = os.environ.get('SCENE', os.path.join(TOP, 'scene'))


def at_of(folder):
    return lambda name: os.path.join(folder, name)


def run_snes(folder, command, cart, script, frames, *outputs):
    """Runs a command of `snes` over a cartridge of the scene's folder with this script."""
    at = at_of(folder)
    with open(at('pressed.txt'), 'w') as file:
        file.write(script)
    words = ['--cart', at(cart), '--boot', at('boot.bin'), '--table', at('table.bin'), '--script', at('pressed.txt'), '--frames', str(frames)]
    for output in outputs:
        words += ['--' + output, at(output)]
    subprocess.run([SNES, command, *words], check=True, stdout=subprocess.DEVNULL, stderr=subprocess.DEVNULL)


def sums_of(folder, cart, script, frames):
    """The lines of `snes sums`, without the last one, which has all frames."""
    run_snes(folder, 'sums', cart, script, frames, 'sums')
    with open(at_of(folder)('sums')) as file:
        return file.read().splitlines()[:-1]


def rows_of(png):
    """The dots of a PNG of RGBA without filters that look back further than a row, as a list of rows."""
    at, data, width = 8, b'', 0
    while at < len(png):
        size, kind = struct.unpack('>I4s', png[at:at + 8])
        if kind == b'IHDR':
            width, _, depth, colour = struct.unpack('>IIBB', png[at + 8:at + 18])
            assert depth == 8 and colour in (2, 6)
            each = 3 if colour == 2 else 4
        if kind == b'IDAT':
            data += png[at + 8:at + 8 + size]
        at += 12 + size
    data, rows, above = zlib.decompress(data), [], bytearray(width * each)
    for at in range(0, len(data), 1 + width * each):
        row = bytearray(data[at + 1:at + 1 + width * each])
        for i in range(len(row)):
            left, up = row[i - each] if i >= each else 0, above[i]
            corner = above[i - each] if i >= each else 0
            guess = left + up - corner
            paeth = min((abs(guess - left), 0, left), (abs(guess - up), 1, up), (abs(guess - corner), 2, corner))[2]
            row[i] = row[i] + (0, left, up, (left + up) // 2, paeth)[data[at]] & 255
        rows.append([tuple(row[each * x:each * x + 3]) for x in range(width)])
        above = row
    return rows


def dots_of(name, number):
    """The rows of a frame of a film, each twice, as the page shows them."""
    with open(name, 'rb') as file:
        file.seek(number * FRAME)
        frame = file.read(FRAME)
    dots = struct.unpack('<122368H', frame)
    rows = [[tuple(c << 3 | c >> 2 for c in (dot & 31, dot >> 5 & 31, dot >> 10 & 31)) for dot in dots[at:at + 512]] for at in range(0, len(dots), 512)]
    return [row for row in rows for _ in (0, 1)]


def status_is(browser, text, seconds=20):
    return browser.until(f"document.getElementById('status').textContent.startsWith({text!r})", seconds)


def press(browser, code, down):
    browser.do('Input.dispatchKeyEvent', type='keyDown' if down else 'keyUp', code=code, key=code)


def tap(browser, code):
    press(browser, code, True)
    press(browser, code, False)


def click(browser, name):
    browser.value(f"document.getElementById('{name}').click()")


def at_frame(browser, number, seconds=180):
    return browser.until(f'run.on && run.number >= {number}', seconds)


def anew(browser, checks):
    """Powers on, with sums of each frame."""
    browser.value("document.getElementById('sums').checked = true")
    click(browser, 'anew')
    checks.same('power on anew', browser.until('run.on && run.number > 0 && run.number < 60'), True)


def try_sums(browser, folder, cart, frames, checks, what):
    """Compares the sums that the page took of its first frames with those of `snes sums` for its script."""
    script = browser.value('script_text()')
    found = browser.value('sums_text()').splitlines()
    wanted = sums_of(folder, cart, script, frames)
    checks.same(f'{what}: frames with sums', len(found) - 1 >= frames, True)
    different = [line for line, other in zip(found[1:frames + 1], wanted[1:]) if line != other]
    checks.same(f'{what}: of {frames} frames these differ from snes sums', different[:3], [])
    checks.same(f'{what}: the last of them', found[frames], wanted[frames])
    return script


def try_picture(browser, folder, cart, checks, what):
    """Compares the page's canvas with the last frame of the path."""
    number = browser.value('run.number')
    run_snes(folder, 'serial', cart, browser.value('script_text()'), number, 'video', 'audio')
    png = browser.value("new Promise(done => document.getElementById('screen').toBlob(blob => blob.arrayBuffer().then(all => done([...new Uint8Array(all)]))))")
    checks.same(f'{what}: frame {number - 1} as PNG', rows_of(bytes(png)) == dots_of(at_of(folder)('video'), number - 1), True)


def play_with_keys(browser):
    """Begins a game, and flies and shoots until some frames are over."""
    at_frame(browser, 50)
    tap(browser, 'Enter')
    at_frame(browser, 90)
    for i, code in enumerate(('ArrowRight', 'ArrowDown', 'ArrowLeft', 'ArrowUp', 'ArrowRight', 'ArrowDown')):
        press(browser, code, True)
        for shot in range(3):
            tap(browser, ('KeyZ', 'KeyA', 'KeyX')[shot])
            at_frame(browser, 90 + 80 * i + 25 * (shot + 1))
        press(browser, code, False)


def try_live(browser, folder, shot, checks):
    checks.same('the game plays at once', at_frame(browser, 30), True)
    anew(browser, checks)
    play_with_keys(browser)
    try_sound(browser, checks)
    checks.same('it plays 600 frames', at_frame(browser, 605), True)
    tap(browser, 'Space')
    checks.same('it pauses', browser.value('run.paused'), True)
    before = browser.value('run.number')
    time.sleep(.3)
    checks.same('and stands', browser.value('run.number'), before)
    script = try_sums(browser, folder, 'game.sfc', 600, checks, 'keys')
    print('        ' + script.strip().replace('\n', ' | ')[:400])
    checks.same('keys: they are in the script', all(pad in script for pad in (' 1000 0000', ' 0100 0000', ' 8100 0000', ' 0480 0000')), True)
    shot('live.png')
    try_picture(browser, folder, 'game.sfc', checks, 'paused')
    checks.same('the sound is on', browser.value("player.node !== null && player.context.state === 'running' && player.context.sampleRate"), 32000)


def try_sound(browser, checks):
    """Listens for five seconds. How many gaps there are depends on the machine, and is only said."""
    played = lambda: browser.value('[player.played, player.gaps]')
    before = played()
    time.sleep(5)
    samples, gaps = (after - one for after, one in zip(played(), before))
    print(f'        {samples} samples were heard in 5 seconds, with {gaps} gaps; ' + browser.value(
        "document.getElementById('speed').textContent + ', sound ahead ' + document.getElementById('ahead').textContent"))
    checks.same('nearly all of 160,000 samples are heard', samples > 150000, True)


def try_moves(browser, folder, shot, checks):
    """Steps, a rewind, and what is played after it."""
    number = browser.value('run.number')
    tap(browser, 'Period')
    checks.same('a step on', browser.value('run.number'), number + 1)
    try_picture(browser, folder, 'game.sfc', checks, 'a step on')
    for _ in range(9):
        tap(browser, 'Comma')
    checks.same('nine steps back', browser.value('run.number'), number - 8)
    try_picture(browser, folder, 'game.sfc', checks, 'nine steps back')
    tap(browser, 'Space')
    at_frame(browser, number + 20)
    press(browser, 'Backspace', True)
    checks.same('it rewinds', browser.until(f'run.winding && run.number < {number - 60}'), True)
    shot('rewound.png')
    press(browser, 'Backspace', False)
    checks.same('it plays on', browser.until(f'!run.winding && run.number > {number - 40}'), True)
    press(browser, 'ArrowLeft', True)
    at_frame(browser, number + 30)
    press(browser, 'ArrowLeft', False)
    tap(browser, 'Space')
    try_sums(browser, folder, 'game.sfc', number + 30, checks, 'after a rewind')
    try_picture(browser, folder, 'game.sfc', checks, 'after a rewind')
    press(browser, 'Backspace', True)
    checks.same('to the end of what can be rewound', status_is(browser, 'There is no more to rewind', 60), True)
    press(browser, 'Backspace', False)
    checks.same('it is paused still', browser.until('!run.winding && run.paused'), True)
    try_picture(browser, folder, 'game.sfc', checks, 'rewound to the end')


def step_on_to(browser, residue):
    """Steps until the frames are so many modulo 8. Before each eighth frame a state is kept."""
    while browser.value('run.number') % 8 != residue:
        tap(browser, 'Period')


def try_moves_at_a_reset(browser, folder, residue, checks):
    """Presses reset so many frames behind a state. Steps and rewinds to frames behind it and before it, and presses it again."""
    step_on_to(browser, residue)
    number, what = browser.value('run.number'), f'reset {residue} frames behind a state'
    click(browser, 'reset')
    checks.same(f'{what}: it is said', status_is(browser, f'Reset at frame {number}.'), True)
    tap(browser, 'KeyR')
    checks.same(f'{what}: twice', status_is(browser, 'No frame was played yet'), True)
    pressed = browser.value('run.resets')
    checks.same(f'{what}: it is noted', pressed.count(number), 1)
    for _ in range(4):
        tap(browser, 'Period')
    try_picture(browser, folder, 'game.sfc', checks, f'{what}, 4 frames on')
    tap(browser, 'Comma')
    try_picture(browser, folder, 'game.sfc', checks, f'{what}, a step back')
    browser.value('wind(), wind(), end_winding()')
    checks.same(f'{what}: a rewind to its frame', browser.value('[run.number, run.resets]'), [number + 1, pressed])
    try_picture(browser, folder, 'game.sfc', checks, f'{what}, a rewind to its frame')
    tap(browser, 'Comma')
    checks.same(f'{what}: a step before it', browser.value('[run.number, run.resets]'), [number, pressed[:-1]])
    try_picture(browser, folder, 'game.sfc', checks, f'{what}, a step before it')
    click(browser, 'reset')
    for _ in range(33):
        tap(browser, 'Period')


def try_reset(browser, folder, shot, checks):
    """Resets by key and button, a rewind across two of them, and what is played after all."""
    anew(browser, checks)
    at_frame(browser, 50)
    tap(browser, 'Enter')
    at_frame(browser, 100)
    tap(browser, 'KeyR')
    checks.same('reset by its key', browser.until('run.resets.length === 1'), True)
    at_frame(browser, 150)
    tap(browser, 'Space')
    # A state holds the button in the first case, and in the second it is pressed behind a state.
    for residue in (0, 3):
        try_moves_at_a_reset(browser, folder, residue, checks)
    number, pressed = browser.value('run.number'), browser.value('run.resets')
    tap(browser, 'Space')
    at_frame(browser, number + 50)
    tap(browser, 'KeyR')
    at_frame(browser, number + 80)
    tap(browser, 'Space')
    press(browser, 'Backspace', True)
    checks.same('it rewinds across two resets', browser.until(f'run.winding && run.number < {pressed[-1] - 1}'), True)
    press(browser, 'Backspace', False)
    checks.same('it stands before them', browser.until('!run.winding && run.paused'), True)
    number = browser.value('run.number')
    left = [at for at in pressed if at < number]
    checks.same('both are forgotten', (len(left) < len(pressed), browser.value('run.resets')), (True, left))
    try_picture(browser, folder, 'game.sfc', checks, 'before two resets')
    tap(browser, 'Space')
    at_frame(browser, number + 20)
    tap(browser, 'KeyR')
    at_frame(browser, number + 60)
    shot('reset.png')
    tap(browser, 'Space')
    script = try_sums(browser, folder, 'game.sfc', browser.value('run.number'), checks, 'after resets')
    print('        ' + script.strip().replace('\n', ' | ')[:400])
    checks.same('after resets: they are in the script', (script.split('\n')[0], script.count('reset\n')), ('version 2 ntsc', len(left) + 1))
    try_picture(browser, folder, 'game.sfc', checks, 'after resets')


def try_link(browser, folder, page, checks):
    """The link of a path plays the same path on a page that is opened with it."""
    script = browser.value('script_text()')
    frames = browser.value('run.number')
    click(browser, 'link')
    checks.same('the link is told', status_is(browser, 'The link is in the address'), True)
    link = browser.value('location.hash')
    print(f'        {len(script)} bytes of script, {len(link)} of link')
    open_page(browser, 'about:blank')
    open_page(browser, page + link)
    checks.same('the link is opened', status_is(browser, 'Plays a script of'), True)
    anew_text = "document.getElementById('sums').checked = true; open_link()"
    browser.value(anew_text)
    checks.same('the script of the link ends', status_is(browser, f'The script ended at frame {frames}', 120), True)
    tap(browser, 'Space')
    checks.same('the link has the script', browser.value('script_text()').startswith(script.rsplit('\n', 2)[0]), True)
    try_sums(browser, folder, 'game.sfc', frames, checks, 'by the link')


def try_keys(browser, page, checks):
    """A key in place of another, also when the page is opened again; then as at first."""
    cell = "document.querySelectorAll('#keys td button')[%d]"
    browser.value((cell % 0) + '.click()')
    tap(browser, 'KeyP')
    checks.same('the key of B', browser.value((cell % 0) + '.textContent'), 'G0B0, P')
    open_page(browser, 'about:blank')
    open_page(browser, page)
    at_frame(browser, 10)
    press(browser, 'KeyP', True)
    checks.same('the new key', browser.until('run.pads.at(-1) === 0x80000000'), True)
    press(browser, 'KeyP', False)
    press(browser, 'KeyZ', True)
    number = browser.value('run.number')
    at_frame(browser, number + 5)
    checks.same('the old key', browser.value('run.pads.at(-1)'), 0)
    press(browser, 'KeyZ', False)
    click(browser, 'default')
    checks.same('as at first', browser.value((cell % 0) + '.textContent'), 'Z, G0B0')


def try_gamepads(browser, checks):
    """Two gamepads that the browser does not have: buttons, and an axis."""
    browser.value("""navigator.getGamepads = () => [null, ...[[0, [0, 9], [0, 0]], [1, [1], [0.9, -0.9]]].map(([index, down, axes]) =>
        ({ index, axes, buttons: Array.from({ length: 16 }, (_, i) => ({ pressed: down.includes(i) })) }))]""")
    checks.same('two gamepads', browser.until('run.pads.at(-1) === 0x90000980'), True)
    browser.value("navigator.getGamepads = () => []")
    checks.same('none', browser.until('run.pads.at(-1) === 0'), True)


def try_full_screen(browser, shot, checks):
    """The whole screen, at 4:3. The browser wants to be asked by a user for it."""
    full = lambda: browser.do('Runtime.evaluate', expression="document.getElementById('full').click()", userGesture=True)
    full()
    checks.same('full screen', browser.until("document.fullscreenElement?.id === 'stage'"), True)
    size = "(box => [box.width <= innerWidth, box.height <= innerHeight, Math.round(300 * box.width / box.height)])(document.getElementById('screen').getBoundingClientRect())"
    checks.same('it fits, at 4:3', browser.value(size), [True, True, 400])
    shot('full.png')
    full()
    checks.same('and back', browser.until('!document.fullscreenElement'), True)


def try_files(browser, folder, shot, checks):
    at = at_of(folder)
    dropped = 'version 2 pal\n50 0000 0000\nreset\n3 1000 0000\n60 8100 0080\nreset\n'
    with open(at('script.txt'), 'w') as file:
        file.write(dropped)
    browser.value("document.getElementById('sums').checked = true")
    browser.drop(at('game.sfc'), at('boot.bin'), at('table.bin'), at('script.txt'))
    checks.same('dropped files', status_is(browser, 'The script ended at frame 113', 60), True)
    at_frame(browser, 130)
    tap(browser, 'Space')
    script = try_sums(browser, folder, 'game.sfc', 130, checks, 'dropped, in PAL')
    checks.same('dropped, in PAL: the script', script.startswith(dropped), True)
    click(browser, 'scene')
    checks.same('the scene', browser.until("run.on && run.name === 'scene.sfc' && run.number > 60", 60), True)
    shot('scene.png')
    with open(at('short.sfc'), 'wb') as file:
        file.write(bytes(100))
    browser.drop(at('short.sfc'))
    checks.same('a refused cartridge', status_is(browser, 'Status 3: the cartridge has fewer than 32,768 bytes.'), True)
    for lines in ('2 0000 0000\nno line\n', 'version 2 pal\nreset\n', '2 0000 0000\nreset\n', 'version 2 ntsc\n1 0000 0000\nreset\nreset\n'):
        with open(at('none.txt'), 'w') as file:
            file.write(lines)
        browser.drop(at('none.txt'))
        checks.same('a refused script', status_is(browser, f'the script is refused at line {lines.count(chr(10))}.'), True)
        browser.value("say('')")
    click(browser, 'game')
    at_frame(browser, 20)
    # Nobody waits here until ten minutes are over: the call answers as it does then.
    browser.value('machine.real = machine.frame; machine.frame = () => FRAMES')
    checks.same('the ten minutes are over', status_is(browser, 'The console has played its 36,000 frames'), True)
    browser.value('machine.frame = machine.real')
    checks.same('and it waits', browser.value('run.paused'), True)
    browser.drop(at('game.sfc'))
    checks.same('power on after that', at_frame(browser, 20), True)


def open_page(browser, url):
    browser.do('Page.navigate', url=url)
    if url != 'about:blank':
        browser.until("document.readyState === 'complete' && typeof run === 'object' && run.on")


def try_page(browser, folder, shots, checks, page):
    shot = lambda name: browser.shot(os.path.join(shots, name))
    try_live(browser, folder, shot, checks)
    try_moves(browser, folder, shot, checks)
    try_reset(browser, folder, shot, checks)
    try_link(browser, folder, page, checks)
    try_keys(browser, page, checks)
    try_gamepads(browser, checks)
    try_full_screen(browser, shot, checks)
    try_files(browser, folder, shot, checks)


def main():
    shots = sys.argv[1]
    program = sys.argv[2] if len(sys.argv) > 2 else 'chromium'
    os.makedirs(shots, exist_ok=True)
    checks = Checks()
    with tempfile.TemporaryDirectory() as folder:
        subprocess.run([SCENE, folder], check=True, stdout=subprocess.DEVNULL)
        browser = Browser(program, os.path.join(folder, 'browser'))
        try:
            target = browser.do('Target.createTarget', url='about:blank')['targetId']
            browser.session = browser.do('Target.attachToTarget', targetId=target, flatten=True)['sessionId']
            for domain in ('Page', 'Runtime', 'Log', 'Network'):
                browser.do(domain + '.enable')
            browser.do('Emulation.setDeviceMetricsOverride', width=1240, height=880, deviceScaleFactor=1, mobile=False)
            page = 'file://' + os.path.realpath(os.path.join(TOP, 'web', 'emulator', 'index.html'))
            open_page(browser, page)
            checks.same('the page is there', browser.value('run.on'), True)
            try_page(browser, folder, shots, checks, page)
            checks.same('errors on the console', browser.errors, [])
            away = [url for url in browser.requests if not url.startswith(('file:', 'blob:', 'data:', 'about:'))]
            checks.same('requests that leave this machine', away, [])
        finally:
            browser.process.terminate()
            browser.process.wait()
    print(f'{checks.passed} passed, {checks.failed} failed')
    return 1 if checks.failed else 0


if __name__ == '__main__':
    sys.exit(main())
