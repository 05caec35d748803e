"""The programs and files that the tests need. A test whose program is not there is skipped, with what to do."""
import os
import shutil
import subprocess

import pytest

TOP = os.path.realpath(os.path.join(os.path.dirname(os.path.abspath(__file__)), '..', '..', '..'))


def program(variable, name):
    found = os.environ.get(variable) or os.path.join(TOP, 'crates', name, 'out', name)
    if not shutil.which(found):
        pytest.skip(f'no {found}: run .ci/run, or name a program by {variable}')
    return found


@pytest.fixture(scope='session')
def scene(tmp_path_factory):
    """A folder with what `./scene` writes: two cartridges, the free boot ROM and the free table."""
    folder = tmp_path_factory.mktemp('scene')
    subprocess.run([program('SCENE', 'scene_cart'), str(folder)], check=True, stdout=subprocess.DEVNULL)
    return folder


@pytest.fixture(scope='session')
def game(scene):
    return (scene / 'game.sfc').read_bytes()


@pytest.fixture(scope='session')
def serial(scene, tmp_path_factory):
    """Video and sound of `snes serial` for a cartridge of the scene's folder, a script and a number of frames."""
    folder = tmp_path_factory.mktemp('serial')

    def play(cart, script, frames):
        (folder / 'script.txt').write_text(script)
        words = [program('SNES', 'snes_run'), 'serial', '--frames', str(frames)]
        for option, at in (('cart', scene / cart), ('boot', scene / 'boot.bin'), ('table', scene / 'table.bin'),
                           ('script', folder / 'script.txt'), ('video', folder / 'video'), ('audio', folder / 'audio')):
            words += [f'--{option}', str(at)]
        subprocess.run(words, check=True, stdout=subprocess.DEVNULL)
        return (folder / 'video').read_bytes(), (folder / 'audio').read_bytes()

    return play


@pytest.fixture
def pads():
    """The pads of a game of STAR HARVEST: the lines of its script, and the pads of each frame."""
    with open(os.path.join(TOP, 'examples', 'game', 'minute.txt'), encoding='ascii') as file:
        text = file.read()
    spans = [line.split() for line in text.splitlines()]
    return text, [(int(one, 16), int(two, 16)) for count, one, two in spans for _ in range(int(count))]
