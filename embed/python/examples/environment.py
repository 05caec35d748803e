#!/usr/bin/env python3
"""STAR HARVEST, the free game, as learners of play use a game: reset, step, observation, reward.

    environment.py GAME.sfc [--steps N] [--episodes N] [--seed N]

`./scene out` writes out/game.sfc. The methods have the form that gymnasium gave them, and need no such package. An episode
begins at a save state, so no opening is played twice. The main program plays at random, and says what it scored.
"""
from __future__ import annotations

import argparse
import random
from typing import Any

from bogtrun_snes import Button, Console

# The rows of the digits that the game writes, a bit a pixel, from the top row down.
ROWS = ('78CCDCDCECCC78', '30703030303078', '78CC0C3860C0FC', '78CC0C380CCC78', '183878D8FC1818',
        'FCC0F80C0CCC78', '78C0C0F8CCCC78', 'FC0C1818303030', '78CCCC78CCCC78', '78CCCC7C0C0C78')
DIGITS = {bytes.fromhex(rows): digit for digit, rows in enumerate(ROWS)}
# Where the first ship's score is: the letters' colour, the row, and the first pixel of 256. It has four digits.
RED, TOP, LEFT = (255, 115, 90), 8, 32


def score_of(picture: Any) -> int:
    """The first ship's score, read off the picture; 0 where none is written."""
    dots = memoryview(picture).cast('B')
    score = 0
    for cell in range(4):
        rows = bytearray(7)
        for y in range(7):
            for x in range(8):
                at = 3 * ((TOP + y) * 512 + 2 * (LEFT + 8 * cell + x))
                rows[y] |= (tuple(dots[at:at + 3]) == RED) << (7 - x)
        if bytes(rows) not in DIGITS:
            return 0
        score = 10 * score + DIGITS[bytes(rows)]
    return score


class StarHarvest:
    """One ship. An observation is the picture, 239 rows of 512 dots, red, green and blue."""

    actions = [0, Button.UP, Button.DOWN, Button.LEFT, Button.RIGHT, Button.B,
               Button.B | Button.UP, Button.B | Button.DOWN, Button.B | Button.LEFT, Button.B | Button.RIGHT]
    title_frames, start_frames, land_frames = 40, 2, 30

    def __init__(self, cart: Any, frames_a_step: int = 4, steps: int = 800, **console: Any) -> None:
        """A step has so many frames, and an episode so many steps; a game lasts a minute."""
        self.frames_a_step, self.steps = frames_a_step, steps
        longest = self.title_frames + 256 + self.start_frames + self.land_frames + frames_a_step * steps
        self.console = Console(cart, most=longest, slots=1, **console)
        self._go(self.title_frames, 0)
        self.console.keep(0)
        self.step_number = self.score = 0

    def _go(self, frames: int, pad: int) -> Any:
        """The last picture of some frames with a pad. The pictures before it are not made."""
        for _ in range(frames - 1):
            self.console.raw_frame(pad)
        return self.console.frame(pad).picture

    def reset(self, seed: int | None = None) -> tuple[Any, dict[str, int]]:
        """A new game. What flies in depends on the frame in which START is pressed alone, and that is what a seed sets."""
        self.console.back(0)
        self._go(1 + (random.randrange(255) if seed is None else seed % 255), 0)
        self._go(self.start_frames, Button.START)
        observation = self._go(self.land_frames, 0)
        self.step_number, self.score = 0, score_of(observation)
        return observation, {'frames': self.console.frames}

    def step(self, action: int) -> tuple[Any, float, bool, bool, dict[str, int]]:
        """Plays some frames with an action's buttons down: observation, reward, is it over, is it cut off, more."""
        observation = self._go(self.frames_a_step, self.actions[action])
        before, self.score = self.score, score_of(observation)
        self.step_number += 1
        return observation, float(self.score - before), False, self.step_number >= self.steps, {'score': self.score}

    def close(self) -> None:
        """Gives back the console."""
        self.console.close()


def main() -> None:
    """Plays at random."""
    words = argparse.ArgumentParser(description='Plays STAR HARVEST at random.')
    words.add_argument('cart')
    for name, number in (('--steps', 400), ('--episodes', 2), ('--seed', 1)):
        words.add_argument(name, type=int, default=number)
    given = words.parse_args()
    chance = random.Random(given.seed)
    environment = StarHarvest(given.cart, steps=given.steps)
    for episode in range(given.episodes):
        environment.reset(seed=given.seed + episode)
        reward, is_over = 0.0, False
        while not is_over:
            _, gain, ended, cut, more = environment.step(chance.randrange(len(environment.actions)))
            reward, is_over = reward + gain, ended or cut
        print(f"episode {episode}: {environment.step_number} steps, score {more['score']}, reward {reward:g}")
    environment.close()


if __name__ == '__main__':
    main()
