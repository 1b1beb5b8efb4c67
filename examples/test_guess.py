"""Tests of the game guess.asm, for pytest: `pytest examples/test_guess.py`.

The game draws a random digit; the player presses keys until one of them is the digit. A miss shows the pressed digit, and a hit shows
how many tries it took and ends the program.
"""

import sys
from pathlib import Path

import pytest

FOLDER = Path(__file__).resolve().parent
sys.path.insert(0, str(FOLDER.parent / "frontends/python"))

from chipbench import Bench, Refused  # noqa: E402

# The small digit 3 and the large digit 2, as docs/MACHINE.md has them.
SMALL_3 = ["####", "...#", "####", "...#", "####"]
LARGE_2 = ["..#####.", ".#######", "##....##", ".....##.", "....##..", "...##...", "..##....", ".##.....", "########", "########"]


@pytest.fixture
def game():
    """The game, in which the digit to guess is 9."""
    with Bench(path=FOLDER / "guess.asm", tape=b"\x09") as bench:
        yield bench


def part(screen, column, row, width, height):
    return [line[column : column + width] for line in screen.rows[row : row + height]]


def tap(game, key, at):
    game.press(key, at=at)
    game.release(key, at=at + 20)


def test_the_source_has_no_faults(game):
    assert game.faults == []


def test_without_a_key_it_waits(game):
    state = game.at(1000)
    assert state.pc == game.symbols["TRY"].value
    assert state.stopped is None


def test_a_miss_shows_the_pressed_digit(game):
    tap(game, 3, at=20)
    assert part(game.at(60).screen, 8, 8, 4, 5) == SMALL_3
    assert game.at(60).v[5] == 1


def test_a_hit_shows_the_number_of_tries_and_ends(game):
    tap(game, 3, at=20)
    tap(game, 9, at=60)
    state = game.at(200)
    assert part(state.screen, 4, 4, 8, 10) == LARGE_2
    assert state.stopped == "S1"


@pytest.mark.parametrize("digit", range(16))
def test_each_digit_can_be_guessed(digit):
    with Bench(path=FOLDER / "guess.asm", tape=bytes([digit])) as game:
        tap(game, digit, at=5)
        assert game.at(100).stopped == "S1"


def test_a_key_that_is_held_counts_once(game):
    game.press(3, at=20)
    assert all(state.v[5] <= 1 for state in game.steps(0, 500))


def test_a_seventeenth_key_is_refused(game):
    with pytest.raises(Refused, match="N6"):
        game.press(16, at=20)
