"""Tests the decoder of an emulator with words.json of `chipbench-steps`, the verdicts on all 65536 words: run_words.py FOLDER

For another emulator change `is_instruction`.
"""
import json
import pathlib
import sys

from emulator import Machine


def is_instruction(profile, word):
    """Whether the emulator executes a word, whatever else it does."""
    machine = Machine(profile, word.to_bytes(2, "big"))
    machine.step([], False, iter([0]))
    return machine.stops != "S2"


def wrong_words(found):
    """The first word of each run that has another verdict here, and what it has to be."""
    for first, last, row in found["words"]:
        wrong = next((word for word in range(first, last + 1) if is_instruction(found["profile"], word) != (row is not None)), None)
        if wrong is not None:
            yield f"word {wrong:04x} {row or 'is not an instruction'}"


if __name__ == "__main__":
    if len(sys.argv) != 2:
        sys.exit(__doc__)
    if not pathlib.Path(sys.argv[1]).is_dir():
        sys.exit(f"{sys.argv[1]}: expected a folder, such as schip")
    words = json.loads((pathlib.Path(sys.argv[1]) / "words.json").read_text())
    if words["format"] != 1:
        sys.exit(f"{sys.argv[1]} has another format")
    lines = list(wrong_words(words))
    print(*lines, f"{words['profile']}: {len(lines)} of {len(words['words'])} runs of words differ", sep="\n")
    sys.exit(bool(lines))
