"""The licences that the program prints are the text of THIRD-PARTY."""
import pathlib

NOTICES = pathlib.Path(__file__).resolve().parent.parent.parent / "THIRD-PARTY"


def wrong_text(program):
    """What is wrong with what the program prints."""
    ran = program.run(["licences"])
    if ran.status != 0 or ran.stderr:
        return f"status {ran.status}: {ran.stderr.decode()}"
    return "" if ran.stdout == NOTICES.read_bytes() else "this isn't the text of THIRD-PARTY"


def checks(program):
    yield "licences", lambda: wrong_text(program)
