"""A session that is written to piece by piece: each command is answered before the program wants the next piece.

Each piece comes only once the answer to the one before it was read, so a program that waited for more would wait in vain.
"""
import selectors
import subprocess

from runner.programs import HANG_SECONDS

# What is written, and what is answered to it. A piece may end in the midst of a command, or hold several.
PIECES = [
    (b"ins 1 LD V0, 5\n", b"ok\n"),
    (b"image\nimage\nima", b"6005\n6005\n"),
    (b"ge", b""),
    (b"\n", b"6005\n"),
    (b"\n   \ndel 9\r", b""),
    (b"\nins 2 CLS\nregs 1\nre", b"no N1\nok\nv 05 00 00 00 00 00 00 00 00 00 00 00 00 00 00 00\n"
     b"pc 0202 i 0000 dt 00 st 00 draws 0 low run\nflags 00 00 00 00 00 00 00 00 stack\n"),
    (b"p 1 LD V0, 6\nimage", b"ok\n"),
]
# What is answered once the input has ended.
END = b"600600e0\n"


def taken(output, count):
    """So many bytes of a pipe, or fewer where it waits in vain."""
    found = b""
    with selectors.DefaultSelector() as selector:
        selector.register(output, selectors.EVENT_READ)
        while len(found) < count and selector.select(HANG_SECONDS):
            piece = output.read1(count - len(found))
            if not piece:
                break
            found += piece
    return found


def wrong_session(program, size):
    """What is wrong with the answers to the pieces, written in parts of at most `size` bytes."""
    command = [program.file, "debug"]
    with subprocess.Popen(command, stdin=subprocess.PIPE, stdout=subprocess.PIPE, bufsize=0) as process:
        output = open(process.stdout.fileno(), "rb", closefd=False)
        try:
            for piece, expected in PIECES:
                for at in range(0, len(piece), size):
                    process.stdin.write(piece[at : at + size])
                found = taken(output, len(expected))
                if found != expected:
                    return f"to {piece} it answers {found} in time, and not {expected}"
            process.stdin.close()
            found = output.read()
            return "" if found == END else f"at the end it answers {found} and not {END}"
        finally:
            process.kill()


def checks(program):
    yield "each piece at once", lambda: wrong_session(program, 1000)
    yield "byte by byte", lambda: wrong_session(program, 1)
