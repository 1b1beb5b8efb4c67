"""Each byte alone: as a source, as a script, and as a script's line."""
import pathlib
import string
import tempfile

LETTERS = string.ascii_letters + "_"
# Digits and signs begin no statement.
SIGNS = string.digits + ",:=[]()+-*/&|^~<>\\"


def answers_to_source(byte):
    """The faults of a source of one byte, and its image."""
    character = chr(byte)
    if character in "\n \t\f\r\x1a;":
        return ".\n\n"
    if character in LETTERS:
        return "1 F3\n.\nno Q1\n"
    if character in SIGNS:
        return "1 F4\n.\nno Q1\n"
    if character in "'\"":
        return "1 F2\n.\nno Q1\n"
    return "1 F1\n.\nno Q1\n"


def wrong_source(program, byte):
    with tempfile.TemporaryDirectory() as folder:
        pathlib.Path(folder, "source").write_bytes(bytes([byte]))
        found = program.run(["debug", "source"], b"faults\nimage\n", folder).stdout.decode()
    return "" if found == answers_to_source(byte) else f"{found!r} and not {answers_to_source(byte)!r}"


def wrong_script(program, script, is_blank):
    found = program.run(["debug"], script).stdout.decode()
    expected = "" if is_blank else "no C1\n"
    return "" if found == expected else f"{found!r} and not {expected!r}"


def checks(program):
    for byte in range(256):
        is_blank = byte in b" \n"
        # a carriage return is a part of the line's end only before a line feed
        is_end = is_blank or byte == ord("\r")
        script = bytes([byte])
        yield f"the source {byte}", lambda byte=byte: wrong_source(program, byte)
        yield f"the script {byte}", lambda it=script, blank=is_blank: wrong_script(program, it, blank)
        yield f"the line {byte}", lambda it=script + b"\n", blank=is_end: wrong_script(program, it, blank)
