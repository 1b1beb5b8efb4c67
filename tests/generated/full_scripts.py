"""Scripts of as many lines and key events as there may be, and of one more."""

LINES = 100_000
EVENTS = 10_000


def wrong_byte(program, byte):
    """What is wrong with the answer to a byte after the last line."""
    ran = program.run(["debug"], b"\n" * LINES + bytes([byte]))
    found = (ran.status, ran.stdout, ran.stderr)
    expected = (3, b"", b"chipbench: too much input\n")
    return "" if found == expected else f"{found} and not {expected}"


def wrong_events(program, every):
    """What is wrong with the answers to one key event more than there may be."""
    script = "".join(f"kins {step} 5 down\n" for step in range(EVENTS + 1))
    ran = program.run(["debug", "--every", every], script.encode())
    expected = "ok\n" * EVENTS + "no N9\n"
    return "" if ran.stdout.decode() == expected else f"{ran.stdout[-80:]} and not the ok's and no N9"


def checks(program):
    for byte in range(256):
        yield f"the byte {byte} after {LINES} lines", lambda byte=byte: wrong_byte(program, byte)
    for every in ("1000", "100000"):
        yield f"an event too many, at {every}", lambda every=every: wrong_events(program, every)
