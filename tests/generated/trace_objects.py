"""The objects of `trace --json`, beside the fields that `trace` prints of the same run.

Each line is read by Python's json, and has the columns of the fields in their order: numbers for counts and for what the
fields show in hexadecimal, texts for the sums and the last column. That holds for the examples and for programs that stop.
The text of each of the 65,536 words, as `dis` prints it, is the same in quotes, and a trace has that text.
"""
import json
import pathlib
import struct
import tempfile

EXAMPLES = pathlib.Path(__file__).resolve().parent.parent.parent / "examples"
SETTINGS = ["--rate", "7", "--tape", "3b5a91c7042fe866"]
STEPS = 2_000
PROFILES = ("schip", "vip")
# fields in decimal, and those that are texts in JSON too; all others are hexadecimal
DECIMAL = ("step", "depth", "draws")
TEXTS = ("screen", "memory", "text")
# programs that stop, each for another reason
STOPPING = {
    "by EXIT": b"CALL PART\nPART: LD V1, 255\nRND V2, 255\nEXIT\n",
    "at no instruction": b"LD V0, 5\nLD DT, V0\nLD ST, V0\nDW #5001\n",
    "past the memory": b"LD I, #FFF\nLD V0, 1\nLD [I], V1\n",
    "without a caller": b"LD VF, 171\nRET\n",
    "with a full stack": b"LOOP: ADD V0, 255\nLD I, #0FE\nCALL LOOP\n",
}
# each word is a text; a trace is made of one in so many
EACH = 131


def value_of(name, field):
    """What JSON has for a field."""
    return field if name in TEXTS else int(field, 10 if name in DECIMAL else 16)


def wrong_objects(fields, objects):
    """What is wrong with the lines of a trace in JSON, beside the lines of its fields."""
    header, *lines = fields.decode().splitlines()
    names = header.split()[1:]
    found = objects.decode().splitlines()
    if len(found) != len(lines):
        return f"{len(found)} objects, and {len(lines)} lines of fields"
    for line, text in zip(lines, found):
        wanted = [(name, value_of(name, field)) for name, field in zip(names, line.split(" ", len(names) - 1), strict=True)]
        try:
            members = json.loads(text, object_pairs_hook=list, parse_float=str)
        except json.JSONDecodeError as it:
            return f"{it}: {text}"
        if members != wanted:
            return f"{text}\nis not {line}"
    return ""


def wrong_trace(program, arguments, folder=None):
    """What is wrong with a trace in JSON."""
    fields = program.run(["trace", *arguments], folder=folder)
    objects = program.run(["trace", "--json", *arguments], folder=folder)
    if (fields.status, objects.status) != (0, 0) or fields.stderr or objects.stderr:
        return f"{fields.stderr!r} and {objects.stderr!r}"
    if not objects.stdout.endswith(b"\n"):
        return "the last line has no newline"
    return wrong_objects(fields.stdout, objects.stdout)


def wrong_source_trace(program, source, options):
    with tempfile.TemporaryDirectory() as folder:
        pathlib.Path(folder, "source").write_bytes(source)
        return wrong_trace(program, ["source", *SETTINGS, *options], folder)


def texts_of(program, words):
    """The line that `dis` prints of each of these words."""
    with tempfile.TemporaryDirectory() as folder:
        pathlib.Path(folder, "image").write_bytes(b"".join(struct.pack(">H", word) for word in words))
        return program.run(["dis", "image"], folder=folder).stdout.decode().splitlines()


def wrong_texts(program, words):
    """What is wrong with these words' texts: one of them isn't itself in quotes."""
    texts = texts_of(program, words)
    if len(texts) != len(words):
        return f"{len(texts)} lines of {len(words)} words"
    for text in texts:
        if json.loads(f'"{text}"') != text:
            return f"{text!r} is another text in quotes"
    return ""


def wrong_words(program, words):
    """What is wrong with the traces of one step of each of these words."""
    with tempfile.TemporaryDirectory() as folder:
        for word, text in zip(words, texts_of(program, words), strict=True):
            pathlib.Path(folder, "image").write_bytes(struct.pack(">H", word))
            arguments = ["--image", "image", "--steps", "1"]
            wrong = wrong_trace(program, arguments, folder)
            if wrong:
                return f"word {word:04x}: {wrong}"
            first = json.loads(program.run(["trace", "--json", *arguments], folder=folder).stdout.splitlines()[0])
            if (first["step"], first["word"], first["text"]) != (0, word, text):
                return f"word {word:04x}: {first}, and not {text}"
    return ""


def checks(program):
    for profile in PROFILES:
        for sums in ([], ["--hash"]):
            options = ["--profile", profile, *sums]
            for file in sorted(EXAMPLES.glob("*.asm")):
                arguments = [str(file), "--steps", str(STEPS), *SETTINGS, *options]
                yield f"{file.name} {' '.join(options)}", lambda given=arguments: wrong_trace(program, given)
            for name, source in STOPPING.items():
                for steps in (["--steps", "40"], ["--steps", "40", "--from", "2"], ["--steps", "0"]):
                    given = [*steps, *options]
                    yield f"a program that stops {name}, {' '.join(given)}", (
                        lambda source=source, given=given: wrong_source_trace(program, source, given)
                    )
    for start in range(0, 0x10000, 1792):
        words = range(start, min(start + 1792, 0x10000))
        yield f"texts of the words from {start:04x} on", lambda words=words: wrong_texts(program, words)
        sample = range(start + -start % EACH, words.stop, EACH)
        yield f"traces of words from {start:04x} on", lambda words=sample: wrong_words(program, words)
