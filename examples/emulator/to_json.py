"""Makes the JSON files of single steps and words of flat ones, beside them: to_json.py FOLDER

The files are those of `chipbench-steps --format json`, and index.json names them.
"""
import json
import pathlib
import sys


class Fields:
    """The fields of a line, which are taken from the front."""

    def __init__(self, line):
        self.left = line.split(" ")
        self.left.reverse()

    def number(self):
        return int(self.left.pop(), 16)

    def bytes(self):
        return list(bytes.fromhex(self.left.pop()))

    def list(self, item):
        return [item() for _ in range(self.number())]

    def rest(self):
        return " ".join(reversed(self.left))


def state_of(fields):
    """A state with all its parts, of memory and screen those that the line has."""
    parts = dict(zip(("pc", "i", "dt", "st", "high"), (fields.number() for _ in range(5))))
    parts |= {"v": fields.bytes(), "flags": fields.bytes(), "stack": fields.list(fields.number)}
    parts["memory"] = fields.list(lambda: [fields.number(), fields.number()])
    parts["screen"] = fields.list(lambda: [fields.number(), fields.left.pop()])
    parts["random"] = fields.list(fields.number)
    order = ("pc", "v", "i", "dt", "st", "stack", "flags", "high", "memory", "screen", "random")
    return {name: parts[name] if name != "high" else parts[name] == 1 for name in order}


def case_of(line):
    """The case of a line."""
    _, version, profile, row, number, rest = line.split(" ", 5)
    fields = Fields(rest)
    stop, keys, tick = fields.number(), fields.number(), fields.number()
    initial, final = state_of(fields), state_of(fields)
    # `final` has what changed
    final = {name: value for name, value in final.items() if (value if name in ("memory", "screen") else value != initial[name])}
    random_bytes = initial.pop("random")
    initial |= {"keys": [key for key in range(16) if keys >> key & 1], "random": random_bytes, "tick": tick == 1}
    text, about = fields.rest().split(": ", 1)
    return {"format": int(version), "profile": profile, "name": f"{row} {number}", "text": text, "about": about,
            "initial": initial, "final": final, "stops": f"S{stop}" if stop else None}


def words_of(lines):
    """The runs of words, with the format and the profile."""
    _, version, profile, *_ = lines[0].split(" ")
    runs = [[int(first, 16), int(last, 16), row if row != "-" else None] for first, last, row in (line.split(" ")[3:] for line in lines)]
    return f'{{"format":{version},"profile":"{profile}","words":{listed(runs)}}}\n'


def listed(records):
    """A list in JSON with an element a line."""
    return "[\n" + ",\n".join(json.dumps(record, separators=(",", ":")) for record in records) + "\n]"


if __name__ == "__main__":
    folder = pathlib.Path(sys.argv[1]) if len(sys.argv) == 2 else sys.exit(__doc__)
    index = json.loads((folder / "index.json").read_text())
    for entry in [*index["files"], *([index["words"]] if "words" in index else [])]:
        lines = (folder / entry["flat"]).read_text().splitlines()
        entry["file"] = entry["flat"].removesuffix(".txt") + ".json"
        text = listed(map(case_of, lines)) + "\n" if "row" in entry else words_of(lines)
        (folder / entry["file"]).write_text(text)
    (folder / "index.json").write_text(json.dumps(index, indent=1) + "\n")
