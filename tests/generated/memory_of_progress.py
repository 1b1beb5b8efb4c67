"""The progress of a search says about how much memory its states take: beside it stands what the system says that the program holds.

A state that differs in registers alone takes little; one that differs in memory too takes more. Both are tried.
"""
import pathlib
import re
import subprocess
import tempfile

# Each key that was pressed goes from register to register, and the last register is read.
SHIFTS = "".join(f"LD V{number:X}, V{number - 1:X}\n" for number in range(13, 0, -1))
SOURCES = {
    "states that differ in registers": f"LOOP: LD V0, K\n{SHIFTS}SE VD, 9\nJP LOOP\nEXIT\n",
    "states that differ in memory": "LD V1, 1\nLD I, #300\nLOOP: LD V0, K\nLD [I], V0\nADD I, V1\nJP LOOP\n",
}
LINE = re.compile(r"chipbench: step [0-9]+, ([0-9]+) states, about ([0-9]+) MB\n")
# The line comes with 200,001 states. There are not many more than that, so it doesn't matter how soon it is read.
MOST_STATES = "260000"
ENDED = f"chipbench: a search ended because it kept {MOST_STATES} states; raise that with --states\n"
# What the program holds beside the states, in MB, and how far an allocator's room and the word 'about' may lead from the figure.
OTHERS = 8
FACTOR = 1.6


def held(number):
    """How many MB a process holds."""
    status = pathlib.Path(f"/proc/{number}/status").read_text()
    return int(re.search(r"VmRSS:\s+([0-9]+) kB", status)[1]) * 1024 / 1_000_000


def wrong_memory(program, source):
    """What is wrong with the memory that the progress tells."""
    words = [program.file, "explore", "source", "--keys-allowed", "1,2,4,8", "--states", MOST_STATES, "--progress", "--no-facts"]
    with tempfile.TemporaryDirectory() as folder:
        pathlib.Path(folder, "source").write_text(source)
        told = []
        with subprocess.Popen(words, cwd=folder, stdin=subprocess.DEVNULL, stdout=subprocess.DEVNULL, stderr=subprocess.PIPE, text=True) as ran:
            for line in ran.stderr:
                found = LINE.fullmatch(line)
                if found is None and line != ENDED:
                    return f"standard error has {line!r}"
                if found is not None:
                    told.append((int(found[1]), int(found[2]), held(ran.pid)))
    if not told:
        return "no progress was told"
    wrong = [f"{states} states, about {about} MB, and {held:.0f} MB are held" for states, about, held in told if not about <= held + OTHERS <= FACTOR * about + 2 * OTHERS]
    return "\n".join(wrong)


def checks(program):
    for name, source in SOURCES.items():
        yield name, lambda source=source: wrong_memory(program, source)
