#!/usr/bin/env python3
"""Writes the completions, the manual page, the syntax files and the icon of the extension from the tables of the sources.

    frontends/editors/generate.py           writes the files
    frontends/editors/generate.py --check   writes nothing; the status is 1 where a file isn't what the tables give

The words of the language come from crates/chip_lang (src/form.rt, specs/Keyword.antt, src/statement.rt), those of the
command line from crates/chip_arguments/src (arguments.rt, commands.rt), the names of the profiles from
crates/chip_machine/src (profile.rt), and the options of the launchers from their parsers.
"""
import argparse
import importlib
import json
import pathlib
import re
import struct
import sys
import zlib

sys.dont_write_bytecode = True
HERE = pathlib.Path(__file__).resolve().parent
CRATES = HERE.parents[1] / "crates"
# the launchers with a parser of their own: its module, and the folder from which that is imported
LAUNCHERS = {
    "chipbench-page": ("bridge", "page"),
    "chipbench-lsp": ("chipbench_lsp.__main__", "python"),
    "chipbench-dap": ("chipbench_dap.__main__", "python"),
    "chipbench-steps": ("chipbench_steps.__main__", "python"),
    "chipbench-shell": ("chipbench_shell.__main__", "python"),
}
# the words of a property, a line that begins with `;!` (docs/LANGUAGE.md)
PROPERTY_WORDS = "always never ever can here at and or".split()
PROPERTY_ITEMS = "I PC DT DEPTH HIGH KEYS PIXEL".split()
# a command of the shell that prints all codes
CODES = "chipbench explain 2>/dev/null | cut -d ' ' -f 1"


def read(path):
    return (CRATES / path).read_text(encoding="utf-8")


def in_order(words):
    return list(dict.fromkeys(words))


def profiles():
    """The names of the profiles, with a space between them."""
    text = read("chip_machine/src/profile.rt")
    names = dict(re.findall(r'const (\w+): &str = "([\w-]+)";', text))
    listed = re.search(r"const PROFILES: .*?= \[(.*?)\];", text, re.S).group(1)
    return " ".join(names[word] for word in re.findall(r"\w+", listed))


# the options that take one of a few words
CHOICES = {"profile": profiles(), "color": "auto always never"}


class Language:
    """The reserved words, and the words of OPTION and ALIGN."""

    def __init__(self):
        keywords = read("chip_lang/specs/Keyword.antt")
        texts = dict.fromkeys(("directives", "specials"))
        for name in texts:
            table = re.search(rf"^{name} =\n.*?\[\]$", keywords, re.S | re.M).group(0)
            texts[name] = re.findall(r'codes "(\w+)"', table)
        self.directives = texts["directives"]
        self.parts = texts["specials"]
        self.mnemonics = in_order(re.findall(r'form!\("(\w+)"', read("chip_lang/src/form.rt")))
        options = read("chip_lang/src/statement.rt")
        options = re.search(r"fn is_known_option.*?\n}", options, re.S).group(0)
        self.switches = in_order(re.findall(r'b"(\w+)"', options)) + ["ON", "OFF"]


class Argument:
    def __init__(self, kind, name, value, help):
        self.long, self.value, self.help = None if kind == "place" else name, value or None, help


class Command:
    def __init__(self, row, arguments):
        self.name, self.about, self.example, listed = row
        taken = [arguments[name] for name in re.findall(r"Argument::(\w+)", listed)]
        self.options = [argument for argument in taken if argument.long]
        self.places = [argument.value for argument in taken if not argument.long]


class Option:
    """An option of a launcher, as its parser has it."""

    def __init__(self, action):
        self.long, self.value, self.help = action.option_strings[-1].removeprefix("--"), action.metavar, action.help


def launched(name):
    """The options of a launcher."""
    module, folder = LAUNCHERS[name]
    sys.path.insert(0, str(HERE.parent / folder))
    actions = importlib.import_module(module).parser()._actions
    return [Option(action) for action in actions if action.option_strings and action.help != argparse.SUPPRESS]


class Words:
    """The commands of the program with their options."""

    def __init__(self):
        text = read("chip_arguments/src/arguments.rt") + read("chip_arguments/src/commands.rt")
        consts = {}
        for name, value in re.findall(r'const (\w+): &str = "((?:[^"\\]|\\.|\\\n)*)";', text):
            consts[name] = re.sub(r"\\\n\s*", "", value)
        functions = dict(re.findall(r"\n(?:pub\(crate\) )?fn (\w+)<'a>\(\s*alloc: Global(.*?)\n}", text, re.S))
        helps = {name: re.sub(r"\\\n\s*", "", help)
                 for name, help in re.findall(r'Argument::(\w+) =>\s*"((?:[^"\\]|\\.|\\\n)*)"', text)}
        made = re.findall(r'Argument::(\w+) =>(?: \{)?\s+(\w+)\(alloc, "([\w-]+)", (?:"([A-Z]+)", )?help\b', text)
        arguments = {name: Argument(kind, long, value, helps[name]) for name, kind, long, value in made}

        rows = re.findall(
            r'CommandRow \{\s*name: "(\w+)",\s*about: "(.*?)",\s*notes: (?:"Example: (.*?)"|[A-Z_]+),\s*arguments: &\[(.*?)\]',
            text, re.S)
        self.about = re.search(r'"chipbench",\s*"(.*?)"', functions["program"]).group(1)
        self.commands = [Command(row, arguments) for row in rows]
        for command in self.commands:
            if not command.example:
                notes = consts[f"{command.name.upper()}_NOTES"].replace("\\n", "\n")
                command.example = re.search(r"Example: (.*)", notes).group(1)


def bash(words):
    cases = []
    for command in words.commands:
        options = " ".join(f"--{option.long}" for option in command.options)
        cases.append(f'        {command.name}) options="{options} --help" ;;')
    names = " ".join(command.name for command in words.commands)
    seen = {option.long: option.value for command in words.commands for option in command.options}
    untold = " | ".join(f"--{name}" for name, value in seen.items() if value not in (None, "FILE", "PATH") and name not in CHOICES)
    choices = [f'        --{name}) COMPREPLY=($(compgen -W "{words}" -- "$word")); return ;;' for name, words in CHOICES.items()]
    return "\n".join([
        "# Completion of chipbench's words for bash; made by frontends/editors/generate.py.",
        "_chipbench() {",
        "    local word=${COMP_WORDS[COMP_CWORD]} before=${COMP_WORDS[COMP_CWORD-1]} options=",
        "    if [ \"$COMP_CWORD\" -eq 1 ]; then",
        f'        COMPREPLY=($(compgen -W "{names} help --help --version" -- "$word"))',
        "        return",
        "    fi",
        "    case $before in",
        *choices,
        f"        {untold}) return ;;",
        # the program has the codes
        f'        explain) COMPREPLY=($(compgen -W "$({CODES})" -- "$word")); return ;;',
        "    esac",
        "    case ${COMP_WORDS[1]} in",
        *cases,
        "    esac",
        "    case $word in",
        '        -*) COMPREPLY=($(compgen -W "$options" -- "$word")) ;;',
        '        *) COMPREPLY=($(compgen -f -- "$word")) ;;',
        "    esac",
        "}",
        "complete -o filenames -F _chipbench chipbench",
        "",
    ])


def short(option):
    """What an option does, in a few words."""
    return option.help.split(",")[0].split(" [")[0].split(" (default")[0]


def bash_launcher(name):
    options = launched(name)
    function = "_" + name.replace("-", "_")
    choices = [f'        --{option.long}) COMPREPLY=($(compgen -W "{CHOICES[option.long]}" -- "$word")); return ;;'
               for option in options if option.long in CHOICES]
    untold = " | ".join(f"--{option.long}" for option in options
                        if option.value not in (None, "FILE", "PATH") and option.long not in CHOICES)
    return "\n".join([
        f"# Completion of {name}'s options for bash; made by frontends/editors/generate.py.",
        f"{function}() {{",
        "    local word=${COMP_WORDS[COMP_CWORD]} before=${COMP_WORDS[COMP_CWORD-1]}",
        "    case $before in",
        *choices,
        *([f"        {untold}) return ;;"] if untold else []),
        "    esac",
        "    case $word in",
        f"        -*) COMPREPLY=($(compgen -W \"{' '.join('--' + option.long for option in options)}\" -- \"$word\")) ;;",
        '        *) COMPREPLY=($(compgen -f -- "$word")) ;;',
        "    esac",
        "}",
        f"complete -o filenames -F {function} {name}",
        "",
    ])


def quoted(text):
    return "'" + text.replace("'", "'\\''") + "'"


def zsh(words):
    lines = ["#compdef chipbench", "# Completion of chipbench's words for zsh; made by frontends/editors/generate.py.", "",
             "_chipbench() {", "    local -a commands", "    commands=("]
    lines += [f"        {quoted(command.name + ':' + command.about)}" for command in words.commands]
    lines += ["    )", "    if (( CURRENT == 2 )); then",
              "        _describe command commands", "        return", "    fi",
              "    case $words[2] in"]
    for command in words.commands:
        lines.append(f"        {command.name})")
        if command.name == "explain":
            lines.append(f"            compadd -- $({CODES}) ;;")
            continue
        rest = ["'*:file:_files'"] if command.places else []
        rest += zsh_options(command.options)
        lines.append("            " + ("_arguments " + " \\\n                ".join(rest) if rest else "_message 'no arguments'") + " ;;")
    lines += ["    esac", "}", "", '_chipbench "$@"', ""]
    return "\n".join(lines)


def zsh_options(options):
    """The specifications of options: in brackets what each does, in which a bracket has a backslash."""
    made = []
    for option in options:
        text = re.sub(r"([\[\]\\])", r"\\\1", short(option))
        action = f":name:({CHOICES[option.long]})" if option.long in CHOICES else (
            ":file:_files" if option.value in ("FILE", "PATH") else f":{option.value}:" if option.value else "")
        made.append(quoted(f"--{option.long}[{text}]{action}"))
    return made


def zsh_launcher(name):
    specifications = ["'*:file:_files'", *zsh_options(launched(name))]
    return "\n".join([f"#compdef {name}", f"# Completion of {name}'s options for zsh; made by frontends/editors/generate.py.", "",
                      "_arguments " + " \\\n    ".join(specifications), ""])


def fish(words):
    lines = ["# Completion of chipbench's words for fish; made by frontends/editors/generate.py."]
    for command in words.commands:
        lines.append("complete -c chipbench -n __fish_use_subcommand -f "
                     f"-a {command.name} -d {quoted(command.about)}")
    takers = {}
    for command in words.commands:
        for option in command.options:
            takers.setdefault(fish_option(option), []).append(command.name)
    takers[f"-f -a {quoted('(' + CODES + ')')}"] = ["explain"]
    for words_after, names in takers.items():
        lines.append(f"complete -c chipbench -n '__fish_seen_subcommand_from {' '.join(names)}' {words_after}")
    return "\n".join(lines + [""])


def fish_option(option):
    value = f" -x -a '{CHOICES[option.long]}'" if option.long in CHOICES else (
        " -r" if option.value in ("FILE", "PATH") else " -x" if option.value else "")
    return f"-l {option.long}{value} -d {quoted(short(option))}"


def fish_launcher(name):
    lines = [f"# Completion of {name}'s options for fish; made by frontends/editors/generate.py."]
    lines += [f"complete -c {name} {fish_option(option)}" for option in launched(name)]
    return "\n".join([*lines, ""])


def roff(text):
    text = text.replace("\\", "\\e").replace("-", "\\-")
    return "\\&" + text if text[:1] in ".'" else text


def manual(words):
    lines = ['.\\" Made by frontends/editors/generate.py.', ".TH CHIPBENCH 1", ".SH NAME",
             "chipbench \\- " + roff(words.about), ".SH SYNOPSIS"]
    for command in words.commands:
        places = " ".join(command.places)
        if command.name in ("debug", "explain"):
            places = f"[{places}]"
        elif command.name in ("check", "test"):
            places = f"{places} .."
        options = " ".join(
            f"--{o.long}{' ' + o.value if o.value else ''}" if o.long == "steps"
            else f"[--{o.long}{' ' + o.value if o.value else ''}]" for o in command.options)
        lines += [".br", roff(" ".join(["chipbench", command.name, places, options]).strip())]
    lines += [".SH COMMANDS"]
    for command in words.commands:
        lines += [".TP", f".B {command.name}", roff(command.about) + "."]
        lines += [".br", "Example: " + roff(command.example)] if command.example else []
    lines += [".SH OPTIONS"]
    # by its name and its value, what each option does, with the commands in which it does so
    helps = {}
    for command in words.commands:
        for option in command.options:
            shown = f"--{option.long} {option.value or ''}".strip()
            helps.setdefault(shown, {}).setdefault(option.help, []).append(command.name)
    for shown, meanings in helps.items():
        texts = [text if len(meanings) == 1 else f"{text} ({', '.join(names)})" for text, names in meanings.items()]
        lines += [".TP", f".B {roff(shown)}", "\n.br\n".join(roff(text) + "." for text in texts)]
    lines += [
        ".SH EXIT STATUS", ".TP", "0", "Done.", ".TP", "1", "The source has faults, or doesn't open; traces differ; a case fails; `explore` found a script.",
        ".TP", "2", "The arguments, a tape or a file of key events are faulty.", ".TP", "3",
        "A file, the input or the output failed, or there was too much input.", ".TP", "4",
        "Out of memory.", ".SH SEE ALSO", ".BR chipbench\\-page (1),", ".br",
        "docs/FORMATS.md (commands and answers),", ".br", "docs/LANGUAGE.md (the language of sources),", ".br",
        "docs/MACHINE.md (the machine),", ".br", "docs/GUIDE.md (a first game)", ""]
    return "\n".join(lines)


def vim(language):
    def keyword(group, words):
        return f"syntax keyword {group} {' '.join(words)}"

    registers = [f"V{digit}" for digit in "0123456789ABCDEF"]
    return "\n".join([
        '" CHIP-8 and SUPER-CHIP sources; made by frontends/editors/generate.py.',
        'if exists("b:current_syntax")', "  finish", "endif", "syntax case ignore",
        keyword("chip8Instruction", language.mnemonics),
        keyword("chip8Directive", language.directives),
        keyword("chip8Switch", language.switches),
        keyword("chip8Register", registers + language.parts),
        r"syntax match chip8Number /\<\d\+\>\|#\x\+\>\|@\o\+\>\|\$[01.]\+/",
        r"syntax match chip8Label /^\s*\h\w*\s*:/",
        "syntax region chip8Text start=/'/ end=/'/ oneline",
        'syntax region chip8Text start=/"/ end=/"/ oneline',
        "syntax match chip8Comment /;.*$/",
        r"syntax match chip8Property /^\s*;!.*$/ contains=chip8PropertyWord,chip8PropertyItem,chip8Number",
        r"syntax match chip8PropertyWord /\c\<\%%(%s\)\>/ contained" % r"\|".join(PROPERTY_WORDS),
        r"syntax match chip8PropertyItem /\c\<\%%(V\x\|%s\)\>/ contained" % r"\|".join(PROPERTY_ITEMS),
        *(f"highlight default link chip8{group} {link}" for group, link in (
            ("Instruction", "Statement"), ("Directive", "PreProc"), ("Switch", "Constant"),
            ("Register", "Identifier"), ("Number", "Number"), ("Label", "Label"), ("Text", "String"),
            ("Comment", "Comment"), ("Property", "SpecialComment"), ("PropertyWord", "Statement"), ("PropertyItem", "Identifier"))),
        'let b:current_syntax = "chip8"', "",
    ])


def textmate(language):
    def words(name, texts):
        return {"name": name + ".chip8", "match": rf"(?i)\b({'|'.join(texts)})\b"}

    number = {"name": "constant.numeric.chip8", "match": r"#[0-9A-Fa-f]+\b|@[0-7]+\b|\$[01.]+|\b[0-9]+\b"}
    inside = [words("keyword.other.property", PROPERTY_WORDS), words("variable.language.property", ["V[0-9A-F]"] + PROPERTY_ITEMS), number]
    patterns = [
        {"name": "meta.property.chip8", "begin": r"^[ \t]*;!", "end": "$", "patterns": inside,
         "beginCaptures": {"0": {"name": "punctuation.definition.property.chip8"}}},
        {"name": "comment.line.semicolon.chip8", "match": ";.*$"},
        {"name": "string.quoted.single.chip8", "match": "'[^']*'"},
        {"name": "string.quoted.double.chip8", "match": '"[^"]*"'},
        {"name": "entity.name.label.chip8", "match": r"^\s*[A-Za-z_]\w*(?=\s*:)"},
        words("keyword.mnemonic", language.mnemonics),
        words("keyword.control.directive", language.directives),
        words("constant.language", language.switches),
        words("variable.language.register", ["V[0-9A-F]"] + language.parts),
        number,
    ]
    made = {"name": "CHIP-8", "scopeName": "source.chip8", "fileTypes": ["asm", "ch8asm"],
            "comment": "Made by frontends/editors/generate.py.", "patterns": patterns}
    return json.dumps(made, indent=2) + "\n"


def emacs(language):
    def words(name, texts, what):
        listed = "\n    ".join(" ".join(f'"{text}"' for text in texts[start : start + 10]) for start in range(0, len(texts), 10))
        return f"(defconst chip8-{name}\n  '({listed})\n  \"{what}\")\n"

    return "\n".join([
        ";;; chip8-words.el --- words of CHIP-8 sources; made by frontends/editors/generate.py  -*- lexical-binding: t -*-",
        "", ";;; Code:", "",
        words("mnemonics", language.mnemonics, "Names of instructions."),
        words("directives", language.directives, "Names of directives."),
        words("switches", language.switches, "Words of OPTION and ALIGN."),
        words("parts", language.parts, "Words that name a part of the machine."),
        "(provide 'chip8-words)", ";;; chip8-words.el ends here", ""])


# the ball of the README, on a screen of 16 by 16 pixels
ICON_ROWS = ((3, "..####.."), (4, ".######."), (5, "########"), (6, "########"), (7, "########"), (8, "########"), (9, ".######."), (10, "..####.."))
ICON_SCALE = 8
ICON_COLOURS = bytes.fromhex("1b2b34" "99c794")


def icon():
    """A picture of 128 by 128 pixels of two colours, as PNG. Its rows aren't compressed, so that each zlib gives the same bytes."""
    def chunk(kind, content):
        return struct.pack(">I", len(content)) + kind + content + struct.pack(">I", zlib.crc32(kind + content))

    rows, size = dict(ICON_ROWS), 16 * ICON_SCALE
    lines = (rows.get(row, "").center(16, ".") for row in range(16) for _ in range(ICON_SCALE))
    # a pixel of the screen is a byte of the picture: 8 pixels of one bit
    content = b"".join(b"\0" + bytes(255 * (pixel == "#") for pixel in line) for line in lines)
    header = struct.pack(">IIBBBBB", size, size, 1, 3, 0, 0, 0)
    parts = (b"IHDR", header), (b"PLTE", ICON_COLOURS), (b"IDAT", zlib.compress(content, 0)), (b"IEND", b"")
    return b"\x89PNG\r\n\x1a\n" + b"".join(chunk(*part) for part in parts)


def files():
    words, language = Words(), Language()
    return {
        "chipbench.bash": bash(words),
        "_chipbench": zsh(words),
        "chipbench.fish": fish(words),
        "chipbench.1": manual(words),
        **{f"{name}.bash": bash_launcher(name) for name in LAUNCHERS},
        **{f"_{name}": zsh_launcher(name) for name in LAUNCHERS},
        **{f"{name}.fish": fish_launcher(name) for name in LAUNCHERS},
        "vim/syntax/chip8.vim": vim(language),
        "vscode/syntaxes/chip8.tmLanguage.json": textmate(language),
        "emacs/chip8-words.el": emacs(language),
        "vscode/icon.png": icon(),
    }


def main(arguments):
    is_check = arguments == ["--check"]
    if arguments and not is_check:
        print(__doc__, file=sys.stderr)
        return 2
    stale = []
    for name, made in files().items():
        path, content = HERE / name, made if isinstance(made, bytes) else made.encode()
        if is_check:
            if not path.is_file() or path.read_bytes() != content:
                stale.append(name)
        else:
            path.parent.mkdir(parents=True, exist_ok=True)
            path.write_bytes(content)
    for name in stale:
        print(f"frontends/editors/{name} isn't what the tables give: run frontends/editors/generate.py", file=sys.stderr)
    return 1 if stale else 0


if __name__ == "__main__":
    sys.exit(main(sys.argv[1:]))
