"""The crates of the repository, as crates.txt lists them, its version, the logic that it is proved with, its documents, and the
functions of a source; the options of the command `ruled`, as its own `--help` describes them, with its man page and its
completions for shells, which are made of that; the files of an installed one, as
they lie below a prefix; and what proving costs: the figures of the last measured run of the gate, and this machine beside its own.

`python3 tools/repository.py NAME` prints those below a crate, lowest first, and then that one.
"""
import dataclasses
import gzip
import os
import pathlib
import re
import resource
import shlex
import shutil
import subprocess
import sys
import tempfile
from typing import NamedTuple, Optional

HERE = pathlib.Path(__file__).resolve().parent
TOP = HERE.parent
VERSION, LOGIC = (line.split()[1] for line in (TOP / "VERSION").read_text().splitlines())
PAGES = sorted([*TOP.glob("*.md"), *TOP.glob("docs/**/*.md"), *TOP.glob("crates/*/*.md")])
COMPLETIONS = {
    "bash": "share/bash-completion/completions/ruled",
    "zsh": "share/zsh/vendor-completions/_ruled",
    "fish": "share/fish/vendor_completions.d/ruled.fish",
}
PROGRAM, COMMAND, PAGE = "lib/ruled/ruled", "bin/ruled", "share/man/man1/ruled.1.gz"
FILES = [PROGRAM, COMMAND, PAGE, *COMPLETIONS.values()]
ROW = re.compile(r" +(?:-(\w), )?--([\w-]+)(?:(\[=)?[ ]?<([\w]+)>\]?)?  +(.+)")
VALUES = re.compile(r" \[possible values: ([^\]]+)\]")
CRATE = re.compile(r" *(\d+)  (\w+)$", re.M)
HEX = re.compile(r"times hex, which took ([\d.]+)")

# The installed command.
LAUNCHER = '''\
#!/bin/sh
# Runs the proved program, and passes it the terminal's width if it writes to a terminal.
if [ -z "${COLUMNS:-}" ] && [ -t 1 ] && { size="$(stty size <&3 2> /dev/null)"; } 3>&1; then
    COLUMNS="${size#* }"
    export COLUMNS
fi
self="$(readlink -f -- "$0")"
exec "${self%/bin/*}/lib/ruled/ruled" "$@"
'''


def crate_lines(text):
    """The lines of a crates.txt by the crates that they name, without comments."""
    lines = [line.partition("#")[0].strip() for line in text.splitlines()]
    return {re.split(r"[\s:]", line, maxsplit=1)[0]: line for line in lines if line}


def libraries_of(line):
    """The libraries that a line of a crates.txt names, those of the kit, too."""
    return re.findall(r"[^\s,]+", line.partition(":")[2])


def own_lines():
    """The lines of this repository's crates.txt."""
    return crate_lines((TOP / "crates.txt").read_text())


def crates_below(name, lines):
    """The listed crates below a crate, each after those below it."""
    found = []
    for below in libraries_of(lines[name]):
        if below in lines:
            found += [it for it in [*crates_below(below, lines), below] if it not in found]
    return found


def sources_of(name):
    """The files that the proof of a crate reads."""
    folders = [TOP / "crates" / name / part for part in ("src", "specs", "proofs")]
    return [file for folder in folders for file in sorted(folder.rglob("*")) if file.is_file()]


def functions_in(text):
    """Where each function of a file begins and ends, with the type and the trait of its impl, and its name."""
    for fn in re.finditer(r"^( *)(?:pub(?:\([a-z]+\))? )?(?:const )?(?:unsafe )?(?:final )?fn (\w+)", text, re.M):
        closing = re.compile(rf"^{fn[1]}(\}}|\{{\}})$", re.M).search(text, fn.end())
        kind = trait = ""
        if fn[1]:
            head = re.findall(r"^(?:pub(?:\([a-z]+\))? )?(?:unsafe )?(?:impl|trait)\b([^{;]*)", text[: fn.start()], re.M)[-1]
            trait, kind = type_of(head)
        yield fn.start(), closing.end() if closing else len(text), (kind, trait, fn[2])


def type_of(head):
    """The trait, if there is one, and the type of an impl's first line."""
    head = re.split(r"\bwhere\b", behind_parameters(head))[0]
    trait, _, kind = head.rpartition(" for ")
    # Each impl of `From` has the name of what it converts.
    converted = re.match(r"From\s*<\s*(?:&?\s*(\w+)|\()", trait.strip())
    reference = "Ref" if kind.strip().startswith("&") else ""
    return last_word(trait) + (converted[1] or "Tuple" if converted else ""), reference + last_word(kind.strip().lstrip("&"))


def behind_parameters(head):
    """An impl's first line behind its type parameters."""
    depth, at = 0, 0
    if not head.startswith("<"):
        return head
    for at, letter in enumerate(head):
        depth += (letter == "<") - (letter == ">" and head[at - 1] != "-")
        if depth == 0:
            break
    return head[at + 1 :]


def last_word(path):
    """The last word of a path, without its type parameters."""
    return (re.findall(r"\w+(?=\s*(?:<|$))", path.strip()) or [""])[0]


class Block(NamedTuple):
    """A line of a page, or a fence with all its lines: the number of its first line, its text, and a fence's word."""

    number: int
    text: str
    word: Optional[str]

    def is_fence(self):
        return self.word is not None


def blocks_of(page):
    """The lines and the fences of a page, in their order."""
    fence = None
    for number, line in enumerate(page.read_text().split("\n"), 1):
        is_edge = line.lstrip().startswith("```")
        if fence is None and is_edge:
            fence = Block(number, "", line.strip().removeprefix("```"))
        elif fence is None:
            yield Block(number, line, None)
        elif is_edge:
            yield fence
            fence = None
        else:
            fence = fence._replace(text=f"{fence.text}{line}\n")
    if fence:
        yield fence


@dataclasses.dataclass(frozen=True)
class Option:
    """An option: its letter and its name, the name of its value, the values that it takes, and what it does."""

    letter: str | None
    name: str
    value: str | None
    may_lack_value: bool
    values: tuple[str, ...]
    text: str

    def spelling(self):
        """How it is written, with its value: --stream[=ROWS]."""
        if self.value is None:
            return f"--{self.name}"
        return f"--{self.name}[={self.value}]" if self.may_lack_value else f"--{self.name} {self.value}"


def option_of(row):
    """The option of a line of the help, where it is one."""
    found = ROW.fullmatch(row)
    if not found:
        return None
    letter, name, lacks, value, text = found.groups()
    listed = VALUES.search(text)
    values = tuple(listed[1].split(", ")) if listed else ()
    return Option(letter, name, value, lacks is not None, values, VALUES.sub("", text))


def options_in(text):
    """The options of a help text."""
    return [option for option in map(option_of, text.splitlines()) if option]


def said_by(program, word):
    """What a program writes where it is run with a word alone."""
    return subprocess.run([program, word], check=True, capture_output=True, text=True).stdout


def options_of(program):
    """The options of a program."""
    return options_in(said_by(program, "--help"))


def version_of(program):
    """The version that a program reports, without its name and the logic that it is proved with."""
    return said_by(program, "--version").split()[1]


# ---- the man page

MAN_BEFORE = r"""'\" t
.TH RULED 1 "" "ruled {version}" "User Commands"
.SH NAME
ruled \- print CSV, TSV, JSON, a table of an SQLite database or the result of a query
.SH SYNOPSIS
.B ruled
.RI [ OPTIONS ]\ [ FILE ...]
.SH DESCRIPTION
.B ruled
reads
.IR FILE ,
or standard input if there is none or it is
.BR \- ,
and prints its rows as a table; the rows of further files with the same header follow. The first row is the header unless
.B \-\-no\-header
is given. The format comes from
.BR \-\-format ,
else the file's extension, else its first bytes. If something is wrong with the input, one line on standard error says
what, and nothing is printed, except for rows that
.B \-\-stream
has printed before.
.SH OPTIONS
"""
MAN_AFTER = r""".SH EXIT STATUS
.TP
.B 0
The table was printed, or nobody reads the output.
.TP
.B 2
The arguments, the input or the query are wrong.
.TP
.B 3
The table is too large to measure.
.TP
.B 4
Out of memory.
.TP
.B 5
A file can't be opened, or a read or a write failed.
.SH ENVIRONMENT
.TP
.B COLUMNS
The greatest width of a line, unless
.B \-\-width
is given. If it isn't set and the output is a terminal, the default is the terminal's width.
.TP
.BR NO_COLOR ", " TERM
If NO_COLOR isn't empty, or TERM is
.BR dumb ,
nothing has colour, unless
.B \-\-color always
is given.
.SH EXAMPLES
.TP
.B ruled shop.csv
prints a file.
.TP
.B ruled \-\-columns item,price \-\-look rounded shop.csv
prints two of its columns in a table with round corners.
.TP
.B tail \-f log.csv | ruled \-\-stream=1
prints each row as it arrives.
.TP
.B ruled shop.db
prints the tables of a database.
.TP
.B ruled \-\-table item shop.db
prints all rows of one.
"""


def roff(text):
    """A text in which nothing is a request or an escape of roff."""
    text = text.replace("\\", r"\e").replace("-", r"\-").replace("…", r"\[u2026]")
    return r"\&" + text if text[:1] in {".", "'"} else text


def paragraph_of(option):
    """The paragraph of an option."""
    names = [f"\\-{option.letter}"] if option.letter else []
    names.append(roff(option.spelling()))
    values = f" One of: {', '.join(option.values)}." if option.values else ""
    return f".TP\n.B {', '.join(names)}\n{roff(option.text + '.' + values)}\n"


def man(program):
    options = "".join(map(paragraph_of, options_of(program)))
    return MAN_BEFORE.replace("{version}", roff(version_of(program))) + options + MAN_AFTER


# ---- completions

BASH = """# Completions of ruled for bash.
_ruled() {{
    local word="${{COMP_WORDS[COMP_CWORD]}}" before="${{COMP_WORDS[COMP_CWORD-1]}}"
    case "$before" in
{cases}
    esac
    case "$word" in
        -*) COMPREPLY=($(compgen -W "{words}" -- "$word")) ;;
        *) COMPREPLY=($(compgen -f -- "$word")) ;;
    esac
}}
complete -o filenames -F _ruled ruled
"""


def names_of(option):
    """An option as it is written, without its value."""
    return ([f"-{option.letter}"] if option.letter else []) + [f"--{option.name}"]


def words_of(options):
    """All options as they are written."""
    return [name for option in options for name in names_of(option)]


def bash(options):
    """The values after an option; nothing after one whose value is free."""
    taking = [option for option in options if option.value and not option.may_lack_value]
    cases = [
        f'        {"|".join(names_of(option))}) COMPREPLY=($(compgen -W "{" ".join(option.values)}" -- "$word")); return ;;'
        for option in taking
    ]
    return BASH.format(cases="\n".join(cases), words=" ".join(words_of(options)))


def zsh_text(text):
    """A text in the brackets of an argument of zsh."""
    return text.replace("\\", "\\\\").replace("[", "\\[").replace("]", "\\]").replace(":", "\\:")


def zsh_entry(option):
    """What _arguments reads of an option."""
    sign = {True: "=-", False: "="}[option.may_lack_value] if option.value else ""
    values = f":{option.value}:({' '.join(option.values)})" if option.values else f":{option.value}:" if option.value else ""
    entry = shlex.quote(f"--{option.name}{sign}[{zsh_text(option.text)}]{values}")
    if not option.letter:
        return entry
    letter = shlex.quote(f"-{option.letter}{'+' if option.value else ''}[{zsh_text(option.text)}]{values}")
    return f"{entry} {letter}"


def zsh(options):
    entries = " \\\n    ".join([*map(zsh_entry, options), "'*:file:_files'"])
    return f"#compdef ruled\n# Completions of ruled for zsh.\n_arguments \\\n    {entries}\n"


def fish_entry(option):
    """The line of an option for fish."""
    words = ["complete", "-c", "ruled", "-l", option.name]
    words += ["-s", option.letter] if option.letter else []
    words += ["-x"] if option.value and not option.may_lack_value else []
    words += ["-a", " ".join(option.values)] if option.values else []
    return shlex.join([*words, "-d", option.text])


def fish(options):
    return "# Completions of ruled for fish.\n" + "\n".join(map(fish_entry, options)) + "\n"


def help_page(kind, program):
    """The man page of a program, or its completions for a shell, made from its own --help."""
    shells = {"bash": bash, "zsh": zsh, "fish": fish}
    return man(program) if kind == "man" else shells[kind](options_of(program))



# ---- files of an installed program


def write(file, data, mode=0o644):
    """Writes a file, and the folders above it."""
    file.parent.mkdir(parents=True, exist_ok=True)
    file.write_bytes(data)
    file.chmod(mode)


def lay_out(program, folder):
    """Puts the stripped program, its launcher, its page and its completions below a folder; returns the files."""
    write(folder / PROGRAM, program.read_bytes(), 0o755)
    subprocess.run(["strip", "--remove-section=.comment", folder / PROGRAM], check=True)
    write(folder / COMMAND, LAUNCHER.encode(), 0o755)
    write(folder / PAGE, gzip.compress(help_page("man", program).encode(), 9, mtime=0))
    for shell, name in COMPLETIONS.items():
        write(folder / name, help_page(shell, program).encode())
    return [folder / name for name in FILES]


def children_seconds():
    """The seconds of processor that ended processes of this one have taken."""
    used = resource.getrusage(resource.RUSAGE_CHILDREN)
    return used.ru_utime + used.ru_stime


def hex_seconds(folder):
    """Proves the kit's crate `hex` in a folder, under another name, as its own is taken; returns its seconds."""
    kit = pathlib.Path(subprocess.check_output(["rt", "doc"], text=True).strip()).parent
    crate = folder / "hex" / "crates" / "hex_again"
    shutil.copytree(kit / "rattle" / "hex", crate, ignore=shutil.ignore_patterns("uses", "BUILD.bazel"))
    for file in [*crate.rglob("*.rt"), *crate.rglob("*.antt")]:
        file.write_text(file.read_text().replace("Rattle.hex.", "Rattle.hex_again."))
    (folder / "hex" / "crates.txt").write_text("hex_again:\n")
    subprocess.run(["git", "init", "-q", folder / "hex"], check=True)
    before = children_seconds()
    proved = subprocess.run(["rt", "check", "--jobs", "1"], cwd=crate, capture_output=True, text=True)
    if proved.returncode:
        sys.exit(f"hex isn't proved\n{proved.stdout[-1000:]}{proved.stderr[-1000:]}")
    return children_seconds() - before


def measured():
    """The seconds of each crate in the last measured run, and those of hex in that run."""
    text = (HERE / "prices").read_text()
    return {name: int(seconds) for seconds, name in CRATE.findall(text)}, float(HEX.search(text)[1])


def seconds_for(names):
    """The seconds of processor of proofs of these crates, on the machine of the measured run."""
    seconds, _ = measured()
    return sum(seconds.get(name, 150) for name in names)


def gigabytes_for(names):
    """About how many gigabytes the proofs of these crates keep in their folders out/: 2.3 MB a second."""
    return max(1, round(seconds_for(names) * 2.3 / 1000))


def minutes_for(names):
    """About how many minutes proofs of these crates take on this machine, one after another.

    A crate's proof keeps some two processors busy, however many there are.
    """
    _, hex_there = measured()
    with tempfile.TemporaryDirectory() as folder:
        speed = hex_seconds(pathlib.Path(folder)) / hex_there
    processors = min(2, len(os.sched_getaffinity(0)))
    return round(seconds_for(names) * speed / processors / 60)


if __name__ == "__main__":
    print(*crates_below(sys.argv[1], own_lines()), sys.argv[1], sep="\n")
