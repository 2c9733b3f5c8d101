"""What a program says of itself in its help, and what other texts lack beside it: completions, manual pages, files for editors.

ticklab has a help of several sections, and one for each command. ticketc has a line: `usage: ticketc order N | check`. The
texts stand under the words by which they are asked for, so that a fault may be planted in them.
"""
import re
import shutil
import tempfile

from parts.asking import NAMES, program_of_sources
from parts.tool import TOP, ran

BASH, ZSH, FISH, MANUAL = (
    "share/bash-completion/completions/{}", "share/zsh/site-functions/_{}", "share/fish/vendor_completions.d/{}.fish",
    "share/man/man1/{}.1",
)
PAGES = (MANUAL.format("ticketc"), MANUAL.format("ticklab"), "share/man/man5/tick.5")
EDITORS = ("share/ticketc/tick.tmLanguage.json", "share/vim/vimfiles/syntax/tick.vim")
# What a text has of a command, how an option is written there, and whether arguments stand there by their names.
FORMS = (
    (BASH, r" commands='(?:.* )?{0}[ '].*|^        {0}\) .*", r"--([a-z][\w-]*)", True),
    (ZSH, r"^{0}\)\n(?:  .*\n)*", r"--([a-z][\w-]*)", True),
    (FISH, r"-a {0}(?= -d |$)|-- {0} \(.*?(?= -d |$)", r"\)' -l ([\w-]+)", False),
    (MANUAL, r"^\.Cm {0}\b.*\n(?:\.[OA].*\n)*", r"^\.Op Fl -?([\w-]+)", True),
    (MANUAL, r"^\.Ss {0}\n(?:(?!\.S).*\n)*", r"^\.It Fl -?([\w-]+)", False),
)
# (it may name other options)
DESCRIPTION = re.compile(r"\[(?:\\.|[^]\\])*\]")
OPTION = re.compile(r"^ +(?:-(\w), )?--([\w-]+)", re.MULTILINE)
EXAMPLE = re.compile(r"^Example: (ticklab .*)$", re.MULTILINE)
# The grammars that tick(5) has: the documents, and the headings there.
GRAMMARS = {"docs/LANGUAGE.md": "Grammar", "docs/EXPLORING.md": "Grammar of the lines"}
ESCAPES = {"\\-": "-", "\\(aq": "'", "\\(ga": "`", "\\(ti": "~", "\\(ha": "^", "\\e": "\\", "\\&": ""}

# How each shell only reads a completion.
SHELLS = {"bash": (BASH, "-n"), "zsh": (ZSH, "-n"), "fish": (FISH, "--no-execute")}
# The words of a command line, of which the last is to be completed, and what that becomes. (bash cuts the `@` off.)
ROWS = (
    ("ticklab ex", "explore explain"), ("ticklab help ex", "explore explain"), ("ticklab explore --me", "--memory --merged"),
    ("ticklab explore t", "there.tick two.tick"), ("ticklab explore --limit t", ""), ("ticklab explore --limit 9 t", "there.tick two.tick"),
    ("ticklab explore -- --", ""), ("ticklab check there.tick tw", "two.tick"), ("ticklab trace there.tick t", ""),
    ("ticklab trace there.tick @ @t", "@there.tick @two.tick"), ("ticklab labels t", ""),
)
ASK = """
touch there.tick two.tick
ask() {
    COMP_WORDS=("$@") COMP_CWORD=$(($# - 1)) COMPREPLY=()
    _ticklab ticklab "${COMP_WORDS[COMP_CWORD]}" ''
    echo "${COMPREPLY[@]}"
}
"""


def told():
    texts = {f"{name} --help": ran(program_of_sources(name), "--help").stdout for name in NAMES}
    listed = texts["ticklab --help"].partition("Commands:\n")[2].partition("\n\n")[0]
    names = re.findall(r"^  ([a-z]+) ", listed, re.MULTILINE)
    return {**texts, **{f"ticklab help {name}": ran(program_of_sources("ticklab"), "help", name).stdout for name in names}}


def options_in(text):
    return {name for names in OPTION.findall(text) for name in names if name}


def commands(texts):
    """Each program and command, with the options and the arguments that it takes."""
    for form in texts["ticketc --help"].removeprefix("usage: ticketc ").split(" | "):
        yield "ticketc", form.split()[0], set(), set(form.split()[1:])
    for asked in [it for it in texts if it.startswith("ticklab help ")]:
        usage = re.search(r"^Usage: .*", texts[asked], re.MULTILINE)
        yield "ticklab", asked.split()[2], options_in(texts[asked]), set(re.findall(r"\b[A-Z]+\b", usage[0])) - {"OPTIONS"}


def lacking(texts):
    """What texts lack, or have that a help has not."""
    of_all = options_in(texts["ticklab --help"])
    for program, name, options, arguments in commands(texts):
        for path, form, option, has_arguments in FORMS:
            found = "\n".join(re.findall(form.format(name), texts[path.format(program)], re.MULTILINE))
            known = set(re.findall(option, DESCRIPTION.sub("", found), re.MULTILINE)) - of_all
            wanted = {f"--{it}" for it in options - of_all} | (arguments if has_arguments else set())
            words = {f"--{it}" for it in known} | {it for it in arguments if re.search(rf"\b{it}\b", found)}
            wrong = [f"lacks {it}" for it in sorted(wanted - words)] + [f"has {it}" for it in sorted(words - wanted - arguments)]
            yield from (f"{path.format(program)}: {name} {it}" for it in (wrong if found else ["is lacking"]))
        if not re.search(rf"^\.Ss {name}\n(?:(?!\.S).*\n)*\$ .*\b{name}\b", texts[MANUAL.format(program)], re.MULTILINE):
            yield f"{MANUAL.format(program)}: {name} lacks an example"


def section(text, heading):
    return text.partition(f"\n## {heading}\n")[2].partition("\n## ")[0]


def plain(line):
    return re.sub("|".join(map(re.escape, ESCAPES)), lambda it: ESCAPES[it[0]], line)


def blocks(text):
    """The lines of each literal block of a manual page, with their numbers."""
    for block in re.finditer(r"^\.Bd -literal.*\n((?s:.*?))^\.Ed$", text, re.MULTILINE):
        yield list(enumerate(map(plain, block[1].splitlines()), text.count("\n", 0, block.start(1)) + 1))


def differences(texts):
    yield from lacking(texts)
    said = [f".It {it}" for it in re.findall(r"(?:: |; )(\d+) ", texts["ticklab --help"].partition("Exit status")[2])]
    refusals = re.findall(r"(\d+ [A-Z][A-Za-z]+)[^|]*\|", section(texts["docs/FORMATS.md"], "Refusals"))
    of_pages = [(PAGES[1], it) for it in said] + [(PAGES[0], f".It Ql refused {it}") for it in refusals]
    yield from (f"{path}: lacks {it}" for path, it in of_pages if not re.search(rf"^{re.escape(it)}\b", texts[path], re.MULTILINE))
    shown = [" ".join(line for _, line in block).split() for block in blocks(texts[PAGES[2]])]
    grammars = {path: section(texts[path], heading).split("```")[1] for path, heading in GRAMMARS.items()}
    yield from (f"{PAGES[2]}: no grammar as in {path}" for path, grammar in grammars.items() if grammar.split() not in shown)
    keywords = set(re.findall(r'"([a-z]+)"', grammars["docs/LANGUAGE.md"]))
    for path in EDITORS:
        yield from (f"{path}: lacks the keyword {it}" for it in sorted(keywords - set(re.findall("[a-z]+", texts[path]))))


def examples(texts):
    """The examples of ticklab's help, each behind the name of its command."""
    asked = [it for it in texts if it.startswith("ticklab help ")]
    return [(it.split()[2], line) for it in asked for line in EXAMPLE.findall(texts[it])]


def wrong_in_bash(texts):
    """What is told of the rows that bash answers otherwise."""
    path = BASH.format("ticklab")
    with tempfile.TemporaryDirectory() as own:
        script = texts[path] + ASK + "".join(f"ask {line}\n" for line, _ in ROWS)
        found = ran("bash", "--norc", "-c", script, cwd=own, timeout=600).stdout.split("\n")
    for (line, wanted), became in zip(ROWS, found):
        if sorted(became.split()) != sorted(wanted.split()):
            yield f"{path}: `{line}` becomes {became!r}, and has to become {wanted!r}"


def unread():
    """What is told of completions that their shells can't read, as far as these are here."""
    for shell in filter(shutil.which, SHELLS):
        place, option = SHELLS[shell]
        for path in map(place.format, NAMES):
            came = ran(shell, option, f"{TOP}/{path}")
            yield from [f"{path}: {came.stdout.strip()}"] if came.returncode or came.stdout else []
