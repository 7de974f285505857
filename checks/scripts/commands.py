"""Compares all that names the program's commands with docs/commands.tsv: PROGRAM.

The program's usage line and help, the manual page, the three completions, and the tables of README.md and docs/formats.md have
to name the same commands with the same names, options and statuses.
"""
import os
import re
import subprocess
import sys
import tempfile
from collections import namedtuple

Command = namedtuple("Command", "word names options statuses")
SHELLS = {"bash": "docs/completions/pipapo.bash", "zsh": "docs/completions/_pipapo", "fish": "docs/completions/pipapo.fish"}
USAGE_STATUS = 2


def read(name):
    with open(name, encoding="utf-8") as file:
        return file.read()


def listed():
    """The rows of the table."""
    lines = [line for line in read("docs/commands.tsv").splitlines() if line and not line.startswith("#")]
    if lines[0].split("\t") != ["command", "names", "options", "statuses"]:
        sys.exit("docs/commands.tsv has other columns than expected")
    rows = [line.split("\t") for line in lines[1:]]
    return [Command(word, names, [option for option in options.split(",") if option], [int(number) for number in statuses.split(",")])
            for word, names, options, statuses in rows]


def form(command):
    """A command as a usage line has it: the options come before names that end with `..`, and else after the names."""
    options = [f"[{option}]" for option in command.options]
    parts = [*options, command.names] if command.names.endswith("..") else [command.names, *options]
    return " ".join([command.word, *parts])


def by_word(commands):
    """The forms of each command, by its word."""
    groups = {}
    for command in commands:
        groups.setdefault(command.word, []).append(command)
    return groups


def flags(command):
    return sorted(option.split()[0] for option in command.options)


def flags_in(text):
    return sorted(set(re.findall(r"--[a-z-]*[a-z]", text)) - {"--help", "--version"})


def written(program, *words):
    return subprocess.run([program, *words], capture_output=True, text=True).stdout


def statuses_of(page):
    """The statuses that a command's help names: each part between commas begins with one."""
    said = " ".join(page.partition("statuses: ")[2].split())
    return sorted(int(part.split()[0]) for part in said.split(", ") if part.split()[0].isdigit())


def joined_statuses(commands):
    return sorted({USAGE_STATUS} | {number for command in commands for number in command.statuses})


def section(page, name):
    """The lines of a section of the manual page, without the escapes of roff."""
    return page.partition(f"\n.SH {name}\n")[2].partition("\n.SH ")[0].replace("\\-", "-").splitlines()


def synopsis(page):
    """The forms of the manual page's synopsis, one for each .br."""
    forms, words = [], []
    for line in section(page, "SYNOPSIS") + [".br"]:
        if line == ".br":
            forms.append(" ".join(words).replace("[ ", "[").replace(" ]", "]"))
            words = []
        else:
            words += re.sub(r"^\.[A-Z]+ ", "", line).split()
    return [text.removeprefix("pipapo ") for text in forms]


def page_statuses(page):
    lines = [line for line in section(page, "EXIT STATUS") if re.match(r"\.BR? \d", line)]
    return sorted(int(number) for line in lines for number in re.findall(r"\d+", line))


def table(text, head):
    """The rows of the first table whose first column has this head, each as its cells."""
    lines = text.splitlines()
    at = next((number for number, line in enumerate(lines) if re.match(rf"\| {head} *\|", line)), None)
    rows = []
    for line in lines[at + 2:] if at is not None else []:
        if not line.startswith("|"):
            break
        rows.append([cell.strip() for cell in re.split(r"(?<!\\)\|", line)[1:-1]])
    return rows


def numbers_in(cells):
    return sorted(int(number) for cell in cells for number in re.findall(r"\d+", cell))


def program_faults(program, commands):
    forms = [form(command) for command in commands]
    usage = written(program).strip().removeprefix("pipapo: usage: ")
    if usage.split(" | ") != forms:
        yield f"the usage line is {usage}"
    help_text = written(program, "help")
    of_help = re.findall(r"^(?:usage:|      ) pipapo (.*)$", help_text, re.M)
    if of_help[:len(forms)] != forms:
        yield "help has other forms"
    described = re.findall(r"^    ([a-z]+) +\S", help_text.partition("\ncommands:\n")[2].partition("\n\n")[0], re.M)
    if sorted(described) != sorted(by_word(commands)):
        yield "help describes other commands"
    said = subprocess.run([program], capture_output=True, text=True).stderr
    if sorted(re.split(", | and ", said.partition("the commands are ")[2].strip())) != sorted([*described, "help"]):
        yield f"the note on a missing command is {said}"
    of_statuses = re.findall(r"^  (\d+) ", help_text.partition("\nstatuses:\n")[2], re.M)
    if sorted(map(int, of_statuses)) != joined_statuses(commands):
        yield "help has other statuses"
    for word, group in by_word(commands).items():
        page = written(program, "help", word)
        if re.findall(r"^(?:usage:|      ) pipapo (.*)$", page, re.M) != [form(command) for command in group]:
            yield f"help {word} has other forms"
        if statuses_of(page) != sorted({number for command in group for number in command.statuses}):
            yield f"help {word} has the statuses {statuses_of(page)}"
        described = sorted(re.findall(r"^  (--[a-z-]+)", page, re.M))
        if described != flags(group[0]):
            yield f"help {word} describes the options {described}"


def example_faults(program, word):
    """The example of a command's help, pasted into a shell, prints what the page says."""
    lines = written(program, "help", word).partition("\nAn example")[2].partition("\n\n")[2]
    pasted, _, rest = lines.partition("\n\n")
    shown = rest.partition("\n\n")[2].partition("\n\n")[0]
    with tempfile.TemporaryDirectory() as room:
        os.symlink(os.path.abspath(program), os.path.join(room, "pipapo"))
        found = {**os.environ, "PATH": room + os.pathsep + os.environ["PATH"]}
        done = subprocess.run(["sh"], input=pasted, capture_output=True, text=True, cwd=room, env=found)
    if [line.removeprefix("  ") for line in shown.splitlines()] != done.stdout.splitlines() or not done.stdout:
        yield f"the example of help {word} prints {done.stdout}{done.stderr}"


def page_faults(commands):
    page = read("docs/pipapo.1")
    if synopsis(page)[:len(commands)] != [form(command) for command in commands]:
        yield "the synopsis of the manual page has other forms"
    told = [line[3:] for line in section(page, "COMMANDS") if line.startswith(".B ")]
    missing = [command.word for command in commands if command.word not in told]
    if missing:
        yield f"the manual page doesn't describe {' '.join(missing)}"
    if page_statuses(page) != joined_statuses(commands):
        yield "the manual page has other statuses"
    every = sorted({flag for command in commands for flag in flags(command)})
    if flags_in("\n".join(section(page, "OPTIONS"))) != every:
        yield "the manual page describes other options"


def document_faults(commands):
    rows = {cell: " ".join(rest) for cell, *rest in table(read("README.md"), "Command")}
    named = [re.fullmatch(r"`pipapo ([a-z]+) ([^`]*)`", cell) for cell in rows]
    found = {match[1]: match for match in named if match and match[1] != "help"}
    if sorted(found) != sorted(by_word(commands)):
        yield f"README.md's table has the commands {' '.join(found)}"
    for command, *_ in by_word(commands).values():
        match = found.get(command.word)
        if match and match[2].partition(" [--")[0] != command.names:
            yield f"README.md's table has the names {match[2]} of {command.word}"
        if match and set(flags_in(match[0] + rows[match[0]])) - set(flags(command)):
            yield f"README.md's table has other options of {command.word}"
    forms = [row[0].strip("`") for row in table(read("docs/formats.md"), "Command")]
    if forms[:len(commands)] != [form(command) for command in commands]:
        yield "docs/formats.md's table has other forms"
    for name in ("README.md", "docs/formats.md"):
        if numbers_in(row[0] for row in table(read(name), "Status")) != joined_statuses(commands):
            yield f"{name}'s table has other statuses"


def flags_by_bash(text, word):
    """What the completion of bash offers of a command: the branch of its case that names it."""
    branches = re.findall(r"^ +([a-z |]+)\) .*?-W \"(--[^\"]*)\"", text, re.M)
    return sorted(flag for names, offered in branches if word in names.split(" | ") for flag in flags_in(offered))


def flags_by_zsh(text, word):
    branches = re.findall(r"^([a-z |]+)\) (_arguments .*)$", text, re.M)
    return sorted(flag for names, offered in branches if word in names.split(" | ") for flag in flags_in(offered))


def flags_by_fish(text, word):
    lines = re.findall(r'__fish_seen_subcommand_from ([a-z ]+)" -l ([a-z-]+)', text)
    return sorted(f"--{flag}" for names, flag in lines if word in names.split())


def completion_faults(commands):
    words = list(by_word(commands))
    texts = {shell: read(name) for shell, name in SHELLS.items()}
    offered = {
        "bash": re.search(r'-W "([a-z ]+) help --help --version -V"', texts["bash"]),
        "zsh": re.search(r"command:\(([a-z ]+)\)", texts["zsh"]),
        "fish": re.search(r"^set -l commands ([a-z ]+) help$", texts["fish"], re.M),
    }
    described = {"zsh": re.findall(r"^    '([a-z]+):", texts["zsh"], re.M), "fish": re.findall(r" -a ([a-z]+) -d ", texts["fish"])}
    for shell, found in described.items():
        if found != [*words, "help"]:
            yield f"the completion of {shell} describes the commands {' '.join(found)}"
    of_flags = {"bash": flags_by_bash, "zsh": flags_by_zsh, "fish": flags_by_fish}
    for shell, match in offered.items():
        if match is None or match[1].split() != words:
            yield f"the completion of {shell} offers other commands"
        for command in commands:
            found = of_flags[shell](texts[shell], command.word)
            if found != flags(command):
                yield f"the completion of {shell} offers the options {' '.join(found)} of {command.word}"


def main():
    commands = listed()
    examples = [fault for word in ("run", "explain", "stat") for fault in example_faults(sys.argv[1], word)]
    faults = [*program_faults(sys.argv[1], commands), *examples, *page_faults(commands), *document_faults(commands),
              *completion_faults(commands)]
    for fault in faults:
        print(f"commands: unlike docs/commands.tsv: {fault}")
    print(f"commands: {len(commands)} commands compared, {len(faults)} differences")
    return 1 if faults else 0


if __name__ == "__main__":
    sys.exit(main())
