"""Makes the man pages and the completion for bash from what `--help` and `COMMAND --help` print."""
import ast
import pathlib
import re
from typing import NamedTuple

OFFICE = pathlib.Path(__file__).resolve().parent.parent / "desk/office"


class Help(NamedTuple):
    """The help of a program or of a command, as clap prints it."""
    about: str
    usage: str
    sections: dict  # heading, such as Commands: pairs of a label and what is said of it
    after: str


def read_help(text):
    """Takes a help apart."""
    about, found, rest = text.partition("\nUsage: ")
    if not found:
        raise ValueError(f"this is no help with a usage: {text[:200]!r}")
    usage, _, rest = rest.partition("\n")
    sections, after = {}, []
    for block in re.split(r"\n{2,}", rest.strip("\n")):
        heading, _, body = block.partition("\n")
        if re.fullmatch(r"[A-Z]\w+:", heading) and body and not after:
            sections[heading[:-1]] = read_items(body)
        elif block:
            after.append(block)
    return Help(about.strip(), usage.strip(), sections, "\n\n".join(after))


def read_items(body):
    """The items of a section: a label, two blanks or a new line, and what is said of it."""
    items = []
    for line in body.split("\n"):
        starts = re.match(r" {2,6}(\S.*)", line) and not line.startswith(" " * 7)
        if starts:
            label, *said = re.split(r" {2,}", line.strip(), maxsplit=1)
            items.append([label, *said])
        elif line.strip():
            items[-1].append(line.strip())
    return [(label, " ".join(said)) for label, *said in items]


def escaped(text):
    """A text for a man page."""
    return re.sub(r"^([.'])", r"\\&\1", text.replace("\\", "\\e").replace("-", "\\-"), flags=re.M)


def verbatim(text):
    return f".nf\n{escaped(text.rstrip())}\n.fi\n"


def items_of(pairs):
    return "".join(f".TP\n.B {escaped(label)}\n{escaped(said)}\n" for label, said in pairs)


def heading(name, version, day):
    return f'.TH {name.upper()} 1 "{day}" "examoffice {version}" "User commands"\n'


def program_page(version, day, program, commands):
    """The man page of the program: `program` is its help, `commands` that of each command by name."""
    page = heading("examoffice", version, day)
    page += f".SH NAME\nexamoffice \\- the seating office of a school\n.SH SYNOPSIS\n.B {escaped(program.usage)}\n"
    page += f".SH DESCRIPTION\n{escaped(program.about)}\n.SH OPTIONS\n{items_of(program.sections['Options'])}"
    page += ".SH COMMANDS\n"
    for name, command in commands.items():
        page += f".SS {escaped(usage_of(name, command))}\n{escaped(command.about)}\n"
        page += items_of(command.sections.get("Arguments", []))
    page += f".SH EXIT STATUS AND REFUSALS\n{verbatim(program.after)}"
    return page + ".SH SEE ALSO\n.BR office (1),\nthe handbook in /usr/share/doc/examoffice\n"


def usage_of(name, command):
    """The command with what it takes."""
    return " ".join([name, *(label for label, _ in command.sections.get("Arguments", []))])


def office_page(version, day, commands):
    """The man page of the front script: `commands` has what each of the desk's commands prints as its help."""
    page = heading("office", version, day)
    page += ".SH NAME\noffice \\- runs a command of the exam office\n.SH SYNOPSIS\n.B office\nCOMMAND [VALUE ..]\n"
    about = ast.get_docstring(ast.parse(OFFICE.read_text(encoding="utf-8"))) or ""
    paragraphs = escaped(about).replace("\n\n", "\n.PP\n")
    page += f".SH DESCRIPTION\n{paragraphs}\n.SH COMMANDS OF THE DESK\n"
    for name, said in commands.items():
        page += f".SS {escaped(name)}\n{verbatim(said)}"
    return page + ".SH SEE ALSO\n.BR examoffice (1),\nthe handbook in /usr/share/doc/examoffice\n"


def choices(said):
    """The words that an argument can be, where its help lists them: `..: granted, refused or standing, which ..`."""
    _, found, listed = said.partition(": ")
    words = re.match(r"[a-z-]+(?:, [a-z-]+)* or [a-z-]+", listed) if found else None
    return re.split(r", | or ", words[0]) if words else []


def completion(commands, desk):
    """What bash offers for `examoffice` and `office`: commands, and the words of an argument; in every other place it
    offers files by itself, also of names with blanks. `desk` as `office_page` has it."""
    cases = ""
    for name, said in desk.items():
        if found := re.search(r"^positional arguments:\n  {([a-z,]+)}$", said, re.M):
            cases += f"        {name}:1) COMPREPLY=($(compgen -W '{found[1].replace(',', ' ')}' -- \"$word\")) ;;\n"
    for name, command in commands.items():
        for place, (_, said) in enumerate(command.sections.get("Arguments", []), 1):
            if offered := choices(said):
                cases += f"        {name}:{place}) COMPREPLY=($(compgen -W '{' '.join(offered)}' -- \"$word\")) ;;\n"
    return f"""# Completion of examoffice(1) and office(1) for bash.
_examoffice() {{
    local word=${{COMP_WORDS[COMP_CWORD]}} before=${{COMP_WORDS[COMP_CWORD-1]}} at=1 commands="{' '.join(commands)}"
    COMPREPLY=()
    if [ "${{1##*/}}" = office ]; then
        commands="$commands {' '.join(desk)}"
        [[ ${{COMP_WORDS[1]}} != what-if ]] || at=2  # a command with its words stands behind it
    else
        while [[ ${{COMP_WORDS[at]}} == --db || ${{COMP_WORDS[at]}} == --today ]]; do at=$((at + 2)); done
        case $before in
        --db) return ;;
        --today) COMPREPLY=($(date +%F)); return ;;
        esac
        [ "$COMP_CWORD" -gt "$at" ] || commands="$commands --db --today --help"
    fi
    if [ "$COMP_CWORD" -le "$at" ]; then
        COMPREPLY=($(compgen -W "$commands" -- "$word"))
        return
    fi
    case ${{COMP_WORDS[at]}}:$((COMP_CWORD - at)) in
{cases}    esac
}}
complete -o default -F _examoffice examoffice office
"""
