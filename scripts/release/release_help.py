"""What is made of the text that the command prints for --help: its manual, and what bash, zsh and
fish complete its words by."""

import re
import textwrap
from dataclasses import dataclass, field

NAME = "protobuf-parse"
ENTRY = re.compile(
    r" {2}(?=-| {4}-)(?:-(\w)(?:, )?| {4})(?:--([\w-]+))?(?: <(\w+)>)?(?: {2,}(\S.*))?"
)
PLACE = re.compile(r" {2}([<\[]\w+[>\]](?:\.\.\.)?)(?: {2,}(\S.*))?")
DEFAULT = re.compile(r" *\[default: (.*?)\]")
VALUES = re.compile(r" *\[possible values: (.*?)\]")


class Unread(Exception):
    """Which line of a help text has no known form."""


@dataclass
class Option:
    """An option: its letter, its word, and the name of its value, each None where it has none;
    what it does, and which values it takes, if these are named."""

    letter: str
    word: str
    value: str
    help: str = ""
    default: str = ""
    values: list = field(default_factory=list)

    def spellings(self):
        """How it is written, the letter first."""
        words = [("-", self.letter), ("--", self.word)]
        return [dash + word for dash, word in words if word]

    def settle(self):
        """Takes the values that its help names out of the text, into fields of their own."""
        found = VALUES.search(self.help)
        self.values = found.group(1).split(", ") if found else []
        found = DEFAULT.search(self.help)
        self.default = found.group(1) if found else ""
        self.help = VALUES.sub("", DEFAULT.sub("", self.help)).strip()


@dataclass
class Help:
    """A help text: what the command is for, how it is called, its files, its options, and what
    stands behind these, by headings."""

    about: str
    usage: str
    files: list
    options: list
    rest: dict

    def own_name(self):
        """The name by which the command calls itself."""
        return self.usage.split()[0]


def sections(text):
    """The lines in front of the first heading, and those below each heading."""
    found, lines = {}, []
    front = lines
    for line in text.splitlines():
        if re.fullmatch(r"[A-Z][\w ]*:", line):
            lines = found.setdefault(line[:-1], [])
        else:
            lines.append(line)
    return front, found


def entries(lines, pattern):
    """Each entry of a section, as what the pattern has found, with the help behind or below it."""
    found = []
    for line in filter(None, map(str.rstrip, lines)):
        start = pattern.fullmatch(line)
        if start:
            *front, said = start.groups()
            found.append((front, [said] if said else []))
        elif found and line.startswith(" " * 6):
            found[-1][1].append(line.strip())
        else:
            raise Unread(line)
    return [(*front, " ".join(said)) for front, said in found]


def read_help(text):
    """What a help text says. Unread has the first line that is of no known form."""
    front, found = sections(text)
    at = next((at for at, line in enumerate(front) if line.startswith("Usage: ")), None)
    if at is None:
        raise Unread("no line begins with `Usage: `")
    about = " ".join(line.strip() for line in front[:at] if line.strip())
    usage = " ".join(line.strip() for line in front[at:]).removeprefix("Usage: ").strip()
    options = [Option(*it) for it in entries(found.pop("Options", []), ENTRY)]
    if not options:
        raise Unread("it has no options")
    for option in options:
        option.settle()
    return Help(about, usage, entries(found.pop("Arguments", []), PLACE), options, found)


def roff(text, width=0):
    """A text as roff takes it, what stands between backquotes in bold; with a width in lines."""
    if width:
        text = textwrap.fill(text, width, break_long_words=False, break_on_hyphens=False)
    text = text.replace("\\", "\\e").replace("-", "\\-")
    text = re.sub(r"`([^`]+)`", r"\\fB\1\\fR", text)
    return re.sub(r"(?m)^(?=[.'])", r"\\&", text)


def item(tag, text):
    """An item of a list of roff."""
    return f".TP\n{tag}\n{roff(text, 72)}\n"


def option_item(option):
    """An option in the manual."""
    names = ", ".join(f"\\fB{roff(it)}\\fR" for it in option.spellings())
    value = f" \\fI{option.value}\\fR" if option.value else ""
    text = option.help.rstrip(".") + "."
    if option.values:
        text += " One of: " + ", ".join(f"`{it}`" for it in option.values) + "."
    if option.default:
        text += f" Without it: `{option.default}`."
    return item(names + value, text)


def manual(told, version, day):
    """The manual's page, for the version and the day of the release."""
    told_usage = told.usage.replace(told.own_name(), NAME, 1)
    about = told.about[:1].lower() + told.about[1:].rstrip(".")
    name, rest = told_usage.split(" ", 1)
    page = f'.TH PROTOBUF\\-PARSE 1 "{day}" "{NAME} {version}" "User Commands"\n'
    page += f".SH NAME\n{roff(NAME)} \\- {roff(about)}\n"
    page += f".SH SYNOPSIS\n.B {roff(name)}\n{roff(rest)}\n"
    page += f".SH DESCRIPTION\n{roff(told.about, 72)}\n"
    for place, text in told.files:
        page += item(f"\\fI{roff(place)}\\fR", text.rstrip(".") + ".")
    page += ".SH OPTIONS\n" + "".join(map(option_item, told.options))
    for heading, lines in told.rest.items():
        shown = "\n".join(roff(it.strip().replace(told.own_name(), NAME)) for it in lines if it)
        page += f".SH {heading.upper()}\n.nf\n{shown}\n.fi\n"
    return page + ".SH SEE ALSO\n.BR protoc (1)\n"


def kind_of(value):
    """What a value's name says that it is: `folder`, `file`, or `other`."""
    return {"DIR": "folder", "FILE": "file", "FILES": "file"}.get(value, "other")


def bash(told):
    """What bash completes the command's words by."""
    cases = ""
    for option in filter(lambda it: it.value, told.options):
        names = {"folder": "-d", "file": "-f", "other": ""}[kind_of(option.value)]
        names = f"-W '{' '.join(option.values)}'" if option.values else names
        found = f'mapfile -t COMPREPLY < <(compgen {names} -- "$word")' if names else ":"
        cases += f"        {' | '.join(option.spellings())}) {found}; return ;;\n"
    words = " ".join(it for option in told.options for it in option.spellings())
    return f"""# What bash completes the words of {NAME} by.
_protobuf_parse() {{
    local word=${{COMP_WORDS[COMP_CWORD]}} before=${{COMP_WORDS[COMP_CWORD - 1]}}
    # (bash cuts a word at `=`)
    if [[ $word == "=" ]]; then
        word=
    elif [[ $before == "=" ]]; then
        before=${{COMP_WORDS[COMP_CWORD - 2]}}
    fi
    COMPREPLY=()
    case $before in
{cases}    esac
    if [[ $word == -* ]]; then
        mapfile -t COMPREPLY < <(compgen -W '{words}' -- "$word")
    else
        mapfile -t COMPREPLY < <(compgen -d -- "$word"; compgen -f -X '!*.proto' -- "$word")
    fi
}}
complete -o filenames -F _protobuf_parse {NAME}
"""


def quoted(text):
    """A text between single quotes of a shell."""
    return "'" + text.replace("'", "'\\''") + "'"


def zsh_option(option):
    """An option as `_arguments` of zsh takes it."""
    spec = "[" + re.sub(r"([\[\]:\\])", r"\\\1", option.help) + "]"
    if option.value:
        files = {"folder": "_files -/", "file": "_files", "other": " "}[kind_of(option.value)]
        spec += f":{option.value}:" + (f"({' '.join(option.values)})" if option.values else files)
    more = "*" if option.value else ""
    ends = {"-": "+" if option.value else "", "--": "=" if option.value else ""}
    shown = []
    for word in option.spellings():
        end = ends["--" if word.startswith("--") else "-"]
        shown.append("    " + quoted(more + word + end + spec))
    return " \\\n".join(shown)


def zsh(told):
    """What zsh completes the command's words by."""
    specs = [zsh_option(it) for it in told.options]
    specs.append("    " + quoted('*:FILE:_files -g "*.proto"'))
    return f"#compdef {NAME}\n_arguments \\\n" + " \\\n".join(specs) + "\n"


def fish(told):
    """What fish completes the command's words by."""
    lines = [f"# What fish completes the words of {NAME} by."]
    for option in told.options:
        line = f"complete -c {NAME}"
        line += f" -s {option.letter}" if option.letter else ""
        line += f" -l {option.word}" if option.word else ""
        if option.values:
            line += f" -x -a {quoted(' '.join(option.values))}"
        elif option.value:
            folders = " -x -a '(__fish_complete_directories)'"
            line += {"folder": folders, "file": " -r -F", "other": " -x"}[kind_of(option.value)]
        text = option.help.replace("\\", "\\\\").replace("'", "\\'")
        lines.append(f"{line} -d '{text}'")
    return "\n".join(lines) + "\n"
