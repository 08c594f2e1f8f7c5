"""The manual pages and the completions of cfglint and cfgtool, made of what they say of themselves: of 'cfglint -h', of
the values that it lists if one is wrong, and of packaging/cfgtool.txt, which has the form of 'cfglint -h'."""
import re
import subprocess

from .programs import ROOT, Stopped

KIND, COMMAND = "KIND says how the file is read:", "COMMAND says what is printed:"


class Entry:
    """An option, or a word, with what is said of it. `names` has an option's names, and `value` what stands for its
    value."""

    def __init__(self, head, says):
        self.head, self.says = head, says
        words = head.replace(",", "").split()
        self.names = [it for it in words if it.startswith("-")] or words[:1]
        self.value = next((it for it in words if it.isupper() and it not in self.names), None)

    @property
    def is_option(self):
        return self.head.startswith("-") and self.head != "--"

    def brief(self):
        """The first sentence or part of it, for a completion."""
        return re.split(r"(?<=\w)[.:;](?: |$)", self.says)[0]


class Usage:
    """What a program says of itself: a summary, how it is called, and paragraphs: entries, and texts between them."""

    def __init__(self, name, text):
        summary, _, rest = text.strip().partition("\n\nusage: ")
        if not summary.startswith(f"{name} ") or not rest:
            raise Stopped(f"{name} doesn't say how it is used")
        self.name, self.summary = name, " ".join(summary.split())[len(name) + 1:].rstrip(".")
        calls, _, rest = rest.partition("\n\n")
        self.calls = [it.strip() for it in calls.split("\n")]
        rest, _, status = rest.partition("\n\nstatus: ")
        self.parts = []
        for part in rest.split("\n\n"):
            self.parts += self.entries_in(part) if part.startswith("  ") else [" ".join(part.split())]
        statuses = " ".join(status.partition("\n\n")[0].split()).split("; ")
        self.statuses = [Entry(*it.partition(" ")[::2]) for it in statuses]

    def entries_in(self, part):
        """The entries of a paragraph: each begins with two spaces, and what is said of it comes after two or more, or
        in the next lines, which are indented more."""
        for entry in re.split(r"\n(?=  \S)", part):
            head, says = re.match(r"  (\S+(?: \S+)*)\s*(.*)", entry, re.S).groups()
            yield Entry(head, " ".join(says.split()))

    def options(self):
        return [it for it in self.parts if isinstance(it, Entry) and it.is_option]

    def words_after(self, text):
        """The entries after the paragraph that begins so."""
        found, at = [], next(at for at, it in enumerate(self.parts) if isinstance(it, str) and it.startswith(text))
        for it in self.parts[at + 1:]:
            if not isinstance(it, Entry):
                break
            found.append(it)
        return found


def output_of(*words):
    """What a program prints, on both streams."""
    ran = subprocess.run(words, stdin=subprocess.DEVNULL, stdout=subprocess.PIPE, stderr=subprocess.STDOUT)
    return ran.stdout.decode(errors="replace")


def usage_of_cfglint(program):
    return Usage("cfglint", output_of(program, "-h"))


def usage_of_cfgtool():
    with open(f"{ROOT}/packaging/cfgtool.txt", encoding="utf-8") as it:
        return Usage("cfgtool", it.read())


def values(program, option):
    """The values that an option may have, as the program lists them; none if it takes any."""
    listed = re.search(r"unknown [\w ]+ '\?': the [\w ]+ are (.*)", output_of(program, f"{option}=?", "-"))
    return listed[1].split(", ") if listed else []


# ---------------------------------------------------------------- manual pages

def roff(text):
    """A text as a line of a manual page: it is set as it is."""
    text = text.replace("\\", "\\e").replace("-", "\\-").replace("'", "\\(aq").replace("`", "\\(ga")
    return f"\\&{text}" if text.startswith(".") else text


def marked(head):
    """The head of an entry, with names in bold and values in italics."""
    return " ".join(f"\\fI{roff(it)}\\fR" if re.fullmatch(r"[A-Z]+(\.\.)?", it) else
                    f"\\fB{roff(it.rstrip(','))}\\fR{',' * it.endswith(',')}" for it in head.split())


def page(usage, version):
    """The manual page."""
    lines = [f'.TH {usage.name.upper()} 1 "" "{usage.name} {version}" "User Commands"', ".SH NAME"]
    lines += [f"{usage.name} \\- {roff(usage.summary)}", ".SH SYNOPSIS"]
    for it in usage.calls:
        lines += [f".B {usage.name}", roff(it.partition(" ")[2]), ".br"]
    lines[-1] = ".SH DESCRIPTION"
    entries = lambda found: [line for it in found for line in (".TP", marked(it.head), roff(it.says))]
    for it in usage.parts:
        lines += [".PP", roff(it)] if isinstance(it, str) else entries([it])
    lines += [".SH EXIT STATUS", *entries(usage.statuses)]
    return "".join(f"{it}\n" for it in lines).encode()


# ---------------------------------------------------------------- completions

def quoted(text):
    """A text in single quotes of a shell."""
    return "'" + text.replace("'", "'\\''") + "'"


def bash_of_cfglint(usage, choices):
    """For bash: options, and the values of one that has some. Else bash completes files."""
    cases = "".join(f"        {it}) COMPREPLY=($(compgen -W {quoted(' '.join(found))} -- \"$word\")); return ;;\n"
                    for it, found in choices.items() if found)
    names = quoted(" ".join(name for it in usage.options() for name in it.names))
    return f"""_cfglint() {{
    local word=${{COMP_WORDS[COMP_CWORD]}} option=${{COMP_WORDS[COMP_CWORD-1]}}
    # (bash makes three words of --kind=eco)
    case $word in =) word= ;; esac
    [ "$option" != = ] || option=${{COMP_WORDS[COMP_CWORD-2]}}
    case $option in
{cases}    esac
    case $word in -*) COMPREPLY=($(compgen -W {names} -- "$word")) ;; esac
}}
complete -o default -F _cfglint cfglint
""".encode()


def zsh_of_cfglint(usage, choices):
    """For zsh."""
    special = lambda text: re.sub(r"([\[\]:\\])", r"\\\1", text)
    lines = []
    for it in usage.options():
        for name in it.names:
            found = choices.get(name)
            value = f":{it.value.lower()}:{f'({chr(32).join(found)})' if found else ''}" if it.value else ""
            lines.append(f"    {quoted(f'*{name}{chr(61) * bool(it.value)}[{special(it.brief())}]{value}')}")
    lines = ["#compdef cfglint", "_arguments -s \\", *(f"{it} \\" for it in lines), "    '*:file:_files'", ""]
    return "\n".join(lines).encode()


def fish_of_cfglint(usage, choices):
    """For fish."""
    lines = []
    for it in usage.options():
        names = " ".join(f"-l {name[2:]}" if name.startswith("--") else f"-s {name[1:]}" for name in it.names)
        found = next((choices[name] for name in it.names if choices.get(name)), None)
        value = (f" -x -a {quoted(' '.join(found))}" if found else " -x") if it.value else ""
        lines.append(f"complete -c cfglint {names}{value} -d {quoted(it.brief())}\n")
    return "".join(lines).encode()


def bash_of_cfgtool(usage):
    kinds, commands = ([it.head for it in usage.words_after(text)] for text in (KIND, COMMAND))
    return f"""_cfgtool() {{
    local word=${{COMP_WORDS[COMP_CWORD]}}
    case $COMP_CWORD in
        1) COMPREPLY=($(compgen -W {quoted(' '.join(kinds))} -- "$word")) ;;
        2) COMPREPLY=($(compgen -W {quoted(' '.join(commands))} -- "$word")) ;;
    esac
}}
complete -o default -F _cfgtool cfgtool
""".encode()


def zsh_of_cfgtool(usage):
    kinds, commands = ([it.head for it in usage.words_after(text)] for text in (KIND, COMMAND))
    return f"""#compdef cfgtool
_arguments '1:kind:({' '.join(kinds)})' '2:command:({' '.join(commands)})' '*:file:_files'
""".encode()


def fish_of_cfgtool(usage):
    lines = []
    for count, text in ((1, KIND), (2, COMMAND)):
        for it in usage.words_after(text):
            seen = f"test (count (commandline -opc)) -eq {count}"
            lines.append(f"complete -c cfgtool -f -n {quoted(seen)} -a {it.head} -d {quoted(it.brief())}\n")
    return "".join(lines).encode()


def completions(linter):
    """The files of completions of both programs, by the paths below /usr/share."""
    lint, tool = usage_of_cfglint(linter), usage_of_cfgtool()
    choices = {name: values(linter, name) for it in lint.options() if it.value for name in it.names}
    return {
        "bash-completion/completions/cfglint": bash_of_cfglint(lint, choices),
        "bash-completion/completions/cfgtool": bash_of_cfgtool(tool),
        "fish/vendor_completions.d/cfglint.fish": fish_of_cfglint(lint, choices),
        "fish/vendor_completions.d/cfgtool.fish": fish_of_cfgtool(tool),
        "zsh/vendor-completions/_cfglint": zsh_of_cfglint(lint, choices),
        "zsh/vendor-completions/_cfgtool": zsh_of_cfgtool(tool),
    }


def pages(linter, version):
    """The manual pages of both programs, by their names."""
    return {f"{it.name}.1": page(it, version) for it in (usage_of_cfglint(linter), usage_of_cfgtool())}
