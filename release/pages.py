"""What is made of a program's `--help`: its manual page, and what bash, zsh and fish complete of its words.

The help has blocks with empty lines between them. A block with a title, as `Options:`, has a row for each word, with two
blanks or more before what it does; a row that is a number belongs to the exit statuses, and so does what follows
`status:` in a line. Any other block says what the program does.
"""
import datetime
import re


class Row:
    """A word of the command line with what it does: an option, an argument or a status."""

    def __init__(self, words, text):
        self.text = text
        found = re.search(r"<([^>]*)>|\[([^\]]*)\]", words)
        self.words = words
        self.value = (found[1] or found[2]) if found else None
        self.options = re.findall(r"(?<![\w-])--?[\w-]+", words.split("<")[0])
        values = re.search(r"\[possible values: ([^\]]*)\]", text)
        self.values = values[1].split(", ") if values else []
        self.brief = re.sub(r"\s*\[(possible values|default): [^\]]*\]", "", text)


class Page:
    """The help of a program, parted."""

    def __init__(self, name, help_text, others):
        self.name, self.others = name, others
        self.usage, self.about, self.options, self.arguments, self.statuses = "", [], [], [], []
        self.commands, self.examples = [], []
        for block in re.split(r"\n\s*\n", help_text.strip()):
            self.take(block)
        # The front answers these two, whatever the program knows.
        known = {option for row in self.options for option in row.options}
        for option, text in (("--help", "Print help"), ("--version", "Print version")):
            if option not in known:
                self.options.append(Row(option, text))

    def take(self, block):
        """Takes a block of the help to where it belongs."""
        lines = block.splitlines()
        usage = re.match(r"usage:\s*(.*)", lines[0], re.I)
        status = re.match(r"status:\s*(.*)", " ".join(lines), re.I)
        titles = {"options:": self.options, "arguments:": self.arguments, "commands:": self.commands}
        titled = titles.get(lines[0].strip().lower())
        if usage:
            self.usage = usage[1]
            self.about += lines[1:]
        elif status:
            parts = re.findall(r"(\d+) (.*?)(?=, \d+ |$)", status[1])
            self.statuses += [Row(number, text) for number, text in parts]
        elif re.match(r"status\s+when$", lines[0]):
            self.statuses += [Row(*re.split(r"\s{2,}", line.strip(), maxsplit=1)) for line in lines[1:]]
        elif lines[0].lower() == "examples:":
            self.examples = lines[1:]
        elif titled is not None:
            titled += [Row(*re.split(r"\s{2,}", line.strip(), maxsplit=1)) for line in lines[1:]]
        else:
            self.about += lines

    def takes_files(self):
        """Whether a name of a file can stand among its words."""
        return "FILE" in self.usage or any(row.value in ("GRAMMAR", "TEXT") for row in self.arguments)

    def manual(self, version, epoch):
        """The page of section 1, for man."""
        day = datetime.datetime.fromtimestamp(epoch, datetime.timezone.utc).strftime("%Y-%m-%d")
        about = self.about or ["reads grammars of pest"]
        brief = about[0].rstrip(".")
        lines = [f'.TH {roff(self.name.upper())} 1 {day} "kingorewa {roff(version)}" "User Commands"']
        lines += [".SH NAME", f"{roff(self.name)} \\- {roff(brief[0].lower() + brief[1:])}"]
        lines += [".SH SYNOPSIS", ".B " + roff(self.name), roff(self.usage.partition(" ")[2])]
        lines += [".SH DESCRIPTION", *map(roff, about)]
        parts = {"COMMANDS": self.commands, "ARGUMENTS": self.arguments, "OPTIONS": self.options, "EXIT STATUS": self.statuses}
        for title, rows in parts.items():
            lines += [f".SH {title}"] if rows else []
            for row in rows:
                lines += [".TP", ".B " + roff(row.words), roff(row.text)]
        lines += [".SH EXAMPLES", ".nf", *map(roff, self.examples), ".fi"] if self.examples else []
        lines += [".SH SEE ALSO", *self.references(), ".PP", "/usr/share/doc/kingorewa has the documents.", ""]
        return "\n".join(lines)

    def references(self):
        """The other programs, as references."""
        return [f".BR {roff(name)} (1){',' if name != self.others[-1] else ''}" for name in self.others]

    def bash(self):
        """A completion for bash: the values of an option, options, and files."""
        words = " ".join(option for row in self.options for option in row.options)
        cases = [
            f"        {'|'.join(row.options)}) COMPREPLY=($(compgen -W '{' '.join(row.values)}' -- \"$2\")); return ;;"
            for row in self.options
            if row.values
        ]
        function = "_" + self.name.replace("-", "_")
        lines = [f"# Completion of {self.name} for bash.", f"{function}() {{"]
        lines += ["    case $3 in", *cases, "    esac"] if cases else []
        lines += ["    case $2 in", f"        -*) COMPREPLY=($(compgen -W '{words}' -- \"$2\")) ;;"]
        commands = f"$(compgen -W '{' '.join(row.words for row in self.commands)}' -- \"$2\") " if self.commands else ""
        lines += [f'        *) COMPREPLY=({commands}$(compgen -f -- "$2")) ;;', "    esac", "}"]
        lines += [f"complete -o filenames -F {function} {self.name}", ""]
        return "\n".join(lines)

    def zsh(self):
        """A completion for zsh."""
        lines = [f"#compdef {self.name}", f"# Completion of {self.name} for zsh.", "_arguments \\"]
        for row in self.options:
            values = f":{row.value}:({' '.join(row.values)})" if row.values else ""
            brief = quoted(row.brief).replace(":", "\\:")
            lines += [f"    '{option}[{brief}]{values}' \\" for option in row.options]
        if self.commands:
            lines.append(f"    '1:command:({' '.join(row.words for row in self.commands)})' \\")
        if self.commands or self.takes_files():
            lines.append("    '*:file:_files'")
        return "\n".join(lines) + "\n"

    def fish(self):
        """A completion for fish."""
        lines = [f"# Completion of {self.name} for fish."]
        for row in self.options:
            names = [f"-l {it[2:]}" if it.startswith("--") else f"-s {it[1:]}" for it in row.options]
            values = f" -x -a '{' '.join(row.values)}'" if row.values else ""
            lines.append(f"complete -c {self.name} {' '.join(names)}{values} -d '{quoted(row.brief)}'")
        for row in self.commands:
            lines.append(f"complete -c {self.name} -n __fish_use_subcommand -a {row.words} -d '{quoted(row.brief)}'")
        return "\n".join(lines) + "\n"


def roff(text):
    """A text as roff shows it."""
    text = text.replace("\\", "\\e").replace("-", "\\-").replace("'", "\\(aq")
    return "\\&" + text if text.startswith(".") else text


def quoted(text):
    """A text for single quotes and brackets of a shell."""
    return re.sub(r"[\[\]]", "", text).replace("'", "’")
