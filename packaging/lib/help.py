"""What the programs' own help says: their commands, the options and arguments of each, and the examples."""
import functools
import pathlib
import re
import subprocess

TOP = pathlib.Path(__file__).resolve().parent.parent.parent
PROGRAMS = ("rvtest", "rvfleet")


class Option:
    """An option as help has it: `short` is its letter or None, `value` what its value is called or None."""

    def __init__(self, shown, text):
        found = re.fullmatch(r"(?:-([a-zA-Z]), )?--([a-z-]+)(?: <([^>]+)>)?", shown)
        self.short, self.name, self.value = found.groups()
        self.text = text
        self.is_repeatable = "(repeatable)" in text

    @property
    def asked(self):
        return f"--{self.name}" if self.value is None else f"--{self.name} {self.value}"


class Command:
    """A command of a program."""

    def __init__(self, program, name):
        parts = parts_of_help(program, name)
        self.program, self.name, self.about = program, name, parts[""][0]
        usage = next(line for line in parts[""] if line.startswith("Usage: "))
        # The words behind the program and the command.
        self.usage = usage.split()[3:]
        self.arguments = [(re.sub(r"[<>\[\]]", "", shown), text) for shown, text in entries(parts.get("Arguments", []))]
        options = [Option(*entry) for entry in entries(parts["Options"])]
        self.options = [option for option in options if option.name != "help"]
        self.examples = [line.strip() for line in parts.get("Examples", [])]


@functools.cache
def parts_of_help(program, *words):
    """The lines of a program's help, by the headings that they stand under: '' for what stands in front."""
    ran = subprocess.run([TOP / program, *words, "--help"], capture_output=True, text=True, check=True)
    parts, heading = {"": []}, ""
    for line in ran.stdout.splitlines():
        if re.fullmatch(r"[A-Z][a-z ]+:", line):
            heading = line[:-1]
            parts[heading] = []
        elif line:
            parts[heading].append(line)
    return parts


def entries(lines):
    """The names and texts of lines such as `  --last <N>  Shows ..`."""
    return [re.split(r" {2,}", line.strip(), maxsplit=1) for line in lines]


@functools.cache
def commands_of(program):
    return [Command(program, name) for name, _ in entries(parts_of_help(program)["Commands"])]


def general_options(program):
    """The options that stand in place of a command."""
    return [Option(*entry) for entry in entries(parts_of_help(program)["Options"])]
