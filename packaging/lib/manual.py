"""The manual pages: of each program from its help, and of a list's format from the table of keys in README.md."""
import re
import textwrap

from help import TOP, commands_of


def roff(text):
    """A text as a line of a manual page has it."""
    return text.replace("\\", "\\e").replace("-", "\\-").replace("'", "\\(aq").replace("`", "")


def synopsis(command):
    lines = [f".B {command.program} {command.name}"]
    for option in command.options:
        asked = f"\\-\\-{roff(option.name)}"
        if f"--{option.name}" in command.usage:
            lines += [f".B {asked}", f".I {roff(option.value)}"]
            continue
        again = "..." if option.is_repeatable else ""
        lines.append(f".RB [ {asked} ]{again}" if option.value is None else f".RB [ {asked}\n.IR {roff(option.value)} ]{again}")
    lines += [f".RI [ {roff(name)} ]" if f"[{name}]" in command.usage else f".I {roff(name)}" for name, _ in command.arguments]
    return "\n".join(lines)


def option_head(option):
    short = f"\\-{option.short}, " if option.short else ""
    asked = f"{short}\\-\\-{roff(option.name)}"
    return f'.B "{asked}"' if option.value is None else f'.BI "{asked}" " {roff(option.value)}"'


def section(command):
    lines = [f".SS {command.name}", roff(command.about) + "."]
    for name, text in command.arguments:
        lines += [".TP", f".I {roff(name)}", roff(text) + "."]
    for option in command.options:
        lines += [".TP", option_head(option), roff(option.text) + "."]
    return "\n".join(lines)


def examples(program):
    lines = [roff(example) for command in commands_of(program) for example in command.examples]
    return "\n".join([".EX", *lines, ".EE"])


def program_page(program, text):
    """The page of a program, from the text of `PROGRAM.1.in`."""
    commands = commands_of(program)
    text = text.replace("@SYNOPSIS@", "\n.br\n".join(map(synopsis, commands)))
    text = text.replace("@COMMANDS@", "\n".join(map(section, commands)))
    return text.replace("@EXAMPLES@", examples(program))


def keys():
    """The keys of a list: name or names, value, and default, from README.md."""
    rows = re.findall(r"^\| (`.*`) \| (.*?) \| (.*?) ?\|$", (TOP / "README.md").read_text(), flags=re.M)
    behind = [names for names, _, _ in rows].index("`name`")
    return rows[behind:]


def default_text(default):
    """What is said of a key's default, or that the key is required."""
    return default if default == "required" else f"default: {default}"


def key_entry(names, value, default):
    shown = ", ".join(re.findall("`([^`]+)`", names))
    lines = [".TP", f'.B "{roff(shown)}"', roff(value[0].upper() + value[1:]) + "."]
    return "\n".join(lines + ([f"{default_text(default)[:1].upper()}{roff(default_text(default)[1:])}."] if default else []))


def key_paragraph(names, value, default):
    """A key as `rvtest help keys` tells it, in lines of at most 80 characters."""
    shown = ", ".join(re.findall("`([^`]+)`", names))
    told = value.replace("`", "") + (f"; {default_text(default)}" if default else "")
    return f"  {shown}\n" + textwrap.fill(told, width=80, initial_indent=" " * 6, subsequent_indent=" " * 6)


def keys_source():
    """The Rust source of what `rvtest help keys` tells."""
    told = "\n".join(["The keys of a job, a table of the array job:", "", *(key_paragraph(*key) for key in keys())])
    written = told.replace("\\", "\\\\").replace('"', '\\"')
    return f"""//! What `rvtest help keys` prints. packaging/pages writes this file from README.md's table of keys.

/// The keys of a list.
pub(crate) const LIST_KEYS: &str = "\\
{written}
";
"""


def list_page(text):
    """The page of a list's format, from the text of `rvfleet-list.5.in`."""
    return text.replace("@KEYS@", "\n".join(key_entry(*key) for key in keys()))
