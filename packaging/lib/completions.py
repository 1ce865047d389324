"""What bash, zsh and fish offer behind the programs: commands, options, files, and the names of a list's jobs."""
from help import PROGRAMS, commands_of, general_options

# What stands as a value or an argument: a job's name, a folder, or a word of the user's own; else it is a file.
JOB_NAMES = ("NAME",)
FOLDERS = ("DIR",)
FREE_WORDS = ("REGEX", "K/N", "TEXT", "N", "H")
# Values that are one of a few words.
CHOICES = ("WHEN", "TOPIC")


# Options whose value is a name of the user's own, and not a job's.
FREE_NAMES = ("suite",)


def kind_of(value):
    """What is offered for a value: `job`, `folder`, `choice`, `none` or `file`."""
    if value in JOB_NAMES:
        return "job"
    if value in FOLDERS:
        return "folder"
    if value in CHOICES:
        return "choice"
    return "none" if value in FREE_WORDS else "file"


def kind_of_option(option):
    """What is offered for the value of an option."""
    return "none" if option.name in FREE_NAMES else kind_of(option.value)


def words_of(value):
    """The words of which a value is one."""
    if value == "WHEN":
        return "always never auto"
    return " ".join([command.name for command in commands_of("rvtest")] + ["keys"])


# ---- bash

def valued_options():
    """The options of both programs that take a value."""
    return [option for program in PROGRAMS for command in commands_of(program) for option in command.options if option.value is not None]


def options_with(kind):
    """The options of both programs, short and long, whose value is of a kind."""
    found = set()
    for option in valued_options():
        if kind_of_option(option) == kind:
            found |= {f"--{option.name}"} | ({f"-{option.short}"} if option.short else set())
    return " ".join(sorted(found))


def bash_function(name, asked, cases):
    """A function that tells words by what it is asked, case by case."""
    told = [f"        {case}) echo '{words}' ;;" for case, words in cases]
    return "\n".join([f"{name}() {{", f'    case "{asked}" in', *told, "    esac", "}"])


def choices():
    """Each option, and each command as the word behind its program, whose value is one of a few words, and these."""
    found = {f"*' --{option.name}'": words_of(option.value) for option in valued_options() if kind_of_option(option) == "choice"}
    for program in PROGRAMS:
        for command in commands_of(program):
            found |= {f"'{program} 2 {command.name}'": words for words in argument_choices(command)}
    return sorted(found.items())


def argument_choices(command):
    """The words of which an argument of a command is one, for each such argument."""
    return [words_of(name) for name, _ in command.arguments if kind_of(name) == "choice"]


def bash(text):
    """From the text of `completion.bash.in`."""
    cases = []
    for program in PROGRAMS:
        commands = commands_of(program)
        for command in commands:
            words = " ".join(f"--{option.name}" for option in command.options)
            cases.append((f"'{program} {command.name}'", f"{words} --help"))
        general = sorted((f"--{option.name}" for option in general_options(program)), reverse=True)
        text = text.replace(f"@{program.upper()}@", " ".join([command.name for command in commands] + general))
    named = [command.name for command in commands_of("rvtest") if [name for name, _ in command.arguments] == ["LIST", "NAME"]]
    text = text.replace("@OPTIONS@", bash_function("_rvfleet_options", "$1 $2", cases) + "\n").replace("@NAMED@", " ".join(named))
    text = text.replace("@CHOICES@", bash_function("_rvfleet_choices", "$1", choices()))
    for kind in ("job", "folder", "none"):
        text = text.replace(f"@{kind.upper()}@", options_with(kind))
    return text


# ---- zsh

ZSH_ACTIONS = {"job": "_rvfleet_jobs", "folder": "_directories", "none": " ", "file": "_files"}


def zsh_action(kind, value):
    """What zsh does for a value of a kind."""
    return f"({words_of(value)})" if kind == "choice" else ZSH_ACTIONS[kind]


def zsh_quoted(text):
    return text.replace("'", "'\\''").replace("[", "\\[").replace("]", "\\]").replace(":", "\\:")


def zsh_option(option):
    again = "*" if option.is_repeatable else ""
    names = f"{{-{option.short},--{option.name}}}" if option.short else f"--{option.name}"
    value = "" if option.value is None else f":{zsh_quoted(option.value)}:{zsh_action(kind_of_option(option), option.value)}"
    told = f"[{zsh_quoted(option.text)}]{value}"
    if option.short:
        return f"'{again}'{names}'{told}'"
    return f"'{again}{names}{told}'"


def zsh_argument(name):
    many = name.endswith("...")
    bare = name.removesuffix("...")
    return f"'{'*' if many else ''}:{zsh_quoted(bare)}:{zsh_action(kind_of(bare), bare)}'"


def zsh_command(command):
    specs = [zsh_option(option) for option in command.options] + ["'--help[Print help]'"]
    specs += [zsh_argument(name) for name, _ in command.arguments]
    return " \\\n                ".join([f"        {command.name}) _arguments", *specs]) + " ;;"


def zsh_program(program):
    commands = commands_of(program)
    told = "\n".join(f"        '{command.name}:{zsh_quoted(command.about)}'" for command in commands)
    cases = "\n".join(map(zsh_command, commands))
    return f"""_rvfleet_behind_{program}() {{
    local -a commands=(
{told}
    )
    if (( CURRENT == 2 )); then
        _describe command commands
        return
    fi
    # _arguments takes the command for the program.
    shift words
    (( CURRENT-- ))
    case $words[1] in
{cases}
    esac
}}
"""


def zsh(text):
    """From the text of `completion.zsh.in`."""
    return text.replace("@PROGRAMS@", "\n".join(map(zsh_program, PROGRAMS)))


# ---- fish

FISH_VALUES = {"job": " -x -a '(__rvfleet_jobs)'", "folder": " -x -a '(__fish_complete_directories)'", "none": " -x", "file": " -r -F"}


def fish_value(option):
    """What fish does for the value of an option."""
    if option.value is None:
        return ""
    kind = kind_of_option(option)
    return f" -x -a '{words_of(option.value)}'" if kind == "choice" else FISH_VALUES[kind]


def fish_quoted(text):
    return text.replace("\\", "\\\\").replace("'", "\\'")


def fish_command(command):
    lines = [f"complete -c {command.program} -n __fish_use_subcommand -f -a {command.name} -d '{fish_quoted(command.about)}'"]
    seen = f"complete -c {command.program} -n '__fish_seen_subcommand_from {command.name}'"
    for option in command.options:
        short = f" -s {option.short}" if option.short else ""
        lines.append(f"{seen}{short} -l {option.name}{fish_value(option)} -d '{fish_quoted(option.text)}'")
    if [name for name, _ in command.arguments] == ["LIST", "NAME"]:
        lines.append(f"{seen} -a '(__rvfleet_jobs)'")
    lines += [f"{seen} -f -a '{words}'" for words in argument_choices(command)]
    return "\n".join(lines)


def fish(text):
    """From the text of `completion.fish.in`."""
    lines = [fish_command(command) for program in PROGRAMS for command in commands_of(program)]
    return text.replace("@COMMANDS@", "\n".join(lines))
