"""Asks the compiler, in each build, which programs it would run for given options, and with which arguments.

The compiler itself resolves everything that this depends on: PATH and other variables, wrappers, spec files, and prefixes of -B.
"""
import contextlib
import os
import re
import shlex
import shutil
import subprocess
import threading
from typing import NamedTuple

from listing.files import Refused, shown
from listing.flags import expanded

from .digests import digest_of, has_contents
from .records import maps_in, paths_in_words

# The variables that compilers proper, binutils, their loader and the usual wrappers read. The variables that the driver and the
# preprocessor read need not be listed, since they show in the output of these programs.
VARIABLES = re.compile(r"(?:GCC_(?!COLORS$|URLS$)|COLLECT_|AS_|BINUTILS_|CCACHE_|DISTCC_|LD_|MALLOC_|TARGET_).*"
                       r"|LDEMULATION|GNUTARGET|POSIXLY_CORRECT|GLIBC_TUNABLES|QEMU_LD_PREFIX")
# ccache is disabled: it must not return a cached object, and it would not write the list of the files that the assembler read.
UNCACHED = {"CCACHE_DISABLE": "1"}
# A temporary file that a compiler writes for the next program and then removes. Its name differs each time.
TEMPORARY = re.compile(r"(?:.*/)?cc[A-Za-z0-9]{6}\.(?:s|o|.*\.o|res)", re.S)
TEMPORARY_IN_TEXT = re.compile(r"""[^\s"'=]*/cc[A-Za-z0-9]{6}(?=\.)""")
# Options of the compiler proper with which it reads files that it does not report, or with which its preprocessor does not print the text
# that is compiled.
UNSEEN = re.compile(r"-f(?:modules?-.*|modules|profile-use(?:=.*)?|branch-probabilities|auto-profile(?:=.*)?|directives-only|preprocessed)"
                    r"|-d(?!ump)[A-Za-z]*[DIMNU][A-Za-z]*|-P", re.S)
SEARCHING = re.compile(r"-(?:[IDUA]|i[a-z]+|nostdinc)")
# Sources of these languages are not preprocessed.
WITHOUT_HEADERS = ("assembler", "cpp-output", "c++-cpp-output")
COMPILING = re.compile(r"cc1(?:plus|obj|objplus)?")
# The names of the compiler's linker and assembler.
LINKING = re.compile(r"(?:.*-)?(?:collect2|ld(?:\..*)?)")
ASSEMBLING = re.compile(r"(?:.*-)?as")
# GNU ld's options of a directory that is searched for libraries, and of a library.
LIBRARY_FOLDER = re.compile(r"-L(.+)?|--?library-path(?:=(.*))?", re.S)
ASSEMBLER_FOLDER = re.compile(r"-I(.+)?()", re.S)
LIBRARY = re.compile(r"-l(?!ibrary)(.+)?|--?library(?:=(.*))?", re.S)


def variables():
    """The environment variables that can change a compiler's output. Debug information has PWD as the directory of the compilation."""
    found = {name: value for name, value in os.environ.items() if VARIABLES.fullmatch(name)}
    here = os.environ.get("PWD")
    try:
        found["PWD"] = here if here and os.path.samefile(here, ".") else os.getcwd()
    except OSError:
        found["PWD"] = os.getcwd()
    return found


class Answer(NamedTuple):
    """The compiler's reply for some options: a digest of the reply and of all programs that it names, whether all of these exist, the
    directories that are searched for libraries, the names of the libraries, and the directories that the assembler searches."""

    digest: str
    here: bool
    libraries: list
    library_names: list
    assembler: list


class Compiler:
    """The compiler of this build. It is asked once for each set of options."""

    def __init__(self, words, digests):
        self.words, self.digests = words, digests
        self.environment = variables()
        self.answers, self.locks, self.reading = {}, {}, threading.Lock()
        name = words[0] if words else ""
        if not words or shutil.which(name) is None:
            raise Refused(f'error: compiler "{shown(name)}" not found\nhelp: as root, apt-get install gcc-riscv64-unknown-elf')
        if not re.search(r"^gcc (?:driver )?version ", self.run([*words, "-###"]), re.M):
            raise Refused(f'error: CC="{shown(shlex.join(words))}" is not GCC, which this kit needs\n'
                          "help: choose a GCC for RISC-V, such as CC=riscv64-unknown-elf-gcc")

    def about(self, options, language=None):
        """The compiler's reply for these options and a language, or for the linker if no language is given."""
        key = (*options, language)
        with self.locks.setdefault(key, threading.Lock()):
            if key not in self.answers:
                self.answers[key] = self.ask(options, language)
            return self.answers[key]

    def ask(self, options, language):
        """Asks the compiler, and reads each program and file that it names."""
        given, nothing = [*self.words, *options], [os.devnull, "-o", os.devnull]
        if language:
            told, linker = self.run([*given, "-###", "-c", "-x", language, *nothing]), []
            self.refuse_unseen(given, told, language)
            if language not in WITHOUT_HEADERS:
                self.refuse_other_search(told, [*given, "-###", "-E", "-x", language, *nothing])
        else:
            # collect2 finds the linker, and prints its path when it runs it. Code that is compiled at link time is compiled by lto1.
            told = self.run([*given, "-###", *nothing]) + self.run([*given, "-###", "-c", "-x", "lto", *nothing])
            linked = self.run([*self.words, "-v", "-Wl,--version", *options, "-o", os.devnull])
            linker = re.findall(r"^collect2 version .*\n(.*?) [-@]", linked, re.M) or [""]
        commands = list(commands_in(told))
        programs = [shutil.which(it) or it for it in [*linker, *(it[0] for it in commands), *re.findall(r"^COLLECT_GCC=(.*)$", told, re.M)]]
        programs += filter(None, map(shutil.which, self.words))
        words = [*given, *(word for it in commands for word in it)]
        with self.reading:
            digests = {it: self.digests.of(it) for it in {*programs, *paths_in_words(words), *plugins_in(told)} - {*maps_in(words)}}
        linking = words_of_program(commands, LINKING)
        return Answer(digest_of([TEMPORARY_IN_TEXT.sub("cc", told), digests]), all(has_contents(digests[it]) for it in programs),
                      values_after(linking, LIBRARY_FOLDER), values_after(linking, LIBRARY),
                      values_after(words_of_program(commands, ASSEMBLING), ASSEMBLER_FOLDER))

    @staticmethod
    def refuse_unseen(given, compiling, language):
        """Rejects options, from any source, with which neither the compiler nor its preprocessor reports all files that are read."""
        for word in filter(UNSEEN.fullmatch, words_of_program(commands_in(compiling), COMPILING)):
            if word != "-fpreprocessed":
                raise Refused(f'error: "{shown(word)}" cannot be used: with it, the compiler does not report all that it reads')
            if language not in WITHOUT_HEADERS:
                # With -save-temps the driver compiles preprocessed text, and adds -fpreprocessed itself. The message names the user's option.
                word = next((it for it in given if it.startswith("-save-temps")), word)
                raise Refused(f'error: "{shown(word)}" cannot be used: it changes how a source is preprocessed')

    def refuse_other_search(self, compiling, preprocess):
        """Rejects specs that make the preprocessor search different directories with -E than in a compilation."""
        try:
            told = self.run(preprocess)
        except Refused:
            # If the preprocessor cannot be run, sources are compiled in each build.
            return
        here, there = (searching_words(words_of_program(commands_in(it), COMPILING)) for it in (compiling, told))
        if here != there:
            raise Refused("error: the compiler's specs choose other folders or macros for -E, so it is not known which headers a source reads\n"
                          "help: remove %{E: and %{!E: from the specs")

    @staticmethod
    def run(words):
        """Runs a command of the compiler, and returns what it prints. If it fails, raises `Refused`."""
        # GCC's driver prints MAKEFLAGS, on which no output depends.
        environment = {**os.environ, **UNCACHED, "LC_ALL": "C", "MAKEFLAGS": ""}
        done = subprocess.run(words, stdin=subprocess.DEVNULL, capture_output=True, check=False, env=environment)
        if done.returncode:
            text = "\n".join(it for it in done.stderr.decode("utf-8", "surrogateescape").splitlines() if re.search("error|warning", it))
            raise Refused(f"{text or f'{shown(words[0])}: error: ended with status {done.returncode}'}\n{help_for(text)}".rstrip())
        return os.fsdecode(done.stdout + done.stderr)


def help_for(text):
    """A hint for a failure that has a common cause, or an empty text."""
    if "picolibc.specs" in text:
        return "help: as root, apt-get install picolibc-riscv64-unknown-elf, or choose LIBC=none"
    return ""


def plugins_in(told):
    """The paths of the plugins that options name without a directory."""
    folders = re.findall(r"(?<=[ '])-iplugindir=([^\s']+)", told)
    names = re.findall(r"(?<=[ '])-fplugin=([^\s/']+)(?=[\s'])", told)
    return sorted({os.path.join(folder, f"{name}.so") for folder in folders for name in names})


def commands_in(told):
    """The commands that the compiler says it would run, each as a list of words."""
    for line in re.findall(r"^ (\S.*)$", told, re.M):
        with contextlib.suppress(ValueError):
            yield shlex.split(line)


def searching_words(words):
    """The options that define macros, or say where headers are searched for, with their values."""
    return [(word, after if SEARCHING.fullmatch(word) else "") for word, after in zip(words, [*words[1:], ""]) if SEARCHING.match(word)]


def words_of_program(commands, name):
    """The arguments of a program with this name, which a wrapper may run, including those in its response files."""
    found = [it for it in commands if any(name.fullmatch(os.path.basename(word)) for word in it)]
    return [word for command in found for word in expanded(command)[0]]


def values_after(words, option):
    """The values of the options of this form. A value is the rest of the option's word, or the next word."""
    found = []
    for word, after in zip(words, [*words[1:], ""]):
        given = option.fullmatch(word)
        if given:
            found.append(given[1] or given[2] or after)
    return found
