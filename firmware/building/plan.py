"""The plan of each test: its sources, each with its options, and the arguments that link their objects."""
import os
from typing import NamedTuple

from listing.files import Refused, shown
from listing.flags import LANGUAGES, expanded, flags_of, inputs_of, refuse_unseen, words_in

from .steps import Source

# picolibc.c explains why the hosted start-up code of picolibc is needed.
LIBRARIES = {
    "picolibc": (["--specs=picolibc.specs", "--crt0=hosted"], "picolibc.c"),
    "none": (["-ffreestanding", "-nostdlib", "-nostartfiles"], "start.S"),
}
LINKING = ["-Wl,--build-id=none", "-Wl,-z,max-page-size=4", "-Wl,--no-warn-rwx-segments"]
# With -flto the linker would drop symbols that only libraries use, such as `stdout`.
ALONE = "-fno-lto"
# Options that only the linker uses, and those whose value is the next word. A source that tests share is compiled only once, even if these
# options differ.
LINKED = ("-Wl,", "-l", "-L", "-T", "-z", "-u", "-nostartfiles", "-nodefaultlibs")
LINKED_WITH_VALUE = ("-Xlinker", "-T", "-L", "-l", "-z", "-u", "-e")


class Plan(NamedTuple):
    """The plan of a test: its sources, the arguments that link it, in which a source represents its object, and its image."""

    name: str
    place: str
    sources: list
    words: list
    image: str


class Kit:
    """The options of all tests, which come from make's variables."""

    def __init__(self, folder, variables, image_folder):
        self.folder, self.images = folder or ".", image_folder
        self.library = variables["LIBC"]
        if self.library not in LIBRARIES:
            raise Refused(f'error: invalid LIBC="{shown(self.library)}": expected "picolibc" or "none"')
        self.compiler, self.arch, flags, self.link, self.arch_include = (
            options_in(variables[it], it) for it in ("CC", "ARCH", "CFLAGS", "LINK", "ARCH_INCLUDE"))
        self.machine = self.arch + flags
        self.linking = [f"-L{self.folder}/", *LINKING]

    def path(self, name):
        """The path of a file of the kit."""
        return os.path.join(self.folder, name)

    def plan(self, test):
        """The plan of a test."""
        own = flags_of(f"{test.stem}.flags")[0]
        library, support = LIBRARIES[self.library]
        common = [*self.machine, f"-I{self.folder}/", *library, f"--specs={self.path('cplusplus.specs')}"]
        inputs = list(inputs_of(own))
        options = compiled_by([*common, *(word for word, part in inputs if part is None)])
        ending = os.path.splitext(test.source)[1]
        sources = [source_of(test.source, LANGUAGES[ending], options, test.name)]
        if LANGUAGES[ending] == "c++":
            sources.append(source_of(self.path("cplusplus.cc"), "c++", [*options, ALONE]))
        machine = compiled_by([*common, *(it for it in own if it.startswith("-m")), ALONE])
        sources.append(source_of(self.path(support), LANGUAGES[os.path.splitext(support)[1]], machine))
        words = [*common, *sources, *self.linking, *self.link, "-lgcc"]
        for word, part in inputs:
            source = source_of(word, part, options) if part else None
            sources += [source] if source else []
            words.append(source or word)
        return Plan(test.name, test.place, sources, without_languages(words), os.path.join(self.images, f"{test.place}.elf"))

    def arch_plan(self, test):
        """The plan of an architecture test."""
        options = [*self.arch, "-DXLEN=32", f"-I{self.path('arch-test')}", *self.arch_include, "-nostdlib", "-nostartfiles"]
        source = source_of(test.source, "assembler-with-cpp", compiled_by(options), test.name)
        words = [*options, source, *self.linking, "-T", self.path("arch-test/link.ld")]
        return Plan(test.name, test.place, [source], words, os.path.join(self.images, f"{test.place}.elf"))


def options_in(text, name):
    """The words in one of make's variables, including those in its response files."""
    words = expanded(words_in(text, name))[0]
    refuse_unseen(words, name)
    return words


def source_of(path, language, options, label=None):
    """A source with its options. Assembler sources may use every instruction of the simulator, including FENCE.I."""
    if language.startswith("assembler"):
        options = [*options, *with_fence_i(options)]
    return Source(path, language, tuple(options), label or path)


def with_fence_i(options):
    """The option that makes the assembler accept FENCE.I. -march cannot do it: C libraries have no directory for one with zifencei."""
    chosen = [it for it in options if it.startswith("-march=rv")]
    return [f"-Wa,{chosen[-1]}_zifencei"] if chosen and "zifencei" not in chosen[-1] else []


def compiled_by(options):
    """The options that matter to a compilation: without those of the linker, and without languages, which each source sets itself."""
    kept, left = [], iter(options)
    for word in left:
        if word in LINKED_WITH_VALUE or word == "-x":
            next(left, None)
        elif not word.startswith(LINKED) and not word.startswith("-x"):
            kept.append(word)
    return kept


def without_languages(words):
    """The arguments without -x and its value, since objects have no language."""
    left = iter(words)
    return [it for it in left if not isinstance(it, str) or it != "-x" or next(left, None) is None]
