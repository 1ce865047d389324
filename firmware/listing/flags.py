"""Options for the compiler and the linker, as NAME.flags and make's variables have them: words of a shell, which no shell reads."""
import os
import re
import shlex
import stat

from .files import Refused, shown, text_at

# Outside of quotes a shell would read these as more than letters, so whoever writes one expects something that does not happen.
SPECIAL = set("#;&|<>()*?`$")
# GCC's driver reads at most this many response files.
MOST_FILES = 2000
# Options whose value is the next word, which is then not an input file.
WITH_VALUE = frozenset("""-I -D -U -A -L -l -T -u -z -e -B -G -x -o -include -imacros -isystem -iquote -idirafter -iprefix -iwithprefix
-iwithprefixbefore -isysroot -imultilib -Xlinker -Xassembler -Xpreprocessor -aux-info -dumpbase -dumpbase-ext -dumpdir -wrapper --param
-specs --specs -R -h -soname -MF -MT -MQ""".split())
# The build itself says what is compiled and where it is written, and asks what was read.
OURS = re.compile(r"-(?:c|S|E|o.*|M[A-Z]*|###|fsyntax-only|print-.*|dumpspecs|dumpversion|dumpmachine|-help.*|-version)", re.S)
OURS_WITHIN = re.compile(r"-Wp,.*-M|-Wa,.*--?MD|-W[al],.*(?:--dependency-file|,-o,|^-Wl,-o,)", re.S)
# Options that make the compiler read files which it does not report: modules of C++, and profiles.
UNSEEN = re.compile(r"-f(?:modules?-.*|modules|profile-use(?:=.*)?|branch-probabilities|auto-profile(?:=.*)?)", re.S)
LANGUAGES = {
    ".c": "c", ".i": "cpp-output", ".cc": "c++", ".cpp": "c++", ".cxx": "c++", ".c++": "c++", ".cp": "c++", ".C": "c++", ".CPP": "c++",
    ".ii": "c++-cpp-output", ".S": "assembler-with-cpp", ".sx": "assembler-with-cpp", ".s": "assembler",
}


def words_in(text, path):
    """The words of a text, quoted as for a shell. What a shell would expand or run is refused, with the line."""
    quote, line = None, 1
    for at, sign in enumerate(text):
        line += sign == "\n"
        if at and text[at - 1] == "\\" and quote != "'":
            continue
        if quote:
            quote = None if sign == quote else quote
        elif sign in "'\"":
            quote = sign
        if sign in (SPECIAL if quote is None else "$`" if quote == '"' else ""):
            raise Refused(f'{shown(path)}:{line}: error: "{sign}" is not expanded or run here: expected options and files, without comments\n'
                          f"help: put the word into single quotes if \"{sign}\" is part of it")
    try:
        return shlex.split(text)
    except ValueError as error:
        raise Refused(f"{shown(path)}:{line}: error: {str(error)[:1].lower()}{str(error)[1:]}") from None


def flags_of(path):
    """The words of a file of flags, with the contents of response files in their place, and the response files that were read."""
    words, files = expanded(words_in(text_at(path), path))
    refuse_ours(words, path)
    refuse_unseen(words, path)
    return words, files


def expanded(words):
    """Words with the contents of each response file `@FILE` in its place, as GCC's driver does it, and the files in order."""
    done, files, left = [], [], list(reversed(words))
    while left:
        word = left.pop()
        if word.startswith("@") and is_file(word[1:]) and len(files) < MOST_FILES:
            files.append(word[1:])
            left.extend(reversed(response_words(text_at(word[1:]))))
        else:
            done.append(word)
    return done, files


def is_file(path):
    """Whether there is a regular file of this path."""
    try:
        return stat.S_ISREG(os.stat(path).st_mode)
    except (OSError, ValueError):
        return False


def response_words(text):
    """The words of a response file: blanks end a word; quotes group; a backslash takes the next character as it is, quoted or not."""
    words, word, quote, signs = [], None, None, iter(text)
    for sign in signs:
        if sign == "\\":
            word = (word or "") + next(signs, "")
        elif quote:
            quote, word = (None, word) if sign == quote else (quote, word + sign)
        elif sign in "'\"":
            quote, word = sign, word or ""
        elif sign.isspace():
            words, word = (words if word is None else [*words, word]), None
        else:
            word = (word or "") + sign
    return words if word is None else [*words, word]


def refuse_ours(words, path):
    """Refuses options that would change what the build makes, or hide from it what was read."""
    for word in words:
        if OURS.fullmatch(word) or OURS_WITHIN.search(word):
            raise Refused(f'{shown(path)}: error: "{shown(word)}" cannot be used: the build itself chooses inputs, outputs and dependency files')


def refuse_unseen(words, path):
    """Refuses options for which the compiler reads files that it does not report."""
    for word in filter(UNSEEN.fullmatch, words):
        raise Refused(f'{shown(path)}: error: "{shown(word)}" cannot be used: the compiler does not report which files it reads for it')


def inputs_of(words):
    """Each word with its part: `None` for an option or its value, a language for a source, and "" for another input of the linker."""
    language, value_of = None, None
    for word in words:
        if value_of:
            language = (None if word == "none" else word) if value_of == "-x" else language
            value_of = None
            yield word, None
        elif word.startswith("-") and word != "-":
            value_of = word if word in WITH_VALUE else None
            if word.startswith("-x") and word != "-x":
                language = None if word == "-xnone" else word[2:]
            yield word, None
        else:
            yield word, language or LANGUAGES.get(os.path.splitext(word)[1], "")
