"""Reads the make rules that compilers, assemblers and linkers write: the names of the files that they read."""
import re

WORD = re.compile(r"(?:\\.|\$\$|[^\s\\]|\\$)+", re.S)


def files_in_rules(text):
    """The prerequisites of the first rule, in order, with make's quoting undone."""
    text = text.replace("\\\n", " ")
    rule = re.match(r"(?:\\.|[^\\\n])*?:(?=\s|$)", text, re.S)
    if not rule:
        raise ValueError("no rule")
    end = text.find("\n", rule.end())
    return list(dict.fromkeys(unquoted(word) for word in WORD.findall(text[rule.end():end if end >= 0 else None])))


def unquoted(word):
    """A name without make's quoting, in which a backslash precedes a space, a tab, `#` and `:`, and `$` is doubled."""
    return re.sub(r"((?:\\\\)*)\\([ \t#:])", lambda found: "\\" * (len(found[1]) // 2) + found[2], word).replace("$$", "$")


def files_in_linked(text):
    """The files that GNU ld reports as read: one per line, unquoted."""
    first = text.partition("\n\n")[0]
    if ": \\\n" not in first and ":" not in first:
        raise ValueError("no rule")
    return list(dict.fromkeys(first.split(" \\\n  ")[1:]))
