"""Looks for phrases that docs and comments of this repository do not use, and for source files without a line on what is in them."""
import os
import re

# Each phrase with what to write.
PHRASES = {
    r"want(s|ing)? of memory|memory (is|was|were) (wanting|refused)": "out of memory; an allocation fails",
    r"\b(is|are|was|were) told\b": "is reported, is printed",
    r"\bso many (commands|bytes|members|frames)\b": "this many",
    r"\banew\b": "again",
    r"\bbe it\b|\bwhat is none\b|\bis no (member|batch|group) of\b|\bto know it by\b": "say it in a plain sentence",
    r"\bfor want of\b": "without",
    r"\bone behind the other\b|\b(behind|in front of) (it|the (last|first|next))\b": "after, before",
    r"\bstands? (at|in|behind|there)\b": "is",
    r"\btime-outs?\b": "timeout",
}
MARKS = {".rt": ("//",), ".antt": ("-- ",), ".py": ("#",), ".sh": ("#",)}
HEADS = {".rt": "//!", ".antt": "-- "}


def _prose(path, text):
    """Returns the lines of the file that a person reads, with their numbers."""
    marks = MARKS.get(os.path.splitext(path)[1])
    lines = enumerate(text.split("\n"), 1)
    return [(number, line) for number, line in lines if marks is None or line.lstrip().startswith(marks)]


def findings(root):
    """Returns a line for each phrase and each file without a head."""
    found = []
    for at, folders, files in os.walk(root):
        folders[:] = sorted(it for it in folders if it not in (".git", "out", "cases", "__pycache__"))
        for name in sorted(files):
            path, kind = os.path.relpath(f"{at}/{name}", root), os.path.splitext(name)[1]
            if kind not in (*MARKS, ".md"):
                continue
            with open(f"{root}/{path}", encoding="utf-8") as file:
                text = file.read()
            is_headed = kind in HEADS and name != "Lib.antt" and "/proofs/" not in path
            if is_headed and not text.startswith(HEADS[kind]):
                found.append(f"{path}:1: the first line does not say what is in the file")
            for number, line in _prose(path, text):
                found += [f"{path}:{number}: write {better!r}" for phrase, better in PHRASES.items() if re.search(phrase, line, re.I)]
    return found
