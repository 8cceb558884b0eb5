"""Files of this repository, and the parts of them that a tool makes, between two markers that name it."""
import os
import sys

ROOT = os.path.dirname(os.path.dirname(os.path.abspath(__file__)))


def read(path):
    """A file's text; where it can't be read, the end, with exit status 2."""
    try:
        with open(os.path.join(ROOT, path), encoding="utf-8") as file:
            return file.read()
    except (OSError, UnicodeDecodeError) as problem:
        print("%s: %s" % (path, getattr(problem, "strerror", "it is not UTF-8")), file=sys.stderr)
        sys.exit(2)


def write(path, text):
    with open(os.path.join(ROOT, path), "w", encoding="utf-8") as file:
        file.write(text)


def markers(tool, comment):
    return comment % ("made by tools/%s --write" % tool), comment % ("end of what tools/%s makes" % tool)


def with_part(path, tool, comment, part):
    """A file's text with this part between the tool's markers; where it hasn't both once, in this order, the end, with exit status 1."""
    text = read(path)
    begin, end = markers(tool, comment)
    if text.count(begin) != 1 or text.count(end) != 1 or text.index(begin) > text.index(end):
        print("%s must have one line '%s' and below it one '%s'" % (path, begin, end), file=sys.stderr)
        sys.exit(1)
    return text[:text.index(begin)] + begin + "\n" + part + "\n" + text[text.index(end):]
