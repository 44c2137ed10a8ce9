"""What the tools share that write documents: their layout, and what a name and a document may have at most."""
import json
import os
import re
import sys
import tempfile

from pool_listing import Refused

# docs/reference/limits.md has the reasons.
MOST_BYTES = 16777216
MOST_SETUP = 100000
MOST_RECORDS = 100000
MOST_SESSIONS = 16
MOST_CALLS = 1000
LONGEST_NAME = 255
MEMBERS = ("pool", "now", "setup", "programs", "sessions", "schedule")
NAME = re.compile(r"[A-Za-z][A-Za-z0-9_:. -]*(?:/[A-Za-z0-9_:. -]+){0,49}(?:[@#][A-Za-z0-9_:. -]+)?")


def is_name(text):
    """Whether the text is a name: docs/reference/names.md."""
    return len(text) <= LONGEST_NAME and NAME.fullmatch(text) is not None


def array(items, indent):
    """The text of an array, an item a line."""
    if not items:
        return "[]"
    blanks = " " * indent
    return "[\n%s\n%s]" % (",\n".join(blanks + "  " + it for it in items), blanks)


def text_of(document):
    """The text of a document: a command, a program, a call a line, and the events of a call a line."""
    programs = ["%s: %s" % (json.dumps(name), json.dumps(text)) for name, text in document["programs"].items()]
    parts = {
        "pool": json.dumps(document["pool"]),
        "now": json.dumps(document["now"]),
        "setup": array([json.dumps(it) for it in document["setup"]], 2),
        "programs": "{\n%s\n  }" % ",\n".join("    " + it for it in programs) if programs else "{}",
        "sessions": array([array([json.dumps(it) for it in calls], 4) for calls in document["sessions"]], 2),
    }
    if "schedule" in document:
        parts["schedule"] = array(lines_of_events(document["schedule"]), 2)
    text = "{\n%s\n}\n" % ",\n".join('  "%s": %s' % (it, parts[it]) for it in MEMBERS if it in parts)
    if len(text) > MOST_BYTES:
        raise Refused("the document would have %d bytes; zcpd takes %d" % (len(text), MOST_BYTES))
    return text


def lines_of_events(events):
    lines = []
    for event in events:
        if not lines or event[0] in ("hold", "read"):
            lines.append([])
        lines[-1].append(json.dumps(event))
    return [", ".join(it) for it in lines]


def write(document, path):
    """Writes a document to a file, which is whole or as it was, or to standard output where the path is None."""
    text = text_of(document)
    if path is None:
        sys.stdout.write(text)
        return
    folder, name = os.path.split(os.path.abspath(path))
    try:
        with tempfile.NamedTemporaryFile("w", encoding="utf-8", dir=folder, prefix=name, delete=False) as file:
            file.write(text)
        os.chmod(file.name, os.stat(path).st_mode & 0o777 if os.path.exists(path) else 0o644)
        os.replace(file.name, path)
    except OSError as error:
        raise Refused("%s: %s" % (path, error.strerror))
