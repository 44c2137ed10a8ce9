"""Reads what `zfs list`, `zfs get` and `zfs holds` wrote with -H: fields with a tab between them, without a header.

A fault of a file ends the reading with Refused, which tells the file and the line.
"""

COLUMNS = ("name", "type", "origin", "createtxg", "guid", "mounted", "defer_destroy", "userrefs")
FEWEST = 5
TYPES = ("filesystem", "volume", "snapshot", "bookmark")
# zfs-get(8): where a value comes from. Only the first two are set on the dataset itself.
SETTING_SOURCES = ("local", "received")
OTHER_SOURCES = ("default", "temporary", "none", "-")


class Refused(Exception):
    """What ends a tool, as a sentence for its user."""


class Listed:
    """A line of the listing. A column that wasn't asked for is None."""

    def __init__(self, place, fields):
        told = dict(zip(COLUMNS, fields))
        self.place = place
        self.name, self.type = told["name"], told["type"]
        self.origin = None if told["origin"] in ("-", "") else told["origin"]
        self.createtxg, self.guid = int(told["createtxg"]), told["guid"]
        self.mounted = told.get("mounted")
        self.deferred = told.get("defer_destroy")
        self.userrefs = told.get("userrefs")
        self.head, self.mark, self.short = split_name(self.name)


class Setting:
    """A line of `zfs get`."""

    def __init__(self, name, prop, value, source):
        self.name, self.prop, self.value, self.source = name, prop, value, source


def split_name(name):
    """The part before the first mark, the mark, and the part behind it."""
    for at, letter in enumerate(name):
        if letter in "@#":
            return name[:at], letter, name[at + 1:]
    return name, "", ""


def lines_of(path):
    """The lines of a file with their numbers, empty ones too. Bytes that are no UTF-8 stand for themselves."""
    try:
        with open(path, encoding="utf-8", errors="surrogateescape", newline="\n") as file:
            text = file.read()
    except OSError as error:
        raise Refused("%s: %s" % (path, error.strerror))
    return enumerate(text.split("\n"), 1)


def full_lines_of(path):
    return ((number, line) for number, line in lines_of(path) if line)


def read_listing(path):
    """The datasets of a listing by their names, in their order."""
    found, wanted = {}, None
    for number, line in full_lines_of(path):
        at = "%s:%d" % (path, number)
        fields = line.split("\t")
        wanted = wanted or len(fields)
        if len(fields) != wanted or not FEWEST <= wanted <= len(COLUMNS):
            raise Refused("%s: %d fields. They have to be %s and, where they were asked for, %s, with a tab between two: was -H left out?"
                          % (at, len(fields), ",".join(COLUMNS[:FEWEST]), ",".join(COLUMNS[FEWEST:])))
        if fields[1] not in TYPES:
            raise Refused("%s: '%s' is no type of a dataset" % (at, fields[1]))
        if not (fields[3].isascii() and fields[3].isdigit()):
            raise Refused("%s: '%s' is no createtxg: was -p left out?" % (at, fields[3]))
        listed = Listed(len(found), fields)
        if listed.mark != {"snapshot": "@", "bookmark": "#"}.get(listed.type, ""):
            raise Refused("%s: '%s' is no name of a %s" % (at, listed.name, listed.type))
        if listed.name in found:
            raise Refused("%s: '%s' stands twice" % (at, listed.name))
        found[listed.name] = listed
    if not found:
        raise Refused("%s: there is no line" % path)
    return found


def is_source(text):
    return text in SETTING_SOURCES + OTHER_SOURCES or text.startswith("inherited from ")


def read_settings(path):
    """The lines of `zfs get`. The value of a user property may have tabs and newlines of its own."""
    held, start = None, 0
    for number, line in lines_of(path):
        if held is None and not line:
            continue
        if held is None:
            held, start = line, number
        else:
            held += "\n" + line
        fields = held.split("\t")
        if len(fields) < 3 or "\n" in fields[0] + fields[1]:
            raise Refused("%s:%d: the fields have to be name, property, value and source, with a tab between two: was -H left out?" % (path, start))
        if len(fields) > 3 and is_source(fields[-1]):
            yield Setting(fields[0], fields[1], "\t".join(fields[2:-1]), fields[-1])
            held = None
    if held is not None:
        raise Refused("%s:%d: the line has no source at its end" % (path, start))


def read_holds(path):
    """The snapshots and tags of `zfs holds`, each pair once, in their order."""
    found = {}
    for number, line in full_lines_of(path):
        fields = line.split("\t")
        if len(fields) != 3:
            raise Refused("%s:%d: the fields have to be name, tag and moment, with a tab between two: was -H left out?" % (path, number))
        found[fields[0], fields[1]] = None
    return list(found)
