"""What a document leaves out of a pool, or makes in another way, with the reason of each."""
import json
import sys

from pool_listing import Refused

SHOWN = 3
LONGEST_VALUE = 40
LONGEST = 120
ALWAYS = "no document has: the content of datasets, the space that they take, their createtxg, guid and creation, and the moments of holds"


def cut(text, longest):
    return text if len(text) <= longest else text[:longest] + ".."


def short_text(thing):
    """What is left out, in a few words."""
    text = thing["name"]
    if "property" in thing:
        text = "%s=%s of %s" % (thing["property"], cut(thing["value"], LONGEST_VALUE), text)
    elif "tag" in thing:
        text = "%s of %s" % (thing["tag"], text)
    elif "origin" in thing:
        text = "%s of %s" % (thing["origin"], text)
    return cut(text, LONGEST).encode("ascii", "backslashreplace").decode().replace("\n", "\\n")


class LeftOut:
    def __init__(self):
        self.things, self.notes = {}, []

    def add(self, reason, **thing):
        self.things.setdefault(reason, []).append(thing)

    def write(self, path):
        """A line of JSON for each thing."""
        try:
            with open(path, "w", encoding="ascii") as file:
                for reason, things in self.things.items():
                    for thing in things:
                        file.write(json.dumps({"reason": reason, **thing}) + "\n")
        except OSError as error:
            raise Refused("%s: %s" % (path, error.strerror))

    def tell(self, has):
        """Tells on standard error what the document has, and what it hasn't."""
        out = sys.stderr
        print("the document has: %s" % ", ".join("%d %s" % it for it in has), file=out)
        if self.things:
            print("left out or made in another way:", file=out)
        for reason, things in self.things.items():
            shown = ", ".join(short_text(it) for it in things[:SHOWN])
            more = ", .." if len(things) > SHOWN else ""
            print("%7d  %s: %s%s" % (len(things), reason, shown, more), file=out)
        for note in self.notes + [ALWAYS]:
            print(note, file=out)
