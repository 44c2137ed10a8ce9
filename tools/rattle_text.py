"""Reads the sources of this repository as text: its crates, their public functions with the names of their clauses, the
definitions of specs/, constants. It relies on the layout of `rt fmt`.
"""
import os
import re

TOP = os.path.dirname(os.path.dirname(os.path.abspath(__file__)))
FUNCTION = re.compile(r"^( *)((?:pub(?:\([^)]*\))? )?)(?:const )?fn (\w+)")
BLOCK = re.compile(r"^(impl|trait|pub trait)\b")
CLAUSE = re.compile(r"^\s*ensures(?: \*)? *(\w*) *\{")
DEFINITION = re.compile(r"^ *(?:pub )?(?:pattern )?(?:abbrev|record|data|unfoldable|func) (?:pub )?(?!mutual$)([^\s:({]+)")


def read(path):
    with open(os.path.join(TOP, path), encoding="utf-8") as it:
        return it.read()


def lines_of(path):
    return read(path).split("\n")


def crates():
    """The crates of crates.txt with those that each stands on."""
    found = {}
    for line in lines_of("crates.txt"):
        line = line.partition("#")[0].strip()
        if line:
            name, _, deps = line.partition(":")
            found[name.split()[0]] = deps.split()
    return found


def files(folder, ending):
    """The files below a folder, as paths from the top."""
    found = []
    for at, folders, names in os.walk(os.path.join(TOP, folder)):
        folders[:] = sorted(it for it in folders if it not in ("out", ".git", "__pycache__"))
        found += [os.path.relpath(os.path.join(at, it), TOP) for it in sorted(names) if it.endswith(ending)]
    return found


def is_test(path):
    """Whether a file of src/ has tests, or belongs to a crate of tests."""
    parts = path.split("/")
    return parts[-1].endswith("tests.rt") or "tests" in parts[:-1] or (len(parts) > 1 and parts[1].endswith("_tests"))


class Function:
    """A function: where it stands, whose method it is, and the names of its clauses ('' for one without)."""

    def __init__(self, path, line, name, owner, trait, is_pub):
        self.path, self.line, self.name = path, line, name
        self.owner, self.trait, self.is_pub = owner, trait, is_pub
        self.clauses, self.end = [], line

    @property
    def title(self):
        return "%s::%s" % (self.owner, self.name) if self.owner else self.name


def head_of(line):
    """The type and the trait of an impl, or the trait alone."""
    line = line.rstrip(" {").partition(" where ")[0]
    if "trait " in line.partition("<")[0]:
        return re.search(r"trait (\w+)", line).group(1), None
    line = re.sub(r"^impl\s*", "", line)
    if line.startswith("<"):
        depth = 0
        for at, sign in enumerate(line):
            depth += {"<": 1, ">": -1}.get(sign, 0)
            if not depth:
                line = line[at + 1:].strip()
                break
    name = lambda it: re.match(r"[&\[]?(?:\w+::)*(\w+)", it.strip()).group(1)
    trait, has_for, of = line.partition(" for ")
    return (name(of), name(trait)) if has_for else (name(line), None)


def functions(path):
    """The functions of a file."""
    found, block, lines = [], None, lines_of(path)
    at = 0
    while at < len(lines):
        line = lines[at]
        if BLOCK.match(line):
            whole = line
            while "{" not in whole and at + 1 < len(lines):
                at += 1
                whole += " " + lines[at].strip()
            block = (head_of(whole), whole.startswith(("trait", "pub trait")), whole.startswith("pub trait"))
            if whole.rstrip().endswith("{}"):
                block = None
        elif line == "}":
            block = None
        fits = FUNCTION.match(line)
        if fits and len(fits.group(1)) in (0, 4) and (len(fits.group(1)) == 0 or block):
            at = take_function(found, path, lines, at, fits, block if fits.group(1) else None)
        at += 1
    return found


def take_function(found, path, lines, at, fits, block):
    """Adds the function that begins here, and answers its last line."""
    (owner, trait), is_trait, is_pub_trait = block or ((None, None), False, False)
    is_pub = fits.group(2) == "pub " or bool(trait) or (is_trait and is_pub_trait)
    made = Function(path, at + 1, fits.group(3), owner, trait, is_pub)
    indent = fits.group(1)
    has_body = False
    while at < len(lines):
        line = lines[at]
        clause = CLAUSE.match(line)
        if clause and not has_body:
            made.clauses.append(clause.group(1))
        has_body = has_body or line == indent + "{" or (line.startswith(indent + ")") or line.lstrip().startswith(("fn", "pub"))) and line.endswith(" {")
        if line in (indent + "}", indent + "{}") or (has_body and line == indent + "}") or line.endswith(" {}"):
            break
        if is_trait and not has_body and line.endswith(";"):
            break
        at += 1
    made.end = at + 1
    found.append(made)
    return at


def public_names(crate):
    """What lib.rt (or main.rt) makes public: names, and modules that are public whole."""
    folder = "crates/%s/src" % crate
    top = next((it for it in ("lib.rt", "main.rt") if os.path.exists(os.path.join(TOP, folder, it))), None)
    if not top:
        return set(), set()
    text = read("%s/%s" % (folder, top))
    names = set()
    for path in re.findall(r"^pub use ([^;]+);", text, re.M):
        names |= set(re.findall(r"\w+", path[path.index("{"):] if "{" in path else path.split("::")[-1]))
    return names, set(re.findall(r"^pub mod (\w+);", text, re.M))


def public_functions(crate):
    """The functions that another crate can call, and methods by which public types keep a trait."""
    names, modules = public_names(crate)
    found = []
    for path in files("crates/%s/src" % crate, ".rt"):
        module = os.path.relpath(path, "crates/%s/src" % crate)[:-3].split("/")
        is_top = module[-1] in ("lib", "main") and len(module) == 1
        if is_test(path):
            continue
        for it in functions(path):
            first = it.owner or it.name
            if it.is_pub and (is_top or module[0] in modules or first in names):
                found.append(it)
    return found


def definitions(crate):
    """The names that the crate's specs/ define, each with its file."""
    found = {}
    for path in files("crates/%s/specs" % crate, ".antt"):
        for line in lines_of(path):
            fits = DEFINITION.match(line)
            if fits:
                found.setdefault(fits.group(1), path)
    return found


def constants():
    """The constants of the code with their values, where these are numbers."""
    found = {}
    for crate in crates():
        for path in files("crates/%s/src" % crate, ".rt"):
            for name, value in re.findall(r"^(?:pub(?:\([^)]*\))? )?const (\w+): \w+ = ([^;]+);", read(path), re.M):
                value = value.replace("_", "")
                if re.fullmatch(r"[\d *+<()-]+", value):
                    found[crate, name] = eval(value, {})
    return found
