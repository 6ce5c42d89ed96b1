"""Reads the must-fail edits: wrong bodies, each under a line '# NAME: FUNCTION is refused: WHAT IS WRONG'."""
import collections
import glob
import os
import re

# A wrong body: its functions are those it changes, or, where it changes a constant, those that notice. Its pairs are (source, old, new).
Body = collections.namedtuple("Body", "crate edit name functions pairs")
NAMED = re.compile(r"# (\w+): ([\w:]+(?:, [\w:]+)*) is refused: \S.*")


def read(path):
    """The wrong bodies of an edit, and the faults in how it is written."""
    crate, edit = path.split("/")[-3], os.path.basename(path)[: -len(".edit")]
    bodies, faults, source, old = [], [], None, None
    for line in open(path, encoding="utf-8").read().split("\n"):
        named = NAMED.fullmatch(line)
        if named:
            bodies.append(Body(crate, edit, named.group(1), named.group(2).split(", "), []))
        elif line.startswith("#") and " is refused" in line:
            faults.append(f"no line that names a wrong body: {line}")
        elif line.startswith("file: "):
            source = line[len("file: ") :]
        elif line.startswith("old: "):
            old = line[len("old: ") :]
        elif line.startswith("new:"):
            if not bodies:
                faults.append(f"a body without a name: {line}")
            else:
                bodies[-1].pairs.append((source, old, line[len("new:") :].removeprefix(" ")))
    faults += [f"{body.name}: a name without a body" for body in bodies if not body.pairs]
    faults += places(bodies, os.path.dirname(os.path.dirname(path)))
    return bodies, [f"{crate}/must-fail/{edit}: {fault}" for fault in faults]


def places(bodies, crate):
    """What is at fault in where the wrong bodies of one edit stand."""
    faults, seen = [], set()
    sources = {path[len(crate) + 1 :]: open(path, encoding="utf-8").read() for path in glob.glob(f"{crate}/src/*.rt")}
    known = {name for source, text in sources.items() for _, _, name in functions(source, text)}
    for body in bodies:
        faults += [f"{body.name}: there is no function {name}" for name in body.functions if name not in known]
        faults += [f"{body.name}: {name} stands here twice" for name in body.functions if name in seen]
        seen.update(body.functions)
        for source, old, _ in body.pairs:
            text = sources.get(source, "")
            if text.count(old) != 1:
                faults.append(f"{body.name}: its text stands {text.count(old)} times in {source}")
                continue
            at = text.index(old)
            inside = [name for start, end, name in functions(source, text) if start <= at < end]
            if inside and inside[0] not in body.functions:
                faults.append(f"{body.name}: it changes {inside[0]}, which it does not name")
    return faults


def functions(source, text):
    """Where each function of a source begins and ends, and its name below the crate, as 'parts::is_legal' or 'State::new'."""
    module = os.path.basename(source)[: -len(".rt")]
    path = [] if module in ("lib", "main") else [module]
    found, kind, start, indent, name, at = [], None, None, "", "", 0
    declared = False  # within a trait, whose methods have no bodies
    for line in text.split("\n"):
        opened = re.match(r"impl (?:(\w+) for )?(\w+)", line)
        begun = re.match(r"(\s*)(?:pub )?(?:extern \"C\" )?fn (\w+)", line)
        if opened:
            trait, of = opened.groups()
            kind = of[0].upper() + of[1:] + (trait or "")
        elif re.match(r"(?:pub )?trait ", line):
            declared = True
        elif declared:
            declared = line != "}"
        elif begun and start is None:
            start, indent = at, begun.group(1)
            name = "::".join(path + ([kind] if indent else []) + [begun.group(2)])
        elif start is not None and line == indent + "}":
            found.append((start, at + len(line), name))
            start = None
        at += len(line) + 1
    return found


def everything(root="."):
    """The wrong bodies of all edits below a repository's root, and the faults."""
    bodies, faults = [], []
    for path in sorted(glob.glob(f"{root}/crates/*/must-fail/*.edit")):
        more, wrong = read(path)
        bodies += more
        faults += wrong
    count = collections.Counter((body.crate, body.name) for body in bodies)
    faults += [f"{crate}/must-fail: {name} is the name of several wrong bodies" for (crate, name), n in count.items() if n > 1]
    return bodies, faults
