#!/usr/bin/env python3
"""Brings the repository's own definitions and lemmas to the spelling of today's Rattle, by the table respell.tsv
beside this script (old name, tab, new name). Run once, at the top of the repository, right after the kit's port:
a second run would turn names again.

Code (specs/, proofs/, the clauses of src/): whole names. The proof of one function cites names that Rattle made, so
there a name with a dash behind a dot stays, unless a module's alias stands before the dot. Comments: names in
backquotes, and names in mixed case. Must-fail edits and mutations: as code, and their module paths too. Pages: names in backquotes."""
import pathlib
import re

ROOT = pathlib.Path(__file__).resolve().parent.parent
TABLE = dict(line.split("\t") for line in (ROOT / "tools/respell.tsv").read_text().splitlines())
NAME = re.compile(r"[^\s(){}.;,@\"«»`:]+")
MIXED = re.compile(r"[a-z][a-z0-9]*[A-Z]")
PATHS = [(re.compile(r"Rattle·(\w+)(?:·(?:specs|proofs))?\.(?:(specs|proofs)\.)?(?=specs\.|proofs\.)"), r"Rattle.\1."),
         (re.compile(r"Rattle·(\w+)\."), r"Rattle.\1."),
         (re.compile(r"the-variants"), "TheVariants")]


def turned(text, may=lambda match: True):
    return NAME.sub(lambda m: TABLE[m[0]] if m[0] in TABLE and may(m) else m[0], text)


def in_comment(text):
    """A comment: mixed case everywhere, the other names in backquotes."""
    parts = text.split("`")
    for k, part in enumerate(parts):
        parts[k] = turned(part, (lambda m: True) if k % 2 else (lambda m: MIXED.match(m[0])))
    return "`".join(parts)


def code(text, mark, may=lambda match: True):
    lines = []
    for line in text.split("\n"):
        at = re.search(rf"(?<![^\s(){{}}.;,]){mark}", line)
        cut = at.start() if at else len(line)
        lines.append(turned(line[:cut], may) + in_comment(line[cut:]))
    return "\n".join(lines)


def behind_a_dot(text):
    """For a function's proof: may a name be turned?"""
    aliases = set(re.findall(r"\bas (\w+)", text)) - {"tie"}

    def may(match):
        head = re.search(r"([^\s(){}.;,@\"]+)\.$", match.string[: match.start()])
        return "-" not in match[0] or not match.string[: match.start()].endswith(".") or bool(head and head[1] in aliases)

    return may


def paths(text):
    for old, new in PATHS:
        text = old.sub(new, text)
    return text


def page(text):
    return re.sub(r"`[^`\n]+`", lambda m: turned(paths(m[0])), text)


for path in sorted(ROOT.glob("crates/**/*")):
    inside = path.relative_to(ROOT / "crates").parts[1:]
    if "out" in inside or not path.is_file():
        continue
    old = path.read_bytes().decode() if path.suffix in (".antt", ".rt", ".edit") else None
    new = old
    if path.suffix == ".antt":
        new = code(old, "--", behind_a_dot(old) if inside[0] == "proofs" and len(inside) > 2 else lambda match: True)
    elif path.suffix == ".rt":
        new = code(old, "//", lambda match: "-" not in match[0])
    elif path.suffix == ".edit":
        new = turned(paths(old))
    if new != old:
        path.write_text(new)
for path in sorted(ROOT.glob("mutations/*.edits")):
    path.write_text(turned(paths(path.read_text())))
for path in [ROOT / "README.md", *sorted(ROOT.glob("docs/*.md")), *sorted(ROOT.glob("mutations/*.md"))]:
    path.write_text(page(path.read_text()))
