# What the sources define, for the scripts of the gate: the crates, the names in a file, the public functions, the must-fail edits.
# It reads the layout that `rt fmt` keeps: items start at a line's first column, what stands inside an `impl` four columns further.
import re
import sys
from dataclasses import dataclass
from functools import lru_cache
from pathlib import Path

ROOT = Path(__file__).resolve().parent.parent
CRATES = ROOT / "crates"
# the libraries of the Rattle kit that a program stands on
KIT = {"core", "io", "libc", "os", "std", "std_alloc", "std_collections", "std_heap", "std_io"}


def crates():
    """The crates that crates.txt lists, each with the libraries that it rests on."""
    lines = (ROOT / "crates.txt").read_text().splitlines()
    parts = [line.partition(":") for line in lines if line.strip() and not line.startswith("#")]
    # behind a crate's name stands what is built of it, where that is no library and no program
    return {settings.split()[0]: below.split() for settings, _, below in parts}


def is_program(crate):
    return (CRATES / crate / "src/main.rt").exists()


def edits(crate):
    """The must-fail edits of a crate, by name."""
    return {path.stem for path in (CRATES / crate / "must-fail").glob("*.edit")}


# ---- names


@lru_cache(maxsize=None)
def names(path):
    """The names that a file defines."""
    text = path.read_text()
    if path.suffix == ".antt":
        return antt_names(text)
    return rust_names(text)


def antt_names(text):
    """Definitions, records with their fields, data types with their constructors."""
    found = set()
    in_data = False
    for line in text.splitlines():
        if line and not line.startswith(" "):
            in_data = re.match(r"(pub )?data ", line) is not None
        marked = re.match(r"\s*(?:(?:pub|abbrev|unfoldable) )+", line)
        rest = line[marked.end() :] if marked else line
        typed = re.match(r"(?:record|data) (\S+)", rest)
        if typed:
            found.add(typed[1])
            continue
        if marked or in_data or not line.startswith(" "):
            signature = re.match(r"\s*([^\s(){}:=-][^\s(){}:=]*(?: [^\s(){}:=]+)*) : ", rest + " ")
            if signature:
                found.update(signature[1].split(" "))
    return found


def rust_names(text):
    """Functions, also as Type::name, structs with their fields, enums with their variants, constants; of Rattle, Rust and C."""
    found = set()
    owner = None
    for line in text.splitlines():
        item = re.match(r"\s*(?:pub(?:\([^)]*\))? |extern \"C\" |const |unsafe )*(fn|struct|enum|const|type|mod) (\w+)", line)
        begins = re.match(r"(?:impl(?:<[^>]*>)?|(?:pub )?enum|(?:pub )?struct) (\w+).*\{$", line)
        if begins:
            owner = begins[1]
        elif line == "}":
            owner = None
        if item:
            found.add(item[2])
            if owner and item[1] == "fn":
                found.add(f"{owner}::{item[2]}")
            continue
        inner = re.match(r"    (?:pub )?(\w+)(?:,|\(.*\),|: .*,)$", line)
        if owner and inner:
            found.update({inner[1], f"{owner}::{inner[1]}"})
    return found


def crate_files(crate, *folders):
    """The sources of a crate, in its folders src, specs and proofs or in those named."""
    folders = folders or ("src", "specs", "proofs")
    return [path for folder in folders for path in sorted((CRATES / crate / folder).rglob("*")) if path.suffix in (".rt", ".antt")]


@lru_cache(maxsize=None)
def places(name):
    """The files under crates/ and compare/ that define a name."""
    files = [path for crate in crates() for path in crate_files(crate)] + sorted((ROOT / "compare").rglob("*.rs"))
    return [path for path in files if name in names(path)]


# ---- public functions


@dataclass(frozen=True)
class Function:
    name: str  # with its type: Ring::step
    parameters: tuple
    result: str
    clauses: str
    path: Path

    def signature(self):
        result = f" -> {self.result}" if self.result else ""
        return f"{self.name}({', '.join(self.parameters)}){result}"


def public_functions(crate):
    """The functions of a library that another crate can call: those at the top of its public modules, and the public methods of its public types."""
    public = public_modules(CRATES / crate / "src/lib.rt", CRATES / crate / "src", "")
    types = {name for path in public for name in re.findall(r"^pub (?:struct|enum) (\w+)", code(path), re.M)}
    found = []
    for path in crate_files(crate, "src") if public else []:
        if path in public:
            found += functions(path, code(path), "", public[path])
        for name, body in re.findall(r"^impl(?:<[^>]*>)? (\w+)(?:<[^>]*>)? \{\n(.*?)^\}", code(path), re.M | re.S):
            if name in types:
                found += functions(path, body, "    ", f"{public.get(path, '')}{name}::")
    return found


def code(path):
    return re.sub(r"//.*", "", path.read_text())


def public_modules(path, folder, prefix):
    """The file at a path and those of the modules that it makes public, each with the prefix of its names."""
    if not path.exists():
        return {}
    for unread in re.findall(r"^(?:pub use .*|pub mod \w+ \{)", code(path), re.M):
        sys.exit(f"{path.relative_to(ROOT)}: .ci/sources.py does not read '{unread}', so it could miss a public function")
    found = {path: prefix}
    for module in re.findall(r"^pub mod (\w+);", code(path), re.M):
        beside = folder / f"{module}.rt"
        file = beside if beside.exists() else folder / module / "mod.rt"
        found |= public_modules(file, folder / module, f"{prefix}{module}::")
    return found


def functions(path, text, indent, prefix):
    """The public functions that start at this column."""
    start = rf"^{indent}pub (?:extern \"C\" )?fn "
    head = start + rf"(\w+)(?:<[^>]*>)?\((.*?)\)(?: -> ([^\n]*?))?(?: \{{|\n(.*?)^{indent}\{{)$"
    found = []
    for name, parameters, result, clauses in re.findall(head, text, re.M | re.S):
        parts = [part.strip().removeprefix("mut ") for part in parameters.split(",")]
        found.append(Function(prefix + name, tuple(part.split(":")[0] for part in parts if part), result.strip(), clauses, path))
    if len(found) != len(re.findall(start, text, re.M)):
        sys.exit(f"{path.relative_to(ROOT)}: .ci/sources.py cannot read every public function here")
    return found
