"""The documents say only what is there, and docs/TRACE.md leaves no sentence of document 01's rules out, nor of a request built.

- A name such as `Octets.run` must be declared in one module Octets of some crate's specs/ or proofs/ and in no other of that name, one
  such as `lines::content` must be a public function of the crate `lines`; a relative link must lead to a file.
- A public name of a definition means one thing: no two pages of specs/ declare it, as a definition or as a constructor.
- The first cell of each row of docs/TRACE.md is words of document 01 (`..` stands for words left out; a cell in brackets is ours), and
  together the rows cover the sections traced; so those of a request of document 02, which its note in docs/LANDINGS.md quotes.
- Every definition of the crates that a reader has to believe stands in docs/TRACE.md.
- The wrong programs that docs/PROMISES.md names are there, and each public function has at least two of its name.
- No public function asks anything of its callers, as docs/PROOFS.md says.
- No line of the sources of the crates and of the relay is wider than it may be.
"""
import pathlib
import re
import sys

from usage import arguments

ROOT = pathlib.Path(__file__).resolve().parent.parent
SCOPE = ROOT / "docs" / "01-scope.md"
TRACE = ROOT / "docs" / "TRACE.md"
PROMISES = ROOT / "docs" / "PROMISES.md"
LANDINGS = ROOT / "docs" / "LANDINGS.md"
# these speak of names that are gone
FORMER = {"DESIGN-PASS.md", "LOOK-BACK.md", "PORT.md"}
DOCUMENTS = [ROOT / "README.md", *(path for path in sorted((ROOT / "docs").glob("*.md")) if path.name not in FORMER)]
TRACED = ["The session", "Lines", "Client lines", "Server lines", "Demand 3 written out", "Session files"]
BELIEVED = ["rules", "octets", "address", "commands", "output", "queue", "places", "gives", "upstream", "downstream", "records", "setups", "steps", "counts", "session", "files", "fields", "report", "image", "fashlemor", "hosts", "prefix"]
# pages that only private functions cite
PRIVATE = {"Core", "Runs", "PlainRuns"}
# the columns of sources that people read side by side
WIDTHS = {"crates/*/src/**/*.rt": 120, "relay/*.h": 100, "relay/*.c": 100}
# how many words of document 01 may stand between two pieces that are traced
GAP = 4

MARKS = r"^(?:  )?(?:(?:unfoldable|abbrev) )?"
DECLARED = re.compile(MARKS + r"pub (?:record |data )?([^\s:]+)", re.M)
FIELD = re.compile(r"^ +pub (\S+) :", re.M)
DEFINED = re.compile(r"^(?:  )?(?:(?:unfoldable|abbrev) pub |pub (?:record|data) )([^\s:]+)", re.M)
CONSTRUCTORS = re.compile(r"^ *pub data .*where\n((?: +.*\n)+)", re.M)


def constructors(text):
    """The names before the colons of the lines that stand as far in as the first one."""
    for block in CONSTRUCTORS.findall(text):
        indent = re.match(" +", block).group()
        for names in re.findall(rf"^{indent}(\S[^:]*) :", block, re.M):
            yield from names.split()


def modules():
    """Each hand-written module, with the pages of that name, each with what it declares: definitions, fields and constructors."""
    found = {}
    for kind in ("specs", "proofs"):
        for path in sorted(ROOT.glob(f"crates/*/{kind}/**/*.antt")):
            text = path.read_text()
            names = set(DECLARED.findall(text)) | set(FIELD.findall(text)) | set(constructors(text))
            found.setdefault(path.stem, {})[path.relative_to(ROOT)] = names
    return found


def shared():
    """Public names that two pages of definitions declare."""
    pages = {}
    for path in sorted(ROOT.glob("crates/*/specs/**/*.antt")):
        text = path.read_text()
        for name in {*DEFINED.findall(text), *constructors(text)}:
            pages.setdefault(name, []).append(str(path.relative_to(ROOT)))
    for name, where in sorted(pages.items()):
        if len(where) > 1:
            yield f"{name} is declared in {' and in '.join(where)}"


def definitions():
    """What a reader has to believe: each declaration of the believed crates that is no field."""
    for crate in BELIEVED:
        for path in sorted(ROOT.glob(f"crates/{crate}/specs/**/*.antt")):
            if path.stem == "Lib" or path.stem in PRIVATE:
                continue
            text = path.read_text()
            fields = set(FIELD.findall(re.sub(r"^  pub (\S+) : .*→ Type 0 where", "", text, flags=re.M)))
            for name in DECLARED.findall(text):
                declared = re.search(rf"(?:(?:unfoldable|abbrev) pub|pub record|pub data) {re.escape(name)}(?=[\s:])", text)
                if not name.endswith("-opened") and (declared or name not in fields):
                    yield path.stem, name


def plain(text):
    return re.sub(r"\s+", " ", text.replace("\\|", "|")).strip()


def section(document, title):
    found = re.search(rf"^## {re.escape(title)}\n(.*?)(?=^## |\Z)", document.read_text(), re.M | re.S)
    return found.group(1) if found else ""


def requests():
    """Each request built, by the title of its rows in docs/TRACE.md, with its words, which its note quotes."""
    for number, note in re.findall(r"^## Request (\d+):.*?\n(.*?)(?=^## |\Z)", LANDINGS.read_text(), re.M | re.S):
        yield f"Document 02, request {number}", " ".join(re.findall(r"^> ?(.*)$", note, re.M))


def untraced(title, source):
    """Faults of a section's rows: words that the source has not, and words of it that no row has."""
    rows = [line for line in section(TRACE, title).splitlines() if line.startswith("| ") and not line.startswith("| Sentence")]
    prose = re.sub(r"^```.*?^```", "", source, flags=re.M | re.S)
    text = plain(re.sub(r"(?<!\|)\|(?!\|)", " ", prose))
    left = text
    for row in rows:
        cell = plain(re.split(r"(?<!\\) \| ", row[2:])[0])
        if cell.startswith("("):
            continue
        for piece in (p.strip(" ,;.") for p in re.split(r"(?:^|\s)\.\.(?:\s|$)", cell)):
            if len(piece) > 1 and piece not in text:
                yield f"docs/TRACE.md: {title} has not: {piece}"
            elif len(piece) > 1:
                left = left.replace(piece, " \0 ")
    for gap in left.split("\0"):
        words = re.findall(r"\w+", gap)
        if len(words) > GAP:
            yield f"docs/TRACE.md: no row for {title}: {' '.join(words[:14])}"


def functions_in(source):
    return re.findall(r"^pub (?:extern \"C\" )?fn (\w+)", source.read_text(), re.M) if source.exists() else []


def public_functions(crate):
    """The functions that other crates can call: those of lib.rt, and those of its modules that it hands on."""
    library = ROOT / "crates" / crate / "src" / "lib.rt"
    names = functions_in(library)
    handed = re.findall(r"^pub use (\w+)::(?:(\w+)|\{([^}]*)\});", library.read_text(), re.M) if library.exists() else []
    for module, one, several in handed:
        inside = functions_in(library.with_name(f"{module}.rt"))
        names += [name for name in re.findall(r"\w+", one or several) if name in inside]
    return names


def edits(crate):
    return [path.stem for path in ROOT.glob(f"crates/{crate}/must-fail/*.edit")]


def missing_edits():
    """Edits that a row of docs/PROMISES.md names and that are not there, and public functions with fewer than two."""
    for row in re.findall(r"^\|.*\|([^|]*)\|$", PROMISES.read_text(), re.M):
        crate = ""
        for word, name in re.findall(r"(\w+)? ?`([a-z0-9_]+)`", row):
            crate = word or crate
            if crate and name not in edits(crate):
                yield f"docs/PROMISES.md: {crate} has no edit {name}"
    for crate in (path.name for path in sorted((ROOT / "crates").iterdir())):
        functions = [name.removeprefix("fashlemor_") for name in public_functions(crate)]
        owners = [max((f for f in functions if edit.startswith(f + "_")), key=len, default=None) for edit in edits(crate)]
        for name in functions:
            if owners.count(name) < 2:
                yield f"crates/{crate}: {name} has {owners.count(name)} edits of its name"


def asking():
    """Functions that another crate can call, and that ask something of it: those of lib.rt, of its public modules, and handed on."""
    for library in sorted(ROOT.glob("crates/*/src/lib.rt")):
        crate = library.parent.parent.name
        whole = {library, *(library.with_name(f"{module}.rt") for module in re.findall(r"^pub mod (\w+);", library.read_text(), re.M))}
        for source in sorted(library.parent.glob("*.rt")):
            # the body begins behind the signature, or with a line of its own behind the clauses
            for name, head in re.findall(r"^ *pub (?:extern \"C\" )?fn (\w+)(.*?)(?:\)(?: -> [^\n]+)? \{$|^ *\{$)", source.read_text(), re.M | re.S):
                if re.search(r"^ +requires\b", head, re.M) and (source in whole or name in public_functions(crate)):
                    yield f"crates/{crate}: {name} asks something of its callers"


def faults():
    known = modules()
    for document in DOCUMENTS:
        where = document.relative_to(ROOT)
        text = document.read_text()
        for mark in re.findall(r"(?m)^(?:<<<<<<<|=======|>>>>>>>)(?: .*)?$", text):
            yield f"{where}: a merge left {mark}"
        for target in re.findall(r"\]\(([^)#]+)(?:#[^)]*)?\)", text):
            if "://" not in target and not (document.parent / target).exists():
                yield f"{where}: the link {target} leads nowhere"
        if document == SCOPE:
            continue
        for module, name in re.findall(r"`([A-Z]\w+)\.([^`\s.{}]+)`", text):
            pages = [page for page, names in known.get(module, {}).items() if name in names]
            if not pages:
                yield f"{where}: {module}.{name} is not declared"
            elif len(pages) > 1:
                yield f"{where}: {module}.{name} is declared in {' and in '.join(map(str, pages))}"
        for crate, name in re.findall(r"`([a-z_]+)::(\w+)`", text):
            if name not in public_functions(crate):
                yield f"{where}: {crate}::{name} is no public function"
    for title in TRACED:
        yield from untraced(title, section(SCOPE, title))
    for title, words in requests():
        yield from untraced(title, words)
    yield from missing_edits()
    yield from asking()
    yield from shared()
    traced = TRACE.read_text()
    for module, name in definitions():
        if f"`{module}.{name}`" not in traced:
            yield f"docs/TRACE.md: {module}.{name} stands in no row"


def wide():
    """Lines of sources over the columns that they may have."""
    for pattern, most in WIDTHS.items():
        for path in sorted(ROOT.glob(pattern)):
            for number, line in enumerate(path.read_text().split("\n"), 1):
                if len(line) > most:
                    yield f"{path.relative_to(ROOT)}:{number}: {len(line)} columns"


def main():
    arguments(__doc__)
    found = [*faults(), *wide()]
    for fault in found:
        print(fault)
    print(f"{len(DOCUMENTS)} documents, {sum(1 for _ in definitions())} definitions, {len(found)} faults")
    return 1 if found else 0


if __name__ == "__main__":
    sys.exit(main())
