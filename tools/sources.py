"""What the sources and the pages say, for scripts that show it: modules of definitions, laws, public calls with their contracts, types of the
code, and the sections and tables of a page. The path of a module is as seen from crates/, without its ending."""
import functools
import hashlib
import re
from itertools import takewhile

from harness import CRATES, TOP, USE, crates, script, uses_in

try_edits = script("tools/try_edits")
legal_digest = script("tools/legal_digest")
LEGAL, PATH, CUSTOMER = ("legal part", "data path", "customer's part")
MODEL = "wc_model/specs"
# the public functions of these are shown whether a page names them or not
INTERFACE = ("wc_indicator", "wc_sma", "wc_run", "wc_scale", "narbeddo")
# definitions of these are shown if a contract or definition that is shown cites them
OF_CONTRACTS = re.compile(
    r"wc_model/specs/(?:Instrument|Run|Say)/|"
    r"(?:wc_plate|wc_indicator|wc_sma|wc_record|wc_scale|wc_run|wc_identity|wc_machine|wc_cost|wc_controller|narbeddo)/specs/(?!declared|contracts)"
)
# of the language, those that a contract cites itself, or a definition of one of these
OF_LANGUAGE = re.compile(r"wc_model/specs/(?:Language|Text)/")
CITES_LANGUAGE = re.compile(r"wc_model/specs/(?:Run|Say)/|(?:wc_controller|wc_run|wc_scale)/specs/")

SOURCE = re.compile(r"OIML R 76-1:2006(?:, [0-9.]+(?:(?: and |, )(?:[0-9.]+|table \d+|class III))*)?|IEC 61131-3:2003(?:, [0-9.]+)?|[Tt]he profile's own")
NAME = re.compile(r"[A-Za-z_][A-Za-z0-9_']*")
LAW = re.compile(r"((?:^///.*\n)+)(?:^#\[.*\n)*(^pub fn (\w+)(?:<[^>\n]*>)?\((?:[^()]|\([^()]*\))*\)\n(?:^    .*\n)+^\{\})", re.M)
CALLED = re.compile(r"((?:`[\w:]+`(?:, | and )?)+) of `((?:wc_\w+|narbeddo))`")
DECLARED = re.compile(r"(\w+)/specs/declared/(.+)/(\w+)")


# --- files

@functools.cache
def files_of_digests():
    """The part of the software that each file of a digest is in, by its path as seen from crates/."""
    return {path: part for part in (LEGAL, PATH) for path in legal_digest.files_of(part)}


def software_of(path):
    """The part of the software that a file is in, by its path as seen from crates/ or from the top; the customer's for a file that no digest names."""
    return files_of_digests().get(str(path).removeprefix("crates/"), CUSTOMER)


def software_of_edit(file):
    """The part of the software that an edit changes."""
    changed = re.search(r"(?m)^file: (.+)$", file.read_text())
    return software_of(f"{try_edits.crate_of(file)}/{changed[1].strip()}")


def sha256(file):
    return hashlib.sha256(file.read_bytes()).hexdigest() if file.is_file() else None


def module_path(file):
    return str(file.relative_to(CRATES).with_suffix(""))


# --- definitions

def words_of(comment):
    """A comment as one text without its marks."""
    return "\n".join(re.sub(r"^(--|///|//!) ?", "", line) for line in comment).strip("\n")


def source_of(comment):
    """The sections of standards that a comment names, as it names them."""
    return "; ".join(dict.fromkeys(SOURCE.findall(" ".join(comment.split()))))


def block_of(lines):
    """A definition: its comment, its code, the names that it defines."""
    comment = list(takewhile(lambda line: line.startswith("--"), lines))
    words, code = words_of(comment), "\n".join(lines[len(comment) :])
    names = re.findall(r"(?m)^(?:(?:pub|abbrev|unfoldable|data|record|ruleset) +)+([^\s:({]+)", code)
    inside = re.findall(r"(?m)^  (?:pub )?([A-Za-z_][\w']*) :", code)
    is_data = re.match(r"(pub )?data ", code)
    return {"names": names, "constructors": inside if is_data else [], "fields": [] if is_data else inside, "comment": words, "source": source_of(words), "code": code}


def cited_of(uses, code):
    """What a part of the code names of its file's imports."""
    words = set(NAME.findall(code))
    found = {path: [name for name in names if name.split(" as ")[-1].removeprefix("as ") in words] for path, names in uses.items()}
    return {path: names for path, names in found.items() if names}


@functools.cache
def module(path):
    """A module of definitions: its comment, its imports, its definitions in order."""
    file = CRATES / f"{path}.antt"
    head, *others = (part.split("\n") for part in re.split(r"\n\n+", file.read_text().rstrip("\n")))
    lines = [line for line in head if not USE.match(line)]
    comment = list(takewhile(lambda line: line.startswith("--"), lines))
    first = lines[len(comment) :]
    words = words_of(comment)
    return {
        "path": path, "part": software_of(f"{path}.antt"), "file": f"crates/{path}.antt", "sha256": sha256(file), "comment": words, "source": source_of(words),
        "uses": uses_in("\n".join(head)), "blocks": [block_of(it) for it in ([first] if first else []) + others],
    }


def in_order(paths):
    """The modules, each after those that it uses."""
    found = {}

    def add(path):
        if path in paths and path not in found:
            for other in module(path)["uses"]:
                add(other)
            found[path] = module(path)

    for path in sorted(paths):
        add(path)
    return list(found.values())


def definitions():
    """The paths of the definitions of the instrument, its line, the bound of a program, and of those of the crates of the interface."""
    own = (file for crate in INTERFACE for file in (CRATES / crate / "specs").glob("*.antt") if file.stem not in ("Lib", "Laws"))
    return [*map(module_path, (CRATES / MODEL / "Instrument").glob("*.antt")), f"{MODEL}/Language/Paths", *map(module_path, own)]


def modules_of(calls, of_laws, others):
    """The modules that the contracts of these calls cite, the others, and what these cite in turn. Of the modules with the laws those
    that are cited so; but not the statements themselves, which are shown with their laws."""
    statements = {path for path in of_laws if re.search(r"/(?:\w*Laws|Headline)$", path)}
    wanted, left = set(), [path for it in calls for path in it["uses"] if OF_CONTRACTS.match(path) or OF_LANGUAGE.match(path)]
    left += [*others, *statements]
    while left:
        path = left.pop()
        if path not in wanted and (CRATES / f"{path}.antt").is_file():
            wanted.add(path)
            left += [it for it in module(path)["uses"] if OF_CONTRACTS.match(it) or it in of_laws or OF_LANGUAGE.match(it) and CITES_LANGUAGE.match(path)]
    return in_order(wanted - statements)


# --- laws, public calls, types

def laws_in(file):
    """The public functions of a file that have an empty body: each is a law, which its clause states."""
    source = file.read_text()
    for comment, code, name in LAW.findall(source):
        yield {
            "name": name, "crate": file.relative_to(CRATES).parts[0], "file": str(file.relative_to(TOP)), "words": words_of(comment.splitlines()),
            "code": code, "uses": cited_of(uses_in(source), code),
        }


def law_groups():
    """The headline, the laws of the instrument, then those of each crate of laws: functions, and the modules of their statements."""
    having = {file.relative_to(CRATES).parts[0] for file in CRATES.glob("*/specs/Laws.antt")}
    order = [crate for crate in crates() if crate in having or crate.startswith("wc_laws_")]
    for crate in ["wc_controller", *sorted(order, key=lambda crate: crate != "wc_laws_instrument")]:
        files = sorted((CRATES / crate / "src").glob("headline.rt" if crate == "wc_controller" else "*.rt"))
        laws = [law for file in files for law in laws_in(file) if not any("Example" in path for path in law["uses"])]
        own = {path for law in laws for path in law["uses"] if path.startswith(f"{crate}/") or path.endswith("Laws")} | ({f"{crate}/specs/Laws"} if crate in having else set())
        # the headline and the laws of the instrument say what the line answers
        part = LEGAL if crate in ("wc_controller", "wc_laws_instrument") else software_of(laws[0]["file"]) if laws else CUSTOMER
        yield {"crate": crate, "part": part, "laws": laws, "modules": in_order(own)}


def end_of_contract(plain, at):
    """Where the body of a function begins, whose name ends at this place; None if it has none. The length of an array has a semicolon too."""
    while part := re.compile(r"\b(requires|ensures|ghost)\b\*?[^{};]*|\[[^\[\]{}]*\]|[{;]").search(plain, at):
        if part[0] in "{;":
            return part.start()
        at = try_edits.end_of(plain, part.end()) if part[1] else part.end()
    return None


def calls_in(file):
    """The public functions of a file: the comment of each, its signature, its clauses."""
    source, place = file.read_text(), file.relative_to(CRATES)
    plain, uses = try_edits.without_texts(source), uses_in(source)
    for found in try_edits.FUNCTION.finditer(plain):
        call, end = try_edits.Function(place.parts[0], "", plain, found), end_of_contract(plain, found.end())
        if not call.is_public or end is None:
            continue
        lines = map(str.strip, source[: found.start()].split("\n")[-2::-1])
        above = list(takewhile(lambda line: line.startswith(("///", "#[")), lines))[::-1]
        own = [line[len(found[1]) :] for line in source[found.start() : end].rstrip().split("\n")]
        code = "\n".join([line for line in above if line.startswith("#[unsafe")] + own)
        comment = words_of([line for line in above if line.startswith("///")])
        yield {
            "crate": call.crate, "part": software_of(place), "name": call.name, "path": call.path.rpartition("src::")[2], "file": str(file.relative_to(TOP)),
            "place": f"{place.with_suffix('')}:{call.name}", "words": comment, "source": source_of(comment), "code": code, "uses": cited_of(uses, code),
        }


@functools.cache
def contract_of(crate, function):
    """The signature and the clauses of a function of a crate, private ones too, by its path; None if there is none."""
    for file in sorted((CRATES / crate / "src").rglob("*.rt")):
        source = file.read_text()
        plain = try_edits.without_texts(source)
        for found in try_edits.FUNCTION.finditer(plain):
            end = end_of_contract(plain, found.end())
            if end is not None and try_edits.path_at(str(file.relative_to(CRATES / crate)), plain[: found.end()]) == function:
                own = [line[len(found[1]) :] for line in source[found.start() : end].rstrip().split("\n")]
                return {"crate": crate, "function": function, "file": str(file.relative_to(TOP)), "code": "\n".join(own)}
    return None


def called_in(page):
    """The calls that a page names as `CALL` of `CRATE`, as pairs; the type `T` alone is all its calls."""
    return {(crate, name) for names, crate in CALLED.findall(page) for name in re.findall(r"`([\w:]+)`", names)}


def names_of_call(it):
    """The pairs by which a page may name a call."""
    return {(it["crate"], name) for name in (it["name"], it["path"], it["path"].rpartition("::")[0])}


def calls_of(pages, places):
    """The public calls of the interface, those that these pages name, and those at these places (PATH:NAME): in the order of crates.txt."""
    named = set().union(*map(called_in, pages))
    every = (it for crate in crates() for file in sorted((CRATES / crate / "src").rglob("*.rt")) for it in calls_in(file))
    return [it for it in every if it["crate"] in INTERFACE or it["place"] in places or named & names_of_call(it)]


def types_of(paths):
    """The types of the code of which these modules are made: for each path of such a module, what its source declares."""
    found = {}
    for path in sorted(paths):
        named = DECLARED.fullmatch(re.sub(r"/The(?:Variants|Inside)$", "", path))
        file = CRATES / named[1] / "src" / f"{named[2]}.rt" if named else None
        shape = r"(?m)^((?:///.*\n)*)((?:#\[.*\n)*)(pub(?:\(crate\))? (?:struct|enum) {}\b[^;{{]*(?:;|\{{(?:.*\n)+?\}}|\{{\}}))"
        said = re.search(shape.format(named[3]), file.read_text()) if file and file.is_file() else None
        if said:
            words = words_of(said[1].splitlines())
            found[path] = {"crate": named[1], "part": software_of(file.relative_to(CRATES)), "name": named[3], "file": str(file.relative_to(TOP)), "words": words, "code": said[3]}
    return found


# --- pages

def section(page, heading):
    """The Markdown below a heading of a page."""
    found = re.search(rf"(?ms)^## {re.escape(heading)}\n(.*?)(?=^## |\Z)", (TOP / page).read_text())
    return found[1].strip() if found else f"missing: {page} has no section '{heading}'"


def cells_of(line):
    """The cells of a row of a Markdown table."""
    return [cell.strip() for cell in re.split(r"(?<=\s)\|(?=\s)", line.strip().removeprefix("|").removesuffix("|"))]


def rows_of(text):
    """The rows of the Markdown tables in a text, the heads and the lines below them too."""
    return [cells_of(line) for line in text.split("\n") if line.startswith("|")]


def tables_of(text):
    """The Markdown tables in a text, each as the rows that it has."""
    return [rows_of(table) for table in re.findall(r"(?:^\|.*\n?)+", text, re.M)]


def in_ticks(cell):
    return re.findall(r"`([^`]+)`", cell)


def traceability():
    """The index of clauses (docs/CLAUSES.md): for each of its sections the heading, the words before the table, its head, its rows."""
    first, *parts = re.split(r"(?m)^## (.+)\n", (TOP / "docs" / "CLAUSES.md").read_text())
    yield {"heading": "", "part": LEGAL, "words": first.partition("\n")[2].strip(), "head": [], "rows": []}
    for heading, body in zip(parts[::2], parts[1::2]):
        words = "\n".join(line for line in body.split("\n") if not line.startswith("|")).strip()
        head, _, *rows = rows_of(body)
        yield {"heading": heading, "part": LEGAL if heading.startswith("R 76-1") else CUSTOMER, "words": words, "head": head, "rows": rows}


def line_of(page, pattern):
    """What a line of a page has in the place of the pattern's group; a fault if there is no such line."""
    found = re.search(f"(?m){pattern}", (TOP / page).read_text())
    return found[1] if found else f"missing: {page} has no line {pattern}"
