"""The record that .ci/run keeps of a gate: for each command NUMBER.command, .output, .start, .end and .status, and edits.jsonl."""
import json
import re
import subprocess
import sys
from pathlib import Path

from harness import TOP, closure, crates

MISSING = "missing: the record has no such line"


def git(*words):
    done = subprocess.run(["git", *words], cwd=TOP, capture_output=True, text=True)
    return done.stdout.split("\n") if done.returncode == 0 else []


class Record:
    """The record of a gate: its commands in order, each with its output; and an earlier one, for the crates whose sources are the same."""

    def __init__(self, commands, name, edits=()):
        self.commands, self.name, self.edits = commands, name, [json.loads(line) for line in edits]
        self.text = "\n".join([str(part) for it in commands for part in it.values()] + list(edits))
        self.ci = (self.command("rt ci") or {"output": ""})["output"].splitlines()
        self.earlier, self.same = None, set()

    def command(self, words):
        """The command that begins with these words; None if there is none."""
        return next((it for it in self.commands if (it["command"] or "").startswith(words)), None)

    def output(self, words):
        """The lines that a command printed; none if it is not there or failed."""
        found = self.command(words)
        return found["output"].splitlines() if found and found["status"] in ("0", None) else []

    def sums(self):
        """The SHA-256 of the built files by their paths."""
        return {name: found for found, name in re.findall(r"(?m)^([0-9a-f]{64}) +(\S+)", (self.command("sha256sum") or {"output": ""})["output"])}

    def goes_on_from(self, earlier):
        """Takes the record of an earlier gate of the same toolchain for the crates whose sources, and those of all below, are the same."""
        self.earlier = earlier
        commits = [it.output("git rev-parse HEAD") for it in (earlier, self)]
        if all(commits) and earlier.output("rt version") == self.output("rt version"):
            lines = [git("ls-tree", it[0], "crates/") for it in commits]
            was, now = ({line.split("\t")[1].removeprefix("crates/"): line.split()[2] for line in it if "\t" in line} for it in lines)
            self.same = {crate for crate in crates() if all(was.get(it, "") == now.get(it) for it in closure([crate]))}

    def blocks(self):
        """What the prover printed of each crate and of its tests: lines by the crate and what is said after a colon."""
        found, at = {}, None
        for line in self.ci:
            head = re.fullmatch(r"== (\w+)(?:: (.+))?", line)
            if head:
                at = found.setdefault((head[1], head[2] or ""), [])
            elif line.startswith("rt: "):
                at = None
            elif at is not None:
                at.append(line)
        return found


def record_in(folder):
    numbers = sorted(file.stem for file in folder.glob("*.command"))
    if not numbers:
        sys.exit(f"{Path(sys.argv[0]).name}: no record in {folder}: .ci/run keeps one in .gate")
    part = lambda file: file.read_text(errors="replace").rstrip("\n") if file.is_file() else None
    commands = [{it: part(folder / f"{number}.{it}") for it in ("command", "output", "start", "end", "status")} for number in numbers]
    for it in commands:
        it["output"] = it["output"] or ""
    edits = folder / "edits.jsonl"
    return Record(commands, "the record of .ci/run", edits.read_text(encoding="utf-8").splitlines() if edits.is_file() else [])


def record_of_log(file):
    output = file.read_text(errors="replace").rstrip("\n")
    return Record([{"command": "rt ci", "output": output, "start": None, "end": None, "status": None}], "the output of rt ci alone")


def last_logic(lines):
    """The last verdict line of the prover among these; empty if there is none."""
    return next((line for line in reversed(lines) if line.startswith("logic=")), "")


def counted(key, line):
    """The value of a key in a verdict line; None if it has none."""
    found = re.search(rf"\b{key}=(\S+)", line)
    return found and found[1]


def verdicts(record):
    """For each crate of crates.txt: what the record says of its proof, word for word."""
    blocks, found = record.blocks(), []
    before = record.earlier.blocks() if record.earlier else {}
    for crate in crates():
        said = [line for line in record.ci if re.match(rf"rt: {crate} (proved|is kept\b.*|NOT PROVED.*)$", line)]
        line = last_logic(blocks.get((crate, "")) or (before.get((crate, ""), []) if crate in record.same else []))
        origin = "this gate" if (crate, "") in blocks else record.earlier.output("git rev-parse HEAD")[0] if line else None
        found.append({
            "crate": crate, "verdict": said[-1].removeprefix("rt: ") if said else MISSING,
            "functions": counted("functions", line), "sum": counted("sum", line), "line": line or None, "line of": origin if line else None,
        })
    return found


def axioms_in(record):
    """For each program, its tests and each library for C: how many functions of C its verdict rests on, and what the record says of them by
    library; for a crate that is kept, what the earlier record says."""
    here, earlier = record.blocks(), record.earlier.blocks() if record.earlier else {}
    before = {key: lines for key, lines in earlier.items() if key[0] in record.same and key not in here}
    for (crate, kind), lines in [*before.items(), *here.items()]:
        count = next(filter(None, (counted("axioms", line) for line in lines if line.startswith("logic="))), None)
        if count:
            said = [line.removeprefix("axioms ") for line in lines if line.startswith("axioms ")]
            yield {"crate": crate, "what": (kind or "itself") + (", by the earlier record" if (crate, kind) in before else ""), "axioms": count, "lines": said}
    for found in filter(None, (re.match(r"library (\S+): (logic=.*)", line) for line in record.output(".ci/check_embedded"))):
        if counted("axioms", found[2]):
            yield {"crate": "narbeddo", "what": f"the library for {found[1]}", "axioms": counted("axioms", found[2]), "lines": []}


def tests_in(record):
    """For each crate with tests: how many, and whether they passed."""
    blocks = record.blocks()
    names = {crate for crate, kind in blocks if kind == "its tests"} | set(re.findall(r"(?m)^rt: (\w+): its tests\b", "\n".join(record.ci)))
    for crate in sorted(names):
        said = [line.removeprefix("rt: ") for line in record.ci if line.startswith(f"rt: {crate}: its tests")]
        yield {"crate": crate, "tests": counted("tests", last_logic(blocks.get((crate, "its tests"), []))), "lines": said}
