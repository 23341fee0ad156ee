"""What the scripts of .ci and tools share: paths, inputs, calls with a time limit, readers of the repository's lists, and the end of a check.

A script of tools imports it by its name. One of .ci is in another folder, and has to add the path first:

    sys.path.insert(0, str(Path(__file__).resolve().parent.parent / "tools"))
    from harness import PROGRAM, call, conclude, need

It needs Python alone. All paths are absolute."""
import functools
import re
import subprocess
import sys
import tempfile
from contextlib import contextmanager
from importlib.machinery import SourceFileLoader
from importlib.util import module_from_spec, spec_from_loader
from pathlib import Path

TOP = Path(__file__).resolve().parent.parent
CRATES = TOP / "crates"
# what is built: the program, the one that runs a job over both stores of a machine, and the library for C
PROGRAM = CRATES / "wc" / "out" / "wc"
BOTH_STORES = CRATES / "wc_tests_both_stores" / "out" / "wc_tests_both_stores"
LIBRARY = CRATES / "narbeddo" / "out" / "libnarbeddo.a"
ARM_LIBRARY = LIBRARY.with_name("libnarbeddo-aarch64.a")
HEADER = TOP / "include" / "narbeddo.h"
BUILT_BY = {
    PROGRAM: "`rt ci`, or in crates/wc `rt run < ../../examples/first/job.txt`",
    BOTH_STORES: "`rt ci`, or in crates/wc_tests_both_stores `rt run < ../../examples/first/job.txt`",
    LIBRARY: "`rt lib` in crates/narbeddo",
}

# a plate in 15 kg by 5 g, and the first line of each log
PLATE = 'unit = "kg"\ndecimals = 3\nmax = 15000\ne = 5\nzero_counts = 10000\nspan_counts = 600000\nwindow = 4\n'
HEADING = "ms,kind,data\n"


def doubling():
    """The text whose last unit calls too many blocks: each of nineteen calls the one before twice."""
    text = "FUNCTION_BLOCK U1\nLD TRUE\nEND_FUNCTION_BLOCK\n"
    for n in range(2, 20):
        text += f"FUNCTION_BLOCK U{n}\nVAR f : U{n - 1}; END_VAR\nCAL f\nCAL f\nEND_FUNCTION_BLOCK\n"
    return text + "PROGRAM P\nVAR f : U19; END_VAR\nCAL f\nCAL f\nEND_PROGRAM\n"


# texts of programs that are too long for the table of docs/REFUSALS.md, by the number of the refusal
LONG_TEXTS = {
    107: " " * 65537,
    208: "FUNCTION_BLOCK a END_FUNCTION_BLOCK\n" * 64 + "PROGRAM",
    306: "PROGRAM P\nVAR " + ", ".join(f"v{n}" for n in range(257)) + " : BOOL; END_VAR\nEND_PROGRAM\n",
    411: doubling(),
}

# the seconds after which a call is ended, unless the caller says otherwise: the gate's scripts run side by side, so a call
# of some seconds may take minutes on few processors
LIMIT = 900


# a line that brings names of a module of definitions or lemmas in, or the module by another name
USE = re.compile(r"(?m)^ *(?:unfoldable )?(?:pub )?(?:ghost )?use Rattle\.([\w.]+?)(?:\.\{([^}]*)\}| as (\w+));?$")


@functools.cache
def passed_on(module):
    """The module that defines each name which a module passes on, by the name."""
    file = next((it for it in (CRATES / f"{module}.antt", CRATES / module / "Lib.antt") if it.is_file()), None)
    found = re.findall(r"(?m)^pub use Rattle\.([\w.]+)\.\{([^}]*)\}$", file.read_text()) if file else []
    return {name.strip(): path.replace(".", "/") for path, names in found for name in names.split(",")}


def uses_in(source):
    """What a source imports, by the module that defines it: names, `A as B` for a renamed one, `as B` for the module itself."""
    found = {}
    for path, names, alias in USE.findall(source):
        module = path.replace(".", "/")
        for name in [f"as {alias}"] if alias else [it.strip() for it in names.split(",")]:
            found.setdefault(passed_on(module).get(name.split(" as ")[0], module), []).append(name)
    return found


def call(words, limit=LIMIT, **more):
    """A call of a program that has ended, as `subprocess.run` returns it, with its output: bytes, or texts with text=True.

    Without `input` or `stdin` it has nothing on standard input. Raises subprocess.TimeoutExpired after `limit` seconds."""
    if "input" not in more:
        more.setdefault("stdin", subprocess.DEVNULL)
    return subprocess.run(words, capture_output=True, timeout=limit, **more)


@contextmanager
def scratch():
    """A folder for temporary files, as a path; it is removed at the end."""
    with tempfile.TemporaryDirectory() as name:
        yield Path(name)


def need(*files):
    """Ends the script with status 2 if one of these built files is missing, with a line on standard error on how it is built."""
    for file in files:
        if not file.is_file():
            what = f"is not built: run {BUILT_BY[file]}" if file in BUILT_BY else "is missing"
            print(f"{Path(sys.argv[0]).name}: {file} {what}", file=sys.stderr)
            sys.exit(2)


def not_tried(what):
    """Prints what a check leaves out, on a line that the gate prints again at its end and that the dossier has."""
    print(f"not tried: {what}")


def elf_machine(file):
    """The number of the processor that the first object in a file is for, as its head has it: 62 is x86-64, 183 aarch64; None if there is none."""
    content = file.read_bytes() if file.is_file() else b""
    at = content.find(b"\x7fELF")
    return int.from_bytes(content[at + 18 : at + 20], "little") if at >= 0 else None


def untried(counts):
    """A fault for each count that is 0: a check that tries nothing shows nothing."""
    return [f"no {what}" for what, count in counts.items() if not count]


def conclude(name, counts, faults, note="", most=None):
    """Prints the faults, a line each (no more than `most`), and last `NAME: COUNT WHAT, .., N faults` with the note.

    Returns the exit status: 1 if there is a fault, else 0. A count of 0 is a fault."""
    faults = [*faults, *(f"{name}: {fault}" for fault in untried(counts))]
    for fault in faults[:most]:
        print(fault)
    print(f"{name}: {''.join(f'{count} {what}, ' for what, count in counts.items())}{len(faults)} faults{note}")
    return 1 if faults else 0


def script(path):
    """A script as a module: PATH as seen from the top of the repository, such as tools/try_edits."""
    sys.dont_write_bytecode = True
    loader = SourceFileLoader(Path(path).name, str(TOP / path))
    found = module_from_spec(spec_from_loader(loader.name, loader))
    loader.exec_module(found)
    return found


def sections(text, begins=lambda head, before: True):
    """The sections of a file of cases, in order: the number of its first line, its head, the rest of that line, and the lines below it.

    A line `@HEAD REST` begins a section if `begins` says so of the head and that of the section before (None: it is the first). Other lines
    belong to the section; those above the first are left out."""
    found = []
    for number, line in enumerate(text.removesuffix("\n").split("\n"), 1):
        head, _, rest = line[1:].partition(" ")
        if line.startswith("@") and begins(head, found[-1][1] if found else None):
            found.append((number, head, rest, []))
        elif found:
            found[-1][3].append(line)
    return found


def version():
    """The version of the newest section of the changes."""
    return re.search(r"(?m)^## ([0-9.]+)", (TOP / "CHANGELOG.md").read_text())[1]


def crates():
    """Each crate of crates.txt, in its order, with the list of its dependencies."""
    lines = [line.partition("#")[0] for line in (TOP / "crates.txt").read_text().splitlines()]
    named = [line.partition(":") for line in lines if ":" in line]
    return {name.split()[0]: below.split() for name, _, below in named}


def closure(names):
    """These crates and all their dependencies in the repository, the nearest first."""
    found, left, below = [], list(names), crates()
    while left:
        name = left.pop(0)
        if name in below and name not in found:
            found.append(name)
            left += below[name]
    return found


def kit():
    """The folder of the toolchain. Raises OSError or subprocess.CalledProcessError if there is none."""
    return Path(call(["rt", "doc"], text=True, check=True).stdout.strip()).parent


def over_the_gate(command, crate):
    """The command line of `rattle check` or `rattle build` of a crate, over the libraries that the gate has proved."""
    kit_here, below = kit(), crates()
    rlibs = {name: CRATES / name / "out" / "rlib" for name in below}
    root = "src/main.rt" if (CRATES / crate / "src" / "main.rt").is_file() else "src/lib.rt"
    words = ["rattle", command, "--crate-name", crate, root, "--extern", f"std={kit_here}/rlibs/std.rlib"]
    words += [word for name in below[crate] if name not in below for word in ("--extern", f"{name}={kit_here}/rlibs/{name}.rlib")]
    words += ["-L", f"dependency={kit_here}/rlibs"]
    words += [word for name in below[crate] if name in below for word in ("--extern", f"{name}={rlibs[name]}/{name}.rlib")]
    words += [word for name in closure([crate])[1:] for word in ("-L", f"dependency={rlibs[name]}")]
    words += ["--antt-project", f"{kit_here}/rattle/logic/antt-project.json", "--logic-built", f"{kit_here}/logic_built", "--jobs", "1"]
    return words
