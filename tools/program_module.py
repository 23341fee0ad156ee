"""The module of the program that the gate has proved, for systems that the toolchain does not build for.

A module is the program in the language of LLVM, as the toolchain gives it to its compiler. What is done to it here is outside of the
proof, as the compiler is: its target is changed, and nothing else."""
import hashlib
import re
import shutil
import sys
from pathlib import Path

from harness import CRATES, PROGRAM, TOP, call, kit, over_the_gate

# how the toolchain's own system lays out memory, in the words of LLVM
LAYOUT = re.compile(r'(?m)^target (datalayout|triple) = "[^"]*"$')
# attributes of functions that name a processor, or what its system alone has
PROCESSOR = re.compile(r' "(?:target-cpu|target-features|tune-cpu|probe-stack|stack-probe-size)"="[^"]*"')


def compiler():
    """The compiler of the toolchain."""
    return kit() / "toolchain" / "bin" / "clang"


def ran(words, **more):
    """Calls a command that has to succeed, and ends the script with status 1 if it does not."""
    done = call([*map(str, words)], limit=1800, text=True, **more)
    if done.returncode:
        sys.exit(f"{Path(sys.argv[0]).name}: {Path(str(words[0])).name} has the status {done.returncode}\n{done.stdout[-2000:]}{done.stderr[-2000:]}")
    return done.stdout


def as_text(module):
    """A module, which is in LLVM's binary format, as text."""
    return ran([compiler(), "-S", "-emit-llvm", "-O0", "-Xclang", "-disable-llvm-passes", "-x", "ir", module, "-o", "-"])


def keeping_toolchain(folder, kept):
    """A toolchain whose compiler copies the module that it is given. Returns its folder."""
    own, made = kit() / "toolchain", folder / "toolchain"
    shutil.copytree(own, made, symlinks=True, copy_function=lambda source, target: Path(target).symlink_to(source))
    wrapped = made / "bin" / "clang"
    wrapped.unlink()
    wrapped.write_text(
        '#!/bin/bash\nfor word in "$@"; do\n    case $word in\n'
        f'        *.bc) cp "$word" "{kept}" ;;\n    esac\ndone\nexec "{own}/bin/clang" "$@"\n'
    )
    wrapped.chmod(0o755)
    return made


def build_module(folder):
    """The module of the program, in a file. It is proved for it over the libraries of the gate, and has to be the program that the gate
    has built, linked for the system that the toolchain builds for."""
    checked, kept, code, again = (folder / name for name in ("checked", "kept.bc", "wc.o", "again"))
    ran([*over_the_gate("check", "wc"), "-o", checked], cwd=CRATES / "wc")
    words = over_the_gate("build", "wc")
    # what is checked has its statements with it
    del words[words.index("--logic-built") :]
    words += ["--crate-checked", checked, "--toolchain", keeping_toolchain(folder, kept), "--backend", "llvm", "-o", code]
    ran(words, cwd=CRATES / "wc")
    linker = [kit() / "bin" / "rattle-link", "--target", "x86_64-unknown-linux-gnu", "--toolchain", kit() / "toolchain", "-o", again, code]
    ran([*linker, kit() / "c" / "libos_c.a", kit() / "c" / "liblibc_c.a"], cwd=CRATES / "wc")
    if again.read_bytes() != PROGRAM.read_bytes():
        sys.exit(f"{Path(sys.argv[0]).name}: the module, linked for Linux, is not the program of the gate")
    return kept


def proved_module(folder):
    """The module of the program that the gate has built, in a file. It takes some five minutes and is kept in out/ for as long as that
    program is there: the name of the file has the sum of the program."""
    kept = TOP / "out" / f"wc-{hashlib.sha256(PROGRAM.read_bytes()).hexdigest()[:16]}.bc"
    if not kept.is_file():
        kept.parent.mkdir(exist_ok=True)
        shutil.copyfile(build_module(folder), kept)
    return kept


def retargeted(text, layout, triple):
    """A module for another system, which lays out memory like this."""
    named = {"datalayout": layout, "triple": triple}
    text, places = LAYOUT.subn(lambda found: f'target {found[1]} = "{named[found[1]]}"', text)
    if places != len(named):
        sys.exit(f"{Path(sys.argv[0]).name}: the module does not name one target")
    return PROCESSOR.sub("", text)


def renamed(text, names):
    """A module in which these functions have other names."""
    return re.sub(r"@(" + "|".join(names) + r")(?=\()", lambda found: f"@{names[found[1]]}", text)
