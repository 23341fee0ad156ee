"""The archive for Windows, which tools/release writes if out/narbeddo.exe is there: a ZIP file with the program, the pages, the examples and
the files for editors."""
import hashlib
import io
import time
import zipfile

from harness import PROGRAM, TOP, call, version
from signing import VERIFIED

MADE = TOP / "out" / "narbeddo.exe"
PAGE = TOP / "out" / "narbeddo.html"
INSTALL = r"""Narbeddo {version} for Windows on x86-64: a legal weighing indicator and, next to it, the customer's logic in Instruction List, as one
program. The processor has to be an x86-64-v2 (of 2009 or later).

Unpack the archive into a folder, open a command prompt there (cmd), and call the program:

    narbeddo check --path examples\first\program.il

prints

{first_check}
A job comes on standard input:

    narbeddo < examples\first\job.txt

PowerShell has no such sign, and writes what it puts into a file by > in another encoding: call narbeddo from cmd there, as in

    cmd /c "narbeddo show --plate plate.toml --log log.csv > picture.svg"

To call it in any folder, add this folder to the variable Path (Settings, Environment variables).

What is where:

narbeddo.exe          the program
{page}docs\TUTORIAL.md      the page to begin with; its examples are written for Linux, with / in paths, which Windows takes too
README.md             what it is, what is proved, all pages
examples              programs with plates, logs and reports
editors               colours and problems for VS Code and Vim
licenses              the licences of the libraries that are linked

If its maker has signed the archive, a file .sig is next to it, and is verified by
{verified}
The sum of a file: certutil -hashfile narbeddo.exe SHA256, to be compared with SHA256SUMS.

The program was proved as it is built for Linux. For Windows the target of its module was changed, and what it calls of the system is
windows/host.c of its sources: both are trusted, as the compiler is. All worked cases gave the same bytes with both programs.
"""


def archive_name():
    return f"narbeddo-{version()}-windows-x86_64"


def install_text():
    """The text of INSTALL.txt, with the line ends of Windows."""
    first = call([PROGRAM, "check", "--path", TOP / "examples" / "first" / "program.il"], text=True, check=True).stdout
    shown = "".join(f"    {line}\n" for line in first.splitlines())
    page = "narbeddo.html         the same in a browser: open it by a double click\n" if PAGE.is_file() else ""
    return INSTALL.format(version=version(), first_check=shown, page=page, verified=VERIFIED).replace("\n", "\r\n")


def files(pages, digests):
    """The files of the archive by their paths; pages are those of the archive for Linux, by theirs below its folder of pages."""
    found = {"narbeddo.exe": MADE.read_bytes(), "INSTALL.txt": install_text().encode(), "DIGESTS": digests.encode(), **pages}
    if PAGE.is_file():
        found["narbeddo.html"] = PAGE.read_bytes()
    sums = "".join(f"{hashlib.sha256(found[path]).hexdigest()}  {path}\n" for path in sorted(found))
    return found | {"SHA256SUMS": sums.encode()}


def archive(found, date):
    """The bytes of the archive: the same for the same files and date."""
    packed = io.BytesIO()
    with zipfile.ZipFile(packed, "w", zipfile.ZIP_DEFLATED, compresslevel=9) as whole:
        for path in sorted(found):
            entry = zipfile.ZipInfo(f"{archive_name()}/{path}", time.gmtime(date)[:6])
            entry.compress_type, entry.external_attr, entry.create_system = zipfile.ZIP_DEFLATED, 0o644 << 16, 3
            whole.writestr(entry, found[path])
    return packed.getvalue()
