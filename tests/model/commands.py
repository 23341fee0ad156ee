"""The commands `check`, `run`, `line` and a job: standard output and exit status (docs/LOG.md, 3 to 5)."""
import functools

from .machine import Program, preview
from .plate import MOST_BYTES, read_plate
from .refusal import Refused
from .runs import run


@functools.lru_cache(maxsize=4)
def read_program(content):
    """A program of the bytes of a file."""
    if len(content) > MOST_BYTES:
        raise Refused(702, 0)
    return Program(content)


def answered(function, *inputs, **options):
    """The output and the status of a command, also of one that is refused."""
    try:
        return function(*inputs, **options)
    except Refused as fault:
        return fault.line(), 1


def unit_lines(program, path):
    """The lines of `check` for the units."""
    found = []
    for table in program.tables:
        found.append(f"unit {table.name} cost {program.bounds[table]}")
        if path:
            found.append(" ".join(["path", *map(str, program.paths[table])]))
    return found


def check(content, path=False, following=None):
    """`wc check`, with --path, with --next."""
    program = read_program(content)
    if following is None:
        lines = unit_lines(program, path)
    else:
        new = read_program(following)
        lines = unit_lines(new, path) + preview(new, program)
    return "".join(line + "\n" for line in lines), 0


def run_files(plate, program, log, following=None, last=None, watch=(), changes=False):
    """`wc run`."""
    plate, program = read_plate(plate), read_program(program)
    new = None if following is None else read_program(following)
    return run(plate, log, program, new, last, watch, changes)


def line_files(plate, log):
    """`wc line`."""
    return run(read_plate(plate), log)


def headings(job):
    """Where each line of a job that is a heading begins and ends, by what it says."""
    found, at = [], 0
    while at < len(job):
        end = job.find(b"\n", at) + 1
        if end == 0:
            break
        word = job[at:end].removesuffix(b"\n").removesuffix(b"\r")
        if word in (b"@plate", b"@program", b"@next", b"@log"):
            found.append((word.decode()[1:], at, end))
        at = end
    return found


def sections(job):
    """The sections of a job by their names, or 701 or 702."""
    if len(job) > MOST_BYTES:
        raise Refused(702, 0)
    found, taken, wanted = headings(job), [], ("plate",)
    after = {"plate": ("program",), "program": ("next", "log"), "next": ("log",), "log": ()}
    for heading in found:
        if heading[0] in wanted and (taken or heading[1] == 0):
            taken.append(heading)
            wanted = after[heading[0]]
    if wanted:
        raise Refused(701, 0)
    ends = [begins for _, begins, _ in taken[1:]] + [len(job)]
    return {name: job[start:end] for (name, _, start), end in zip(taken, ends)}


def job(content):
    """`wc` with no word."""
    found = sections(content)
    return run_files(found["plate"], found["program"], found["log"], found.get("next"))
