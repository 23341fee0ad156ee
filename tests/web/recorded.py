"""Calls of the built program that the repository's checks make, recorded: the words, the files that they name, standard input, and what was
answered. A call that needs a device, a folder, a shell or an argument that is no text is left out and counted."""
import os
import subprocess
from pathlib import Path
from typing import NamedTuple

import harness


class Recorded(NamedTuple):
    """A call, and what the built program answered."""
    place: str
    name: str
    words: list[str]
    files: dict[str, bytes]
    input: bytes
    status: int
    output: bytes
    errors: bytes


class Recorder:
    """Takes the place of `call` in a check: calls as it does, and keeps what may be called elsewhere."""

    def __init__(self, program):
        self.program, self.found, self.left_out, self.place = os.fsencode(program), [], 0, ""

    def call(self, words, limit=harness.LIMIT, **more):
        words = [os.fsencode(word) for word in words]
        stream = more.get("stdin")
        if hasattr(stream, "buffer"):
            more = {key: value for key, value in more.items() if key != "stdin"} | {"input": stream.read()}
        if words[0] == b"bash" and self.place.endswith("check_words"):
            self.left_out += 1
            return subprocess.CompletedProcess(words, 0, b"", b"")
        done = harness.call(words, limit, **more)
        if words[0] == self.program:
            self.keep(words[1:], more, done)
        return done

    def keep(self, words, more, done):
        files = files_of(words, Path(more.get("cwd", ".")))
        if files is None or more.get("stdin", subprocess.DEVNULL) != subprocess.DEVNULL:
            self.left_out += 1
            return
        given = more.get("input") or b""
        self.found.append(Recorded(self.place, os.fsdecode(self.program), [word.decode() for word in words], files, as_bytes(given), done.returncode, as_bytes(done.stdout), as_bytes(done.stderr)))


def as_bytes(text):
    return text.encode() if isinstance(text, str) else text


def files_of(words, folder):
    """The files that words name, by these names; None if one names a folder or a device, or a word is no UTF-8."""
    found = {}
    for word in words:
        try:
            text = word.decode()
            path = folder / text.rpartition("=")[2]
            if path.exists() and text and (not path.is_file() or text.endswith("/")):
                return None
            if text and path.is_file():
                found[text.rpartition("=")[2]] = path.read_bytes()
        except (UnicodeDecodeError, ValueError, OSError):
            return None
    return found


def recorded(program, checks):
    """Runs checks, names of scripts, with the program, and gives their calls: (calls, number of those left out)."""
    recorder, harness.PROGRAM = Recorder(program), program
    for check in checks:
        recorder.place = check
        module = harness.script(check)
        module.call = recorder.call
        module.need = lambda *_: None
        module.conclude = lambda *_, **__: 0
        # a job over both stores is a call of another program
        module.stores_fault = lambda *_: None
        module.main()
    return recorder.found, recorder.left_out
