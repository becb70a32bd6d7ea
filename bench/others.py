#!/usr/bin/env python3
"""Runs the program on messages that others made, and other people's programs on what comes out.

    make build                        builds crates/outlook_cli/out/outlook_cli
    bench/others.py FOLDER...         all .msg files, TNEF streams and mails with one below the folders

Each line has what was looked at, how often it was so, and how often it was looked at; then come the files of which a
line isn't so, with the program's report. Of the programs `7z`, `gsf`, `tnef`, `ytnef`, `ytnefprint` and `msgconvert`
those are run that are there, and the library olefile, where the Python that runs this has it.
"""

import argparse
import collections
import email
import io
import json
import os
import pathlib
import re
import shutil
import subprocess
import tempfile

import runs

try:
    import olefile
except ImportError:
    olefile = None

FILE, STREAM = b"\xd0\xcf\x11\xe0", b"\x78\x9f\x3e\x22"
VALUE = "__substg1.0_"
ACCEPTED = "files that are accepted"
ROUND = (["to-msg4", "to-msg"], ["to-tnef", "to-msg"], ["to-tnef", "wrap", "unwrap", "to-msg"],
         ["to-json", "from-json"])


class Looks:
    """How often something was so, of how often it was looked at."""

    def __init__(self, program):
        self.program, self.counts, self.reports, self.failed = program, {}, {}, []

    def run(self, word, given):
        return subprocess.run([self.program, word], input=given, capture_output=True)

    def through(self, words, given):
        """What comes out of commands one behind the other; None where one does not end with success."""
        for word in words:
            ended = self.run(word, given)
            if ended.returncode:
                return None
            given = ended.stdout
        return given

    def note(self, what, path, so, of=1):
        """Of so many looks at a file this is how many were so; one look is so or not."""
        before, all_before = self.counts.get(what, (0, 0))
        self.counts[what] = before + so, all_before + of
        if so != of:
            self.failed.append((what, path))


def attached(text):
    """The bytes of the attachments that a message's JSON text has, but for empty ones."""
    values = [p["value"] for a in json.loads(text)["attachments"] for p in a["properties"]
              if p["key"] == "3701" and p["kind"] == "Binary"]
    return collections.Counter(bytes.fromhex(value) for value in values if value)


def saved(words, name, given):
    """The contents of the files that a program makes in an empty folder out of one."""
    with tempfile.TemporaryDirectory() as folder:
        source = pathlib.Path(folder, name)
        source.write_bytes(given)
        target = pathlib.Path(folder, "made")
        target.mkdir()
        subprocess.run([*words, source], cwd=target, capture_output=True)
        return collections.Counter(it.read_bytes() for it in target.rglob("*") if it.is_file())


def values(given):
    """The streams of values of a .msg file by their places, those of named properties left out."""
    with olefile.OleFileIO(io.BytesIO(given), raise_defects=olefile.DEFECT_INCORRECT) as file:
        places = [it for it in file.listdir() if it[-1].startswith(VALUE) and not it[0].startswith("__nameid")]
        return {tuple(it): file.openstream(it).read() for it in places if int(it[-1][12:16], 16) < 0x8000}


def mail_of(given):
    """The mail that msgconvert makes of a .msg file, its boundaries left out."""
    made = saved(["msgconvert", "--outfile", "mail"], "a.msg", given)
    return [re.sub(rb"\d{9,}\.[0-9A-Za-z]+\.\d+", b"", it) for it in made]


def properties_told(stream):
    """How many properties of a message ytnefprint tells of; None where it gives up before."""
    with tempfile.NamedTemporaryFile() as source:
        source.write(stream)
        source.flush()
        told = subprocess.run(["ytnefprint", source.name], capture_output=True).stdout
    found = re.search(rb"MAPI Properties: (\d+)", told)
    return int(found[1]) if found else None


def look_at_file(looks, path, given, message):
    """What other programs make of the .msg files of a message."""
    newer = looks.through(["to-msg4"], given)
    for tool, word in (("7z", "l"), ("gsf", "list")):
        for made, version in ((message, 3), (newer, 4)) if shutil.which(tool) else ():
            with tempfile.NamedTemporaryFile(suffix=".msg") as target:
                target.write(made)
                target.flush()
                ended = subprocess.run([tool, word, target.name], capture_output=True)
            looks.note(f"{tool} lists the file of version {version}", path, ended.returncode == 0)
    if olefile:
        ours = values(message)
        looks.note("olefile opens the files of both versions and finds nothing wrong", path, ours == values(newer))
        if given[:4] == FILE:
            theirs = values(given)
            same = sum(ours.get(it) == theirs[it] for it in theirs)
            what = "streams of values of .msg files that olefile finds again, byte for byte"
            looks.note(what, path, same, len(theirs))
    if given[:4] == FILE and shutil.which("msgconvert"):
        is_one = mail_of(given) == mail_of(message)
        looks.note("msgconvert makes one mail of a .msg file and of its canonical one", path, is_one)


def look_at_stream(looks, path, given, stream):
    """What other programs make of the canonical stream of a message, and of the stream that it came in."""
    text = looks.through(["to-json"], given)
    parts = attached(text)
    for tool, words in (("tnef", ["tnef", "--number-backups", "-f"]), ("ytnef", ["ytnef", "-f", "."])):
        for made, what in ((stream, "the canonical stream"), (given, "the stream as it came")):
            if made[:4] == STREAM and shutil.which(tool):
                found = (saved(words, "winmail.dat", made) & parts).total()
                looks.note(f"attachments that {tool} saves from {what}", path, found, parts.total())
    if shutil.which("ytnefprint"):
        is_whole = properties_told(stream) == len(json.loads(text)["properties"])
        looks.note("ytnefprint tells of all properties of the message, in the canonical stream", path, is_whole)


def look(looks, path, given):
    """All that is looked at, of one message."""
    ended = looks.run("to-msg", given)
    looks.note(ACCEPTED, path, ended.returncode == 0)
    if ended.returncode:
        looks.reports[path] = ended.stderr.decode().strip()
        return
    message = ended.stdout
    for words in (["to-msg"], *ROUND):
        start = message if words == ["to-msg"] else given
        looks.note(f"{', '.join(words)}: the file that to-msg makes", path, looks.through(words, start) == message)
    ended = looks.run("to-unicode", given)
    looks.reports[path] = ended.stderr.decode().strip()
    looks.note("to-unicode ends with success", path, ended.returncode == 0)
    look_at_file(looks, path, given, message)
    look_at_stream(looks, path, given, looks.through(["to-tnef"], given))


def carried(given):
    """The first stream that a mail carries, as Python's own library finds it."""
    for part in email.message_from_bytes(given).walk():
        if part.get_content_type() == "application/ms-tnef":
            return part.get_payload(decode=True)
    return None


def main():
    parser = argparse.ArgumentParser(description=__doc__.splitlines()[0])
    parser.add_argument("folders", nargs="+", type=pathlib.Path)
    runs.add_program(parser)
    chosen = parser.parse_args()
    looks = Looks(chosen.program)
    for path in sorted(it for folder in chosen.folders for it in folder.rglob("*") if it.is_file()):
        given = path.read_bytes()
        if given[:4] in (FILE, STREAM):
            look(looks, path, given)
        elif stream := carried(given):
            look(looks, path, stream)
            if (ACCEPTED, path) not in looks.failed:
                is_same = looks.through(["unwrap"], given) == stream
                looks.note("unwrap gives the stream that Python's library finds in a mail", path, is_same)
    print("| What | so | of |\n|---|---|---|")
    for what, (so, count) in looks.counts.items():
        print(f"| {what} | {so} | {count} |")
    for what, path in looks.failed:
        print(f"not so, {path.name}: {what}", looks.reports.get(path, ""))


if __name__ == "__main__":
    main()
