#!/usr/bin/env python3
"""Refuses what the program asks of the system, one thing at a time, and looks at every answer.

    make build            builds crates/outlook_cli/out/outlook_cli
    bench/refused.py      all commands on a small and on a middling input; ten minutes
    bench/refused.py show edit

`refused.c`, put before the program by LD_PRELOAD, counts what the program asks for and refuses the k-th: a request for
memory, a read, a write to standard output or one to standard error. For each command and input each is refused in turn, of
more than 200 the first 200 and then about a hundred more, evenly spaced; so it is with reads and writes that give and take
1 and 4,097 bytes at a time, too. Every answer has to be one of these:

- the one with ample memory and whole devices, output, report and exit code;
- for a refused request code 6, nothing on standard output, and the line `no memory` or, before there is a report, none;
- for a failing read code 4, nothing on standard output, and the line `read fault`;
- for a failing write code 5, a front of the output, and the line `write fault`;
- where the report can't be written, the exit code and the output as before, and a front of the report.

One line a command and input; the exit code is 1 where an answer is none of these.
"""

import argparse
import functools
import os
import pathlib
import struct
import subprocess
import sys
import tempfile
import typing

import inputs
import runs
import shapes

PIECES = (1, 2, 3, 7, 4095, 4096, 4097)
KINDS = ("MEMORY_AT", "READ_AT", "WRITE_AT", "REPORT_AT")


class Answer(typing.NamedTuple):
    code: int
    output: bytes
    report: bytes


class Shim:
    """Runs the program with something refused."""

    def __init__(self, program, folder):
        self.program, self.folder = program, pathlib.Path(folder)
        self.library = runs.compiled("refused.c", folder, "-shared", "-fPIC")
        self.counts = self.folder / "counts"

    def run(self, words, data, **settings):
        """The answer of a run, and how many requests, reads, writes and reports it made."""
        environment = {name: str(value) for name, value in settings.items()}
        environment |= {"LD_PRELOAD": str(self.library), "COUNTS": str(self.counts), "PATH": os.environ["PATH"]}
        with open(data, "rb") as given:
            ended = subprocess.run([self.program, *words], stdin=given, capture_output=True, env=environment)
        return Answer(ended.returncode, ended.stdout, ended.stderr), struct.unpack("<4q", self.counts.read_bytes())


def is_fitting(kind, ample, found):
    """Whether an answer may stand where one thing of a kind was refused."""
    if found == ample:
        return True
    if kind == "MEMORY_AT":
        return found.code == 6 and not found.output and found.report in (b"no memory\n", b"")
    if kind == "READ_AT":
        return found == Answer(4, b"", b"read fault\n")
    if kind == "WRITE_AT":
        return found.code == 5 and ample.output.startswith(found.output) and found.report == b"write fault\n"
    return found[:2] == ample[:2] and ample.report.startswith(found.report)


def chosen_places(count, first=200, more=100):
    """The first places up to a count, and some more, evenly spaced."""
    rest = range(first + 1, count + 1, max(1, (count - first) // more))
    return [*range(1, min(first, count) + 1), *rest]


class Case(typing.NamedTuple):
    name: str
    words: list
    data: pathlib.Path


def refused_in_turn(shim, case, kind, count, ample, **settings):
    """How many runs there were, and those with another answer."""
    wrong, places = [], chosen_places(count)
    for place in places:
        found, _ = shim.run(case.words, case.data, **{kind: place}, **settings)
        if not is_fitting(kind, ample, found):
            wrong.append((f"{kind}={place} {settings or ''}".strip(), found))
    return len(places), wrong


def whole_in_pieces(shim, case, ample):
    wrong = []
    for piece in PIECES:
        found, _ = shim.run(case.words, case.data, PIECE=piece)
        if found != ample:
            wrong.append((f"PIECE={piece}", found))
    return len(PIECES), wrong


def tried(shim, case):
    """The counts of a case, how many runs it took, and those with another answer."""
    ample, counts = shim.run(case.words, case.data)
    plain = subprocess.run([shim.program, *case.words], stdin=open(case.data, "rb"), capture_output=True)
    total, wrong = whole_in_pieces(shim, case, ample)
    if ample != (plain.returncode, plain.stdout, plain.stderr):
        wrong.append(("nothing refused", ample))
    for kind, count in zip(KINDS, counts):
        made, found = refused_in_turn(shim, case, kind, count, ample)
        total, wrong = total + made, wrong + found
    for piece in (1, 4097):
        _, pieces = shim.run(case.words, case.data, PIECE=piece)
        for kind, count in list(zip(KINDS, pieces))[1:]:
            made, found = refused_in_turn(shim, case, kind, count, ample, PIECE=piece)
            total, wrong = total + made, wrong + found
    return ample, counts, total, wrong


def middling():
    """A stream with named properties, recipients, attachments, messages, a store and things that are passed over."""
    properties = [inputs.named(number, number) for number in shapes.ordered(300, "random")]
    properties += shapes.number_properties(range(200))
    properties += [inputs.text(0x1000, b"a text of some words " * 20), inputs.binary(0x1013, inputs.noise(9000))]
    properties += [shapes.long_name(number) for number in range(5)]
    properties += [struct.pack("<HHI", 0x101F, 0x1014, 40) + bytes(160), struct.pack("<HHII", 0x0D, 0x1234, 1, 0)]
    person = inputs.listed([inputs.text(0x3001, b"A. Recipient"), inputs.named(7, 1), inputs.integer(0x0C15, 1)])
    children = [inputs.Entry(f"part {k}", inputs.noise(200 * k)) for k in range(30)]
    root = inputs.Entry("Root Entry", children=[inputs.Entry("folder", children=children), inputs.Entry("few", b"few")])
    message = shapes.nested_messages(3, 500)
    return inputs.tnef(
        inputs.attribute(1, 0x00018004, b"an older subject\0"), inputs.attribute(1, 0x00011234, b"passed over"),
        inputs.attribute(1, 0x00069004, struct.pack("<I", 60) + person * 60),
        inputs.attribute(1, 0x00069003, inputs.listed(properties)),
        shapes.held(inputs.STORAGE + inputs.compound(root)), shapes.held(shapes.MESSAGE + message))


def written(shim, folder, name, words, data):
    """A file of what the program answers."""
    target = pathlib.Path(folder) / name
    with open(data, "rb") as given:
        target.write_bytes(subprocess.run([shim.program, *words], stdin=given, capture_output=True).stdout)
    return target


EDITS = ["edit", "set", ".", "0037", "String", "a changed subject", "set", ".", "0017", "Integer32", "1",
         "add-recipient", ".", "set", "./r0", "3001", "String", "B. Recipient", "remove", ".", "0017", "Integer32"]


def cases(shim, folder):
    """Each command on the small and on the middling input, in each carrier that it takes."""
    middle = pathlib.Path(folder) / "middling"
    middle.write_bytes(middling())
    for size, stream in (("small", runs.SAMPLE), ("middling", middle)):
        make = functools.partial(written, shim, folder)
        message = make(f"{size}.msg", ["to-msg"], stream)
        carriers = {"tnef": stream, "msg": message}
        for command in (["show"], ["check"], ["to-msg"], ["to-msg4"], ["to-tnef"], ["to-unicode"], ["to-json"], EDITS):
            for carrier, data in carriers.items():
                yield Case(f"{command[0]}, {size} {carrier}", command, data)
        yield Case(f"wrap, {size} tnef", ["wrap"], stream)
        yield Case(f"unwrap, {size} mail", ["unwrap"], make(f"{size}.eml", ["wrap"], stream))
        yield Case(f"from-json, {size} json", ["from-json"], make(f"{size}.json", ["to-json"], stream))
        cut = pathlib.Path(folder) / f"{size} cut"
        cut.write_bytes(stream.read_bytes()[:-1])
        yield Case(f"to-msg, {size} tnef cut short", ["to-msg"], cut)
    yield Case("sample 0", ["sample", "0"], runs.SAMPLE)
    yield Case("sample 40", ["sample", "40"], runs.SAMPLE)


def main():
    parser = argparse.ArgumentParser(description=__doc__.splitlines()[0])
    parser.add_argument("words", nargs="*", help="only the cases with one of these in their names")
    runs.add_program(parser)
    chosen = parser.parse_args()
    bad = 0
    print("| Case | code | requests | reads | writes | runs | other answers |\n|---|---|---|---|---|---|---|")
    with tempfile.TemporaryDirectory() as folder:
        shim = Shim(chosen.program, folder)
        for case in cases(shim, folder):
            if chosen.words and not any(word in case.name for word in chosen.words):
                continue
            if not runs.knows(chosen.program, case.words):
                continue
            ample, counts, total, wrong = tried(shim, case)
            print(f"| {case.name} | {ample.code} | {counts[0]} | {counts[1]} | {counts[2]} | {total} | {len(wrong)} |", flush=True)
            for setting, found in wrong[:5]:
                print(f"  {setting}: code {found.code}, {len(found.output)} bytes, report {found.report[:60]!r}")
            bad += len(wrong)
    print(f"\n{bad} other answers")
    return 1 if bad else 0


if __name__ == "__main__":
    sys.exit(main())
