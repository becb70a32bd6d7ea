#!/usr/bin/env python3
"""Measures each command on the worst shapes of each carrier, at a size and at its double, beside sha256sum.

    make build                            builds crates/outlook_cli/out/outlook_cli
    bench/hostile.py                      all shapes; half an hour
    bench/hostile.py tnef names           the shapes with one of these words in their names
    bench/hostile.py --rows               a table of all rows, in place of one row a shape, the worst of its commands
    bench/hostile.py --count              counts instructions too where the time more than doubled; needs valgrind
    bench/hostile.py --list               the shapes

The bounds: twice the size takes at most 2.3 times the time; the time is at most 20 times that of sha256sum on the same
file; the memory above that of a run on the 63-byte sample is at most 12 times an input of tiny parts, and 2.2 times any
other. A ratio above its bound is printed bold, and so is an end that is not the expected one; the exit code is then 1.
Instructions at twice the size are told over those at the size; memory that is far away makes times grow by more.
Times are processor times, the least of some runs. A row that takes less than 20 ms is mostly the start of a process:
its times are in brackets and tell nothing. Memory of edits is told over their input and their words as the system hands
them over: each word with the zero behind it and the eight bytes of its place.
"""

import argparse
import pathlib
import sys
import tempfile
import typing

import runs
import shapes

LINEAR, DIGEST, TINY, OTHER = 2.3, 20, 12, 2.2
SHORT = 0.02
# What the system keeps of a word beside its bytes: a zero behind it, and its place.
WORD_MORE = 1 + 8


class Row(typing.NamedTuple):
    """What one command took on one shape."""

    shape: str
    command: str
    size: int
    seconds: float
    growth: float
    digest: float
    memory: float
    memory_bound: float
    code: int
    wrong: str
    # Instructions at the double over those at the size, where they were counted.
    work: float | None = None

    def is_short(self):
        return self.seconds < SHORT

    def marks(self):
        """Which ratios are above their bounds."""
        timed = not self.is_short()
        return (timed and self.growth > LINEAR, timed and self.digest > DIGEST, self.memory > self.memory_bound)


class Bench:
    """The program, and what a run of it takes at least."""

    def __init__(self, chosen, folder):
        self.program, self.runs, self.kept, self.counts = chosen.program, chosen.runs, chosen.keep, chosen.count
        self.folder = pathlib.Path(folder)
        self.measure = runs.Measure(folder)
        self.least_memory = {}

    def inputs(self, shape):
        """Files of a shape at its count and at its double, made where they are not kept."""
        folder = pathlib.Path(self.kept) if self.kept else self.folder
        found = []
        for part, count in (("half", shape.count), ("whole", 2 * shape.count)):
            name = f"{shape.name.replace(' ', '-')}-{part}" if self.kept else part
            found.append(folder / name.replace("/", "-"))
            if not (self.kept and found[-1].exists()):
                found[-1].write_bytes(shape.maker(count))
        return found

    def base(self, command):
        """The memory of a command on the sample."""
        name = command[0]
        if name not in self.least_memory:
            words = shapes.CHANGE if name == "edit" else command
            self.least_memory[name] = self.measure.run([self.program, *words], runs.SAMPLE).peak
        return self.least_memory[name]

    def pair(self, command, sources, again=1):
        """The least runs of a command on an input and on its double."""
        return [self.measure.least([self.program, *words], source, self.runs * again)
                for words, source in zip(command, sources)]

    def row(self, name, command, sources, digested, expected, bound, size=None):
        """A row; one that is above a bound of time is measured again with more runs."""
        size = size or digested.stat().st_size
        for again in (1, 3):
            half, whole = self.pair(command, sources, again)
            digest = self.measure.least(["sha256sum"], digested, self.runs * again).seconds
            memory = (whole.peak - self.base(command[1])) / size
            row = Row(name, command[1][0], size, whole.seconds, whole.seconds / max(half.seconds, 1e-4),
                      whole.seconds / max(digest, 1e-4), memory, bound, whole.code, wrong_end((half, whole), *expected))
            if not any(row.marks()[:2]):
                break
        if self.counts and row.marks()[0]:
            half, whole = [runs.instructions([self.program, *words], source, self.folder)
                           for words, source in zip(command, sources)]
            row = row._replace(work=whole / half)
        return row


def wrong_end(found, code, line):
    """What is said of runs that do not end as expected, or nothing."""
    for run in found:
        if run.code != code or not run.report.startswith(line if code else ""):
            return f"{run.code} {run.report}".strip() + f", expected {code} {line if code else ''}".rstrip()
    return ""


def shape_rows(bench, shape):
    """The rows of a shape, one for each command that the program knows."""
    sources = bench.inputs(shape)
    for command in shape.commands:
        if runs.knows(bench.program, command):
            code = shape.ends.get(command[0], 0)
            bound = TINY if shape.tiny else OTHER
            yield bench.row(shape.name, [command, command], sources, sources[1], (code, shape.line), bound)


def edit_rows(bench, shape):
    """The row of edits. The words count as bytes of the input, which the system hands over as texts and places."""
    sources, words = bench.inputs(shape), [shape.words(count) for count in (shape.count, 2 * shape.count)]
    digested = bench.folder / "digested"
    digested.write_bytes(sources[1].read_bytes() + b"\0".join(word.encode() for word in words[1]))
    handed = sources[1].stat().st_size + sum(len(word.encode()) + WORD_MORE for word in words[1])
    yield bench.row(shape.name, words, sources, digested, (shape.code, shape.line), TINY, handed)


def sample_row(bench):
    """Twice the number of a sample takes twice the time; it has no input."""
    words = [["sample", "2500"], ["sample", "5000"]]
    half, whole = bench.pair(words, [runs.SAMPLE] * 2)
    return Row("sample 2500 and 5000", "sample", 0, whole.seconds, whole.seconds / half.seconds, 0, 0, TINY, whole.code,
               wrong_end((half, whole), 0, ""))


def short_rows(bench):
    """Short files that say they are long: time and memory over those of the sample."""
    source = bench.folder / "short"
    for name, command, data, line in shapes.short_files():
        source.write_bytes(data)
        least = bench.measure.least([bench.program, *command], runs.SAMPLE, bench.runs)
        found = bench.measure.least([bench.program, *command], source, bench.runs)
        more, kept = found.seconds - least.seconds, found.peak - least.peak
        bad = more > 0.005 or kept > runs.MIB or bool(wrong_end([found], 1 if line else 0, line))
        print(f"| {name} | {len(data)} | {1000 * more:.1f} | {kept // 1024} | {found.report or found.code} |"
              + (" above" if bad else ""), flush=True)
        yield bad


def bold(text, marked):
    return f"**{text}**" if marked else text


def line_of(row):
    growth, digest, memory = row.marks()
    times = [bold(f"{row.growth:.2f}", growth) + in_instructions(row), bold(f"{row.digest:.1f}", digest)]
    if row.is_short():
        times = [f"({time})" for time in times]
    kept = bold(f"{row.memory:.2f}", memory)
    end = f"**{row.wrong}**" if row.wrong else str(row.code)
    return (f"| {row.shape} | {row.command} | {row.size / runs.MIB:.1f} | {1000 * row.seconds:.0f} | {times[0]} |"
            f" {times[1]} | {kept} | {end} |")


def in_instructions(row):
    return f" ({row.work:.2f} in instructions)" if row.work is not None else ""


def worst(rows, key):
    """The row of the greatest ratio; times of short rows count only where there are no others."""
    return max(rows, key=lambda row: (not row.is_short() or key == "memory", getattr(row, key)))


def summary(rows):
    """One line a shape: the greatest ratio of each sort, with its command."""
    cells = []
    for place, key in enumerate(("growth", "digest", "memory")):
        row = worst(rows, key)
        text = f"{getattr(row, key):.2f}" if key != "digest" else f"{row.digest:.1f}"
        text = f"({text})" if row.is_short() and key != "memory" else text
        counted = in_instructions(row) if key == "growth" else ""
        cells.append(bold(text, row.marks()[place]) + f" {row.command}{counted}")
    ends = " ".join(sorted({str(row.code) for row in rows}))
    wrong = "".join(f" **{row.command}: {row.wrong}**" for row in rows if row.wrong)
    return f"| {rows[0].shape} | {rows[0].size / runs.MIB:.1f} | {' | '.join(cells)} | {ends}{wrong} |"


def is_bad(row):
    return any(row.marks()) or bool(row.wrong)


def wanted(name, words):
    return not words or any(word in name for word in words)


def scaled(found, chosen):
    """The wanted shapes, with their counts divided."""
    for shape in found:
        if wanted(shape.name, chosen.words):
            yield shape._replace(count=max(2, shape.count // chosen.scale))


def measured_rows(bench, chosen):
    """The rows of each wanted shape."""
    for shape in scaled(shapes.shapes(), chosen):
        yield list(shape_rows(bench, shape))
    if runs.knows(bench.program, shapes.CHANGE):
        for shape in scaled(shapes.edit_shapes(), chosen):
            yield list(edit_rows(bench, shape))
    if wanted("sample", chosen.words):
        yield [sample_row(bench)]


def arguments():
    parser = argparse.ArgumentParser(description=__doc__.splitlines()[0])
    parser.add_argument("words", nargs="*", help="only the shapes with one of these in their names")
    parser.add_argument("--runs", type=int, default=2)
    parser.add_argument("--scale", type=int, default=1, help="divides the sizes; ends at limits are then not the expected")
    parser.add_argument("--rows", action="store_true", help="print every row, not the worst of a shape alone")
    parser.add_argument("--count", action="store_true", help="count instructions where the time more than doubled")
    parser.add_argument("--list", action="store_true")
    parser.add_argument("--keep", help="a folder in which the inputs stay, 2 GB, and are found the next time")
    runs.add_program(parser)
    return parser.parse_args()


def main():
    chosen = arguments()
    if chosen.list:
        for shape in [*shapes.shapes(), *shapes.edit_shapes()]:
            print(shape.name)
        return 0
    runs.more_words()
    bad = []
    heads = ("| Shape | Command | MiB | ms | doubled | sha256sum | memory | end |\n|---|---|---|---|---|---|---|---|"
             if chosen.rows else "| Shape | MiB | doubled | sha256sum | memory | ends |\n|---|---|---|---|---|---|")
    print(heads)
    with tempfile.TemporaryDirectory() as folder:
        bench = Bench(chosen, folder)
        for rows in measured_rows(bench, chosen):
            lines = [line_of(row) for row in rows] if chosen.rows else [summary(rows)] if rows else []
            print("\n".join(lines), end="\n" if lines else "", flush=True)
            bad += [row for row in rows if is_bad(row)]
        if wanted("short 2^31", chosen.words):
            print("\n| Short file | bytes | ms more | kB more | end |\n|---|---|---|---|---|")
            bad += [name for name in short_rows(bench) if name]
    print(f"\n{len(bad)} rows above a bound or with another end")
    for row in bad:
        if isinstance(row, Row) and not chosen.rows:
            print(line_of(row))
    return 1 if bad else 0


if __name__ == "__main__":
    sys.exit(main())
