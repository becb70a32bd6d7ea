"""Runs of the program for the scripts beside this one: where it is, what it takes, how it ends."""

import os
import pathlib
import re
import resource
import subprocess
import typing

HERE = pathlib.Path(__file__).resolve().parent
PROGRAM = HERE.parent / "crates/outlook_cli/out/outlook_cli"
SAMPLE = HERE.parent / "crates/outlook_cli/stdin"
MIB = 1 << 20


class Run(typing.NamedTuple):
    seconds: float
    peak: int
    code: int
    report: str


def compiled(source, folder, *options):
    """A C file of this folder, compiled into a folder."""
    target = pathlib.Path(folder) / pathlib.Path(source).stem
    subprocess.run(["cc", "-O2", "-Wall", *options, "-o", str(target), str(HERE / source), "-ldl"], check=True)
    return target


def more_words():
    """Lets a command have as many words as the system allows: 6 MiB, its places included."""
    _, most = resource.getrlimit(resource.RLIMIT_STACK)
    resource.setrlimit(resource.RLIMIT_STACK, (64 * MIB if most == resource.RLIM_INFINITY else most, most))


class Measure:
    """Measures commands by a small program of its own."""

    def __init__(self, folder, limit=60):
        self.tool = compiled("measure.c", folder)
        self.result = pathlib.Path(folder) / "result"
        self.limit = limit

    def run(self, words, source):
        """Processor seconds, peak of memory in bytes, exit code and report of a run."""
        tool = [self.tool, self.result, str(self.limit)]
        with open(source, "rb") as given:
            ended = subprocess.run([*tool, *words], stdin=given, stdout=subprocess.DEVNULL,
                                   stderr=subprocess.PIPE, check=True)
        time, peak, code = map(int, self.result.read_text().split())
        return Run(time / 1e6, peak * 1024, code, ended.stderr.decode(errors="replace").strip())

    def least(self, words, source, runs):
        """The run of the least time; one that is stopped is not run again."""
        found = self.run(words, source)
        for _ in range(runs - 1):
            if found.code >= 0:
                found = min(found, self.run(words, source))
        return found


def instructions(words, source, folder):
    """How many instructions a command takes outside the system, counted by valgrind."""
    told = pathlib.Path(folder) / "counted"
    tool = ["valgrind", "--tool=callgrind", "--callgrind-out-file=/dev/null", f"--log-file={told}"]
    with open(source, "rb") as given:
        subprocess.run([*tool, *words], stdin=given, stdout=subprocess.DEVNULL, stderr=subprocess.DEVNULL)
    return int(re.search(r"Collected : (\d+)", told.read_text()).group(1))


def knows(program, words):
    """Whether the words are a command of the program."""
    with open(SAMPLE, "rb") as given:
        return subprocess.run([program, *words], stdin=given, capture_output=True).returncode != 2


def add_program(parser):
    parser.add_argument("--program", default=PROGRAM, type=os.path.abspath, help="the built program")
