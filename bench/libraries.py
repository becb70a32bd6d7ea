#!/usr/bin/env python3
"""Times single crates by small programs over them, beside sha256sum on the same file.

    bench/libraries.py [COMMIT] [--folder FOLDER]

builds small programs over the crates in a copy of this repository, and in one of an earlier commit where that is named,
and times them side by side. What is built stays in the folder, where one is named. Large compound files of both versions
are opened, a stream is put into a mail, and a mail is read. Each build has a line with its processor time (user and
system, the least of three runs), the ratio of that to sha256sum's, what this commit takes over what that build takes, and
its exit code. Half as many entries are to take half the time; a last line for each shape has that ratio, and the memory
for each entry more.
"""

import os
import pathlib
import shutil
import subprocess
import sys
import tempfile

HERE = pathlib.Path(__file__).resolve().parent
sys.path.insert(0, str(HERE))

import inputs

MIB = 1 << 20

SOURCE = """//! Reads all of standard input, and does one thing with it.
#![tactic(auto)]

use carrier_io::{StdSource, read_all};
USES
use std::process::ExitCode;

fn main(rt: HostRuntime) -> ExitCode {
    let mut input = StdSource::new(rt.stdin());
    let bytes = match read_all(rt.alloc(), &mut input, 268_435_456) {
        Ok(bytes) => bytes,
        Err(_) => return ExitCode::from(4),
    };
BODY
}
"""

OPENING = ("cfb_sectors cfb_directory", """use carrier_io::Walk;
use cfb_directory::open_files;""", """    let mut walk = Walk::new();
    match open_files(rt.alloc(), &bytes, &mut walk) {
        Ok(_) => ExitCode::from(0),
        Err(_) => ExitCode::from(1),
    }""")

WRAPPING = ("mime_envelope", """use carrier_io::{StdSink, write_gathered};
use mime_envelope::Wrapped;""", """    let mut output = StdSink::new(rt.stdout());
    match write_gathered(&Wrapped { bytes: &bytes }, &mut output) {
        Ok(()) => ExitCode::from(0),
        Err(_) => ExitCode::from(5),
    }""")

UNWRAPPING = ("mime_envelope", """use mime_envelope::payload;""", """    match payload(rt.alloc(), &bytes) {
        Ok(_) => ExitCode::from(0),
        Err(_) => ExitCode::from(1),
    }""")

PROGRAMS = {"opening": OPENING, "wrapping": WRAPPING, "unwrapping": UNWRAPPING}

ENTRIES = 200_000

SHAPES = [("left", "left"), ("right", "right"), ("storage", False)]

SECTORS = [("version 3", 512), ("version 4", 4096)]


def cases():
    """The program, the name and the maker of each input."""
    for version, size in SECTORS:
        for name, shuffled in (("in order", False), ("shuffled", True)):
            yield "opening", f"{version} stream {name}", lambda: inputs.msg_stream(128 * MIB, shuffled, size)
        for name, row in SHAPES:
            for part, count in (("half", ENTRIES // 2), ("whole", ENTRIES)):
                yield "opening", f"{version} {name} {part}", lambda: inputs.msg_entries(count, row, size)
    yield "wrapping", "wrap", lambda: inputs.tnef_attachment(128 * MIB)
    yield "unwrapping", "unwrap", lambda: inputs.envelope(inputs.tnef_attachment(128 * MIB))


def copied(folder, commit):
    """The crates of this repository, or of an earlier commit, with a crate for each program."""
    top = HERE.parent
    folder.mkdir(parents=True, exist_ok=True)
    if commit:
        files = subprocess.run(
            ["git", "archive", commit, "crates", "crates.txt", "HANDLES"], cwd=top, capture_output=True, check=True)
        subprocess.run(["tar", "-x", "-C", str(folder)], input=files.stdout, check=True)
    else:
        shutil.copytree(top / "crates", folder / "crates", ignore=shutil.ignore_patterns("out"), dirs_exist_ok=True)
        for name in ("crates.txt", "HANDLES"):
            shutil.copy(top / name, folder / name)
    with open(folder / "crates.txt", "a", encoding="utf-8") as crates:
        for name, (libraries, uses, body) in PROGRAMS.items():
            crates.write(f"{name}: carrier_model carrier_io {libraries}\n")
            source = folder / "crates" / name / "src"
            source.mkdir(parents=True, exist_ok=True)
            text = SOURCE.replace("USES", uses).replace("BODY", body)
            (source / "main.rt").write_text(text, encoding="utf-8")


def built(folder, commit):
    """The programs of a copy."""
    if not (folder / "crates.txt").exists():
        copied(folder, commit)
    quiet = subprocess.DEVNULL
    programs = {}
    for name in PROGRAMS:
        crate = folder / "crates" / name
        if not (crate / "out" / name).exists():
            subprocess.run(["rt", "run"], cwd=crate, stdin=quiet, stdout=quiet, stderr=quiet, check=False)
        programs[name] = str(crate / "out" / name)
    return programs


def measured(words, source):
    """The least processor time of three runs in seconds, the most memory in bytes, and the exit code."""
    times = []
    for _ in range(3):
        with open(source, "rb") as given:
            child = subprocess.Popen(words, stdin=given, stdout=subprocess.DEVNULL, stderr=subprocess.DEVNULL)
            _, status, usage = os.wait4(child.pid, 0)
        child.returncode = os.waitstatus_to_exitcode(status)
        times.append(usage.ru_utime + usage.ru_stime)
    return min(times), 1024 * usage.ru_maxrss, child.returncode


def compared(case, half, whole):
    """The line of a shape: the whole's time as a multiple of the half's, and the bytes of memory for each entry more,
    beside those of the file itself."""
    ratio = whole[0] / half[0]
    entry = (whole[1] - half[1] - (whole[3] - half[3])) / (ENTRIES - ENTRIES // 2)
    print(f"{case:28} {ratio:5.2f} times the half  {entry:5.0f} bytes an entry", flush=True)


def main():
    words = sys.argv[1:]
    named = words.index("--folder") if "--folder" in words else len(words)
    commit = words[0] if named > 0 else None
    with tempfile.TemporaryDirectory() as name:
        folder = pathlib.Path(words[named + 1] if named < len(words) else name).resolve()
        trees = [("now", built(folder / "now", None))]
        if commit:
            trees.append((commit, built(folder / commit, commit)))
        source, halves = pathlib.Path(name) / "input", {}
        for program, case, maker in cases():
            source.write_bytes(maker())
            summed = measured(["sha256sum"], source)[0]
            first = None
            for label, programs in trees:
                took, memory, code = measured([programs[program]], source)
                first = first or took
                result = (took, memory, code, source.stat().st_size)
                print(f"{case:28} {label:8} {took:7.3f} s  {took / summed:5.2f} of sha256sum"
                      f"  {first / took:5.2f} of its time  exit {code}", flush=True)
                if case.endswith(" half"):
                    halves[case[:-5], label] = result
                elif case.endswith(" whole") and code == 0:
                    compared(f"{case[:-6]} {label}", halves[case[:-6], label], result)


if __name__ == "__main__":
    main()
