#!/usr/bin/env python3
"""Times the built program on large inputs, beside sha256sum on the same file.

    make build                                    builds crates/outlook_cli/out/outlook_cli
    bench/bench.py                                all cases; one input at a time, of up to 180 MB, in a temporary folder
    bench/bench.py --scale 8 --runs 1 named       an eighth of each size, one run, the cases with 'named' in their names
    bench/bench.py --list                         the cases

A line of a case has the processor time of the program (user and system, the least of the runs), that time over the
one of sha256sum, the peak of memory in MiB, and the exit code. Pairs of cases of which one has half the size of the
other, and some that differ in order, are set against each other at the end. `sample` reads none of its input. A case whose
command or input the program does not know yet is marked so. Exit code 3 says that the result passes a limit of the target: so does to-tnef where
there are more than 32,000 names, after all of the input was read.
"""

import argparse
import os
import pathlib
import subprocess
import sys
import tempfile

import inputs

HERE = pathlib.Path(__file__).resolve().parent
PROGRAM = HERE.parent / "crates/outlook_cli/out/outlook_cli"
MIB = 1 << 20


def cases(scale):
    """Name, command and maker of the input of each case."""
    large, half, names, entries = 128 * MIB // scale, 500_000 // scale, 300_000 // scale, 200_000 // scale
    for order in ("rising", "random"):
        yield f"unnamed-{order}", "to-tnef", lambda order=order: inputs.tnef_unnamed(half, order)
    yield "few-each", "to-tnef", lambda: inputs.tnef_few_each(10_000 // scale)
    yield "store", "to-tnef", lambda: inputs.tnef_stored(inputs.store_stream(large // 2))
    yield "store-shuffled", "to-tnef", lambda: inputs.tnef_stored(inputs.store_stream(large // 2, True))
    for shape, row in (("row", True), ("tree", False)):
        yield f"store-{shape}-half", "to-tnef", lambda row=row: inputs.tnef_stored(inputs.store_entries(entries // 2, row))
        yield f"store-{shape}", "to-tnef", lambda row=row: inputs.tnef_stored(inputs.store_entries(entries, row))
    yield "attachment", "to-tnef", lambda: inputs.tnef_attachment(large)
    for order in ("rising", "falling", "random"):
        yield f"named-{order}-half", "to-tnef", lambda order=order: inputs.tnef_named(half // 2, order)
        yield f"named-{order}", "to-tnef", lambda order=order: inputs.tnef_named(half, order)
    yield "names-half", "to-tnef", lambda: inputs.tnef_recipients(names // 200, 100)
    yield "names", "to-tnef", lambda: inputs.tnef_recipients(names // 100, 100)
    yield "show-attachment", "show", lambda: inputs.tnef_attachment(large)
    yield "show-unnamed", "show", lambda: inputs.tnef_unnamed(half, "rising")
    yield "check-attachment", "check", lambda: inputs.tnef_attachment(large)
    yield "check-unnamed", "check", lambda: inputs.tnef_unnamed(half, "rising")
    yield "sample", f"sample {5000 // scale}", lambda: inputs.tnef_attachment(large)
    yield "to-msg-attachment", "to-msg", lambda: inputs.tnef_attachment(large)
    yield "wrap", "wrap", lambda: inputs.tnef_attachment(large)
    yield "unwrap", "unwrap", lambda: inputs.envelope(inputs.tnef_attachment(large))
    yield "stream-in-order", "to-tnef", lambda: inputs.msg_stream(large, False)
    yield "stream-shuffled", "to-tnef", lambda: inputs.msg_stream(large, True)
    yield "msg-texts-half", "to-tnef", lambda: inputs.msg_texts(15_000 // scale)
    yield "msg-texts", "to-tnef", lambda: inputs.msg_texts(30_000 // scale)
    yield "msg-recipients", "to-tnef", lambda: inputs.msg_recipients(5, 2048 // scale)
    for order in ("rising", "random"):
        yield f"msg-names-{order}", "to-tnef", lambda order=order: inputs.msg_names(32_000 // scale, order)
    yield "msg-names-ids", "to-tnef", lambda: inputs.msg_names(400 // scale, "random", 80)
    yield "to-msg4-attachment", "to-msg4", lambda: inputs.tnef_attachment(large)
    yield "to-msg-few-each", "to-msg", lambda: inputs.tnef_few_each(2000 // scale)
    yield "entries-row", "to-tnef", lambda: inputs.msg_entries(entries, True)
    yield "entries-row-half", "to-tnef", lambda: inputs.msg_entries(entries // 2, True)
    yield "entries-storage", "to-tnef", lambda: inputs.msg_entries(entries, False)
    yield "entries-storage-half", "to-tnef", lambda: inputs.msg_entries(entries // 2, False)


PAIRS = [
    ("named-rising", "named-rising-half"), ("named-falling", "named-falling-half"),
    ("named-random", "named-random-half"), ("named-falling", "named-rising"), ("named-random", "named-rising"),
    ("names", "names-half"), ("msg-texts", "msg-texts-half"), ("msg-names-random", "msg-names-rising"),
    ("stream-shuffled", "stream-in-order"), ("entries-row", "entries-row-half"),
    ("entries-storage", "entries-storage-half"), ("store-row", "store-row-half"), ("store-tree", "store-tree-half"),
]


def run(words, source):
    """Processor seconds, peak of memory in MiB, exit code and report of a run."""
    with open(source, "rb") as given, open(os.devnull, "wb") as thrown:
        child = subprocess.Popen(words, stdin=given, stdout=thrown, stderr=subprocess.PIPE)
        report = child.stderr.read()
        _, status, usage = os.wait4(child.pid, 0)
        child.returncode = os.waitstatus_to_exitcode(status)
        child.stderr.close()
    return usage.ru_utime + usage.ru_stime, usage.ru_maxrss / 1024, child.returncode, report


def make(name, scale, source):
    """Writes the input of a case, in a process of its own: a child's peak counts what its parent held at the fork."""
    words = [sys.executable, __file__, "--make", name, "--scale", str(scale), "--into", str(source)]
    subprocess.run(words, check=True)


def measured(words, source, runs):
    return min((run(words, source) for _ in range(runs)), key=lambda r: r[0])


def is_unknown(code, report):
    return code == 2 or report.startswith((b"usage", b"refused 2 "))


def compared(chosen, command, source, seconds, above):
    """The time over that of another build, and the memory above the input over its."""
    if not chosen.against:
        return ""
    size = source.stat().st_size / MIB
    before, peak, code, report = measured([chosen.against, *command.split()], source, chosen.runs)
    if is_unknown(code, report) or not before:
        return "  not known to the other"
    return f"  {seconds / before:5.2f} of the time, {above / max(peak - size, 1):5.2f} of the memory above the input"


def main():
    parser = argparse.ArgumentParser(description=__doc__.splitlines()[0])
    parser.add_argument("words", nargs="*", help="only the cases with one of these in their names")
    parser.add_argument("--program", default=PROGRAM)
    parser.add_argument("--against", help="another build, timed in the same run")
    parser.add_argument("--runs", type=int, default=3)
    parser.add_argument("--scale", type=int, default=1, help="divides the sizes")
    parser.add_argument("--list", action="store_true")
    parser.add_argument("--make", help="only writes the input of this case")
    parser.add_argument("--into", type=pathlib.Path, help="where to")
    chosen = parser.parse_args()
    if chosen.make:
        made = {name: maker for name, _, maker in cases(chosen.scale)}
        chosen.into.write_bytes(made[chosen.make]())
        return
    wanted = [c for c in cases(chosen.scale) if not chosen.words or any(w in c[0] for w in chosen.words)]
    if chosen.list:
        for name, command, _ in wanted:
            print(f"{name:22} {command}")
        return
    times = {}
    print(f"{'case':22} {'command':11} {'MiB in':>7} {'seconds':>8} {'sha256':>7} {'ratio':>6} {'peak':>6} code")
    with tempfile.TemporaryDirectory() as folder:
        source = pathlib.Path(folder) / "input"
        for name, command, _ in wanted:
            make(name, chosen.scale, source)
            size = source.stat().st_size / MIB
            code, report = run([chosen.program, *command.split()], source)[2:]
            if is_unknown(code, report):
                print(f"{name:22} {command:11} {size:7.1f} not known yet: {report.decode(errors='replace').strip()[:40]}")
                continue
            seconds, peak, code, _ = measured([chosen.program, *command.split()], source, chosen.runs)
            other = measured(["sha256sum"], source, chosen.runs)[0]
            times[name] = seconds
            ratio = seconds / other if other else 0
            line = f"{name:22} {command:11} {size:7.1f} {seconds:8.3f} {other:7.3f} {ratio:6.2f} {peak:6.0f} {code}"
            print(line + compared(chosen, command, source, seconds, peak - size), flush=True)
    for one, other in PAIRS:
        if times.get(one) and times.get(other):
            print(f"{one} / {other}: {times[one] / times[other]:.2f}")


if __name__ == "__main__":
    main()
