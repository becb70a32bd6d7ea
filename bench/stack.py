#!/usr/bin/env python3
"""Runs each command on its deepest input with 256 kB of stack, and compares the end with that of the usual stack.

    make build            builds crates/outlook_cli/out/outlook_cli
    bench/stack.py        all cases, in a minute

Where the words are few this is what `ulimit -s 256` does. Words lie on the stack themselves, and the system allows no
more of them than a quarter of its limit; so where they are many, the program is started with the usual stack, and
`refused.c` lets it grow by 256 kB below the words, as it begins. The system takes no word of more than 131,071 bytes
and 6 MiB of words, so a word of 1,048,576 bytes can't be given here, and no more edits than some 95,000 with a value.
`--stack` is another number of kB; `--least` looks for the least that is enough.
"""

import argparse
import os
import pathlib
import resource
import subprocess
import sys
import tempfile
import typing

import inputs
import runs
import shapes


class Case(typing.NamedTuple):
    name: str
    words: list
    data: bytes


def reading_cases():
    """Commands over a .msg file or a TNEF stream, at the greatest depths and one further."""
    for levels in (32, 33):
        for name, data in (
            (f"{levels} messages, tnef", shapes.nested_messages(levels, 100)),
            (f"{levels} messages, msg", shapes.msg_levels(levels, 100)),
            (f"{levels} storages, tnef", shapes.store_levels(levels, 5000)),
        ):
            for words in (*shapes.READERS, *([["wrap"]] if "tnef" in name else [])):
                yield Case(name, words, data)
    for name, data in (
        ("100 storages, msg", shapes.storages_below(100, 200)), ("101 storages, msg", shapes.storages_below(101, 200)),
        ("20,000 left links", inputs.msg_entries(20_000, "left")), ("20,000 right links", inputs.msg_entries(20_000, "right")),
        ("links in zigzag", shapes.zigzag(20_000)), ("a long chain", inputs.msg_stream(4 << 20, True)),
        ("20,000 properties", shapes.numbers_list("random", 20_000)), ("20,000 names", shapes.name_list("random", 20_000)),
    ):
        yield from (Case(name, words, data) for words in shapes.READERS)


def other_cases():
    for levels in (16, 17):
        yield Case(f"{levels} multiparts", ["unwrap"], shapes.multiparts(levels, True, 100_000))
    yield Case("16 multiparts, not closed", ["unwrap"], shapes.multiparts(16, False, 100_000))
    for levels in (126, 127, 128, 100_000):
        yield Case(f"{levels} lists in JSON", ["from-json"], b"[" * levels + b"]" * levels)
        yield Case(f"{levels} objects in JSON", ["from-json"], b'{"a":' * levels + b"0" + b"}" * levels)
    for levels in (32, 33):
        yield Case(f"{levels} messages, JSON", ["from-json"], shapes.json_levels(levels, 100))
        yield Case(f"{levels} storages, JSON", ["from-json"], shapes.json_paths(levels, 10))
    yield Case("5,000", ["sample", "5000"], b"")
    yield Case("4,982, of 32 levels", ["sample", "4982"], b"")


def edit_cases():
    small, deep = inputs.tnef_integers(1), shapes.nested_messages(32, 100)
    for order in shapes.ORDERS:
        yield Case(f"90,000 set edits, {order}", shapes.set_words(order, 90_000), small)
    yield Case("100,000 recipients", shapes.joined([["add-recipient", "."]] * 100_000), small)
    yield Case("100,000 drops", shapes.joined([["drop-recipient", ".", "0"]] * 100_000), shapes.recipients(100_000))
    yield Case("20,000 edits 32 messages deep", shapes.deep_words(20_000), deep)
    yield Case("a word of 131,071 bytes", ["edit", "set", ".", "0037", "String", "x" * 131_071], small)
    yield Case("a Binary of 131,070 digits", ["edit", "set", ".", "1013", "Binary", "ab" * 65_535], small)
    yield Case("40 words of 131,071 bytes", shapes.joined(
        ["set", ".", f"{k + 1:04X}", "String", "x" * 131_071] for k in range(40)), small)
    yield Case("a place of 131,000 bytes", ["edit", "add-recipient", "." + "/m0" * 43_000], small)
    yield Case("90,000 words that are none", ["edit"] + ["none"] * 90_000, small)


def ends(program, words, data, before=None, environment=None):
    """Code, output and report of a run."""
    with open(data, "rb") as given:
        ended = subprocess.run([program, *words], stdin=given, capture_output=True, preexec_fn=before, env=environment)
    return ended.returncode, ended.stdout, ended.stderr


def limited(kilobytes):
    _, most = resource.getrlimit(resource.RLIMIT_STACK)
    return lambda: resource.setrlimit(resource.RLIMIT_STACK, (1024 * kilobytes, most))


def with_stack(chosen, library, case, data, kilobytes):
    """The end with so little stack."""
    if sum(len(word) + 9 for word in case.words) < 1000:
        return ends(chosen.program, case.words, data, limited(kilobytes))
    environment = {**os.environ, "LD_PRELOAD": str(library), "STACK": str(1024 * kilobytes)}
    return ends(chosen.program, case.words, data, None, environment)


def least_stack(chosen, library, case, data, usual):
    """The least number of kB, in steps of 4, with which a case ends as usual."""
    low, high = 0, chosen.stack
    while high - low > 4:
        middle = (low + high) // 8 * 4
        if with_stack(chosen, library, case, data, middle) == usual:
            high = middle
        else:
            low = middle
    return high


def arguments():
    parser = argparse.ArgumentParser(description=__doc__.splitlines()[0])
    parser.add_argument("--stack", type=int, default=256, help="kB of stack")
    parser.add_argument("--least", action="store_true", help="look for the least stack that is enough")
    runs.add_program(parser)
    return parser.parse_args()


def main():
    chosen = arguments()
    runs.more_words()
    bad = 0
    print("| Input | Command | code | with little stack |\n|---|---|---|---|")
    with tempfile.TemporaryDirectory() as folder:
        library = runs.compiled("refused.c", folder, "-shared", "-fPIC")
        data = pathlib.Path(folder) / "input"
        for case in [*reading_cases(), *other_cases(), *edit_cases()]:
            if not runs.knows(chosen.program, shapes.CHANGE if case.words[0] == "edit" else case.words):
                continue
            data.write_bytes(case.data)
            usual = ends(chosen.program, case.words, data)
            found = with_stack(chosen, library, case, data, chosen.stack)
            told = "the same" if found == usual else f"**{found[0]}, {len(found[1])} bytes, {found[2][:40]!r}**"
            if chosen.least and found == usual:
                told += f", {least_stack(chosen, library, case, data, usual)} kB are enough"
            print(f"| {case.name} | {case.words[0]} | {usual[0]} | {told} |", flush=True)
            bad += found != usual
    print(f"\n{bad} ends differ")
    return 1 if bad else 0


if __name__ == "__main__":
    sys.exit(main())
