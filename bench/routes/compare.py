#!/usr/bin/env python3
"""Runs two programs in turn on each input of the current directory, and prints their times side by side. The file NAME.words contains the
words after `solve`, which lets the solution be written to NAME.out.

usage: compare.py ROUNDS BASELINE [TOURKIT]

The baseline runs twice: without options, and with --whole.
"""
import glob
import os
import sys


def run(program, name, *flags):
    """The processor time of a run in milliseconds, and what it wrote: to standard output, and into its file."""
    with open(f"{name}.words", encoding="utf-8") as text:
        words = [program, "solve", *text.read().split(), *flags]
    with open("stdout", "wb") as out:
        child = os.posix_spawn(program, words, os.environ, file_actions=[(os.POSIX_SPAWN_DUP2, out.fileno(), 1)])
        _, status, usage = os.wait4(child, 0)
    if status != 0:
        sys.exit(f"{' '.join(words)}: status {os.waitstatus_to_exitcode(status)}")
    written = []
    for file in ["stdout", f"{name}.out"]:
        with open(file, "rb") as text:
            written.append(text.read())
        os.remove(file)
    return 1_000 * (usage.ru_utime + usage.ru_stime), written


def main():
    rounds, baseline = int(sys.argv[1]), sys.argv[2]
    runs = {"baseline": [baseline], "whole": [baseline, "--whole"]}
    if len(sys.argv) > 3:
        runs["tourkit"] = [sys.argv[3]]
    print(f"{'input':<18}{'tourkit ms':>12}{'baseline ms':>12}{'ratio':>7}{'whole ms':>10}{'ratio':>7}{'bytes':>8}{'routes':>8}")
    inputs = [file.removesuffix(".words") for file in glob.glob("*.words")]
    for name in sorted(inputs, key=lambda name: ("between" in name, len(name.split("-")[0]), len(name), name)):
        least, texts = {}, []
        for _ in range(rounds):
            for variant, (program, *flags) in runs.items():
                time, written = run(program, name, *flags)
                least[variant] = min(time, least.get(variant, time))
                texts.append(written)
        same = "same" if all(written == texts[0] for written in texts) else "differ"
        tourkit = least.get("tourkit")
        ratios = [f"{tourkit / least[variant]:.2f}" if tourkit else "-" for variant in ["baseline", "whole"]]
        print(
            f"{name:<18}{f'{tourkit:.2f}' if tourkit else '-':>12}{least['baseline']:>12.2f}{ratios[0]:>7}"
            f"{least['whole']:>10.2f}{ratios[1]:>7}{same:>8}{texts[0][1].count(b'Route'):>8}"
        )


main()
