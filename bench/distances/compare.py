"""Prints the shortest times of two programs side by side, and ends with status 1 if sums of distances differ."""

import sys


def rows(path):
    found = {}
    with open(path, encoding="ascii") as file:
        for line in file:
            name, span, total, time = line.split()
            key = (name, int(span))
            best = min(int(time), found[key][1]) if key in found else int(time)
            found[key] = (int(total), best)
    return found


def main():
    rattle, rust = rows(sys.argv[1]), rows(sys.argv[2])
    print(f"{'distance':<18}{'span':>12}{'Rattle ns':>12}{'Rust ns':>10}{'ratio':>8}")
    same = True
    for key, (total, time) in sorted(rust.items()):
        name, span = key
        if key not in rattle:
            print(f"{name:<18}{span:>12}{'':>12}{time / 1000:>10.2f}")
            continue
        mine, mine_time = rattle[key]
        print(f"{name:<18}{span:>12}{mine_time / 1000:>12.2f}{time / 1000:>10.2f}{mine_time / time:>8.2f}")
        if mine != total:
            print(f"the sums differ: {mine} and {total}")
            same = False
    return 0 if same else 1


sys.exit(main())
