"""Checks lists and covers by the definitions, on scale 2. Reads three lines a sheet: its codes, the list, the flags.

Nothing here is shared with the programs that it checks: a phrase is taken apart into digits, its value is the least of its literals' grades,
a sheet's value the greatest of its phrases' values, and every vector of grades is looked at.
"""
import itertools
import sys

N = 6
VECTORS = list(itertools.product(range(3), repeat=N))


def digits(code):
    return [code // 4 ** (N - 1 - i) % 4 for i in range(N)]


LITERAL = [lambda g: 2, lambda g: 2 - g, lambda g: g, lambda g: min(g, 2 - g)]


def reached(variable, digit, level):
    """The vectors, as bits of a number, where the digit's literals are at least the level."""
    return sum(1 << k for k, v in enumerate(VECTORS) if LITERAL[digit](v[variable]) >= level)


REACHED = [[[reached(i, d, level) for d in range(4)] for i in range(N)] for level in (1, 2)]


def value(code):
    """Where the phrase is at least 1, and where at least 2."""
    out = []
    for table in REACHED:
        at = -1
        for i, d in enumerate(digits(code)):
            at &= table[i][d]
        out.append(at)
    return tuple(out)


VALUE = [value(c) for c in range(4 ** N)]


def sheet_value(codes):
    one = two = 0
    for c in codes:
        one |= VALUE[c][0]
        two |= VALUE[c][1]
    return one, two


def implicant(code, f):
    return VALUE[code][0] & ~f[0] == 0 and VALUE[code][1] & ~f[1] == 0


def literals(code):
    return sum((0, 1, 1, 2)[d] for d in digits(code))


def parts(code):
    """Every other phrase that the phrase subsumes."""
    choices = [[d for d in range(4) if d in (0, e) or e == 3] for e in digits(code)]
    for choice in itertools.product(*choices):
        part = 0
        for d in choice:
            part = 4 * part + d
        if part != code:
            yield part


def primes(sheet):
    f = sheet_value(sheet)
    is_implicant = [implicant(c, f) for c in range(4 ** N)]
    return [c for c in range(4 ** N) if is_implicant[c] and not any(is_implicant[q] for q in parts(c))]


def cover(codes):
    left = set(codes)
    for p in sorted(codes, key=lambda c: (literals(c), c), reverse=True):
        if implicant(p, sheet_value(left - {p})):
            left.discard(p)
    return [int(c in left) for c in codes]


def main():
    lines = [list(map(int, line.split())) for line in sys.stdin]
    bad = struck = 0
    for k in range(len(lines) // 3):
        sheet, codes, flags = lines[3 * k: 3 * k + 3]
        right = primes(sheet)
        if codes != right or flags != cover(right):
            bad += 1
            print("sheet %d: wrong %s" % (k, "list" if codes != right else "flags"))
        struck += flags.count(0)
    print("%d sheets, %d wrong; %d primes struck in all" % (len(lines) // 3, bad, struck))
    return bad != 0 or not lines


if __name__ == "__main__":
    sys.exit(main())
