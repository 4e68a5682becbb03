#!/usr/bin/env python3
"""Times whole commands on given scripts and prints a table: seconds (least and median of some runs)
and the peak of memory; beside `ring` the time that `check` takes for the certificate, as a part of that of
`ring`. Beside them Singular's finvar.lib on the same task, where it is installed and
has a procedure for the task alone, as a ratio in the same run. Outside the gate; run it on an idle
machine. The program is the one that the variable INVRING of the environment names, else the proved one that
stands in crates/invring/out.

    bench/commands.py [RUNS [COMMAND ..]]"""
import math
import os
import re
import resource
import shutil
import statistics
import subprocess
import sys
import tempfile
import threading
import time

TOP = os.path.dirname(os.path.dirname(os.path.abspath(__file__)))
PROGRAM = os.environ.get("INVRING") or os.path.join(TOP, "crates", "invring", "out", "invring")


def images(variables, signs=()):
    """The cells of the matrix that puts variable variables[i] for variable i, or -1 times it for each i in signs."""
    sign = lambda i: "-" if i in signs else ""
    return [sign(i) + "1" if j == to else "0" for i, to in enumerate(variables) for j in range(len(variables))]


def swaps(pairs):
    return images([i ^ 1 for i in range(2 * pairs)])


# Signs and permutations of two blocks of four: 2^8 times 32 elements.
BLOCKS = [images(range(8), [0]), images([1, 2, 3, 0, 4, 5, 6, 7]), images([4, 5, 6, 7, 0, 1, 2, 3])]
SHIFT = images([1, 2, 0])
# Transvections generate Sp4 over GF(2), here one of them and a product of five; SL2 over the field of 4 elements acts on its pairs.
SP4 = [list("1001010000100001"), list("0001001101001100")]
SL2 = [list("0010000110000100"), list("1010010100100001"), list("0100110000110010")]
MANUAL = [["0", "1", "0", "-1", "0", "0", "0", "0", "-1"]]
CASES = [
    ("swap of two over GF(2), degree 2", 2, [swaps(1)], ["basis", "2"]),
    ("shift of three over GF(3), degree 30", 3, [SHIFT], ["basis", "30"]),
    ("shift of three over GF(3), degree 61", 3, [SHIFT], ["basis", "61"]),
    ("four swaps over GF(2), degree 4", 2, [swaps(4)], ["basis", "4"]),
    ("order 8192 in size 8 over GF(3)", 3, BLOCKS, ["order"]),
    ("primaries of finvar's manual, GF(3)", 3, MANUAL, ["primary"]),
    ("primaries of two swaps over GF(2)", 2, [swaps(2)], ["primary"]),
    ("primaries of Sp4 over GF(2)", 2, SP4, ["primary"]),
    ("primaries of SL2(F4) over GF(2)", 2, SL2, ["primary"]),
    ("ring of the identity over GF(2)", 2, [images(range(2))], ["ring"]),
    ("ring of 2 over GF(11)", 11, [["2"]], ["ring"]),
    ("ring of finvar's manual, GF(3)", 3, MANUAL, ["ring"]),
    ("ring of minus one in four, GF(3)", 3, [images(range(4), range(4))], ["ring"]),
    ("ring of the swap over GF(32003)", 32003, [swaps(1)], ["ring"]),
    ("ring of two swaps over GF(3)", 3, [swaps(2)], ["ring"]),
    ("ring of three permuted over GF(5)", 5, [SHIFT, images([1, 0, 2])], ["ring"]),
    ("ring of the shift of four over GF(5)", 5, [images([1, 2, 3, 0])], ["ring"]),
    ("ring of the square's symmetries, GF(7)", 7, [images([1, 0], [1]), images([1, 0])], ["ring"]),
    ("ring of the shift of five over GF(7)", 7, [images([1, 2, 3, 4, 0])], ["ring"]),
]
# Groups whose order the characteristic divides, ten of them in at most four variables, and the options that their search
# needs; the scripts are in examples/.
MODULAR = {
    "cyclic_three": "",
    "cyclic_four": "",
    "two_swaps": "",
    "two_transvections": "",
    "jordan_four": "",
    "two_vectors": "--tries 65536",
    "alternating_four": "",
    "symmetric_four": "",
    "unipotent_two": "",
    "unipotent_three": "",
    "three_swaps": "",
    "two_jordan_three": "--tries 65536 --max-terms 4096",
}


def example(name):
    """The characteristic and the matrices of a script in examples/."""
    with open(os.path.join(TOP, "examples", f"{name}.sing")) as file:
        text = file.read()
    cells = re.findall(r"matrix \w+\[\d+\]\[\d+\]=([^;]*);", text)
    return int(re.search(r"ring \w+=(\d+),", text).group(1)), [c.split(",") for c in cells]


CASES += [(f"ring of examples/{name}", *example(name), ["ring", *more.split()]) for name, more in MODULAR.items()]


def names_of(matrices):
    """As many names as the matrices have rows."""
    return "abcdefgh"[:math.isqrt(len(matrices[0]))]


def declared(matrices):
    n = len(names_of(matrices))
    return " ".join(f"matrix M{i}[{n}][{n}]={','.join(cells)};" for i, cells in enumerate(matrices))


def script(p, matrices):
    return f"ring R={p},({','.join(names_of(matrices))}),dp; {declared(matrices)}"


def measured(words, text, longest, megabytes=None):
    """One run: exit status, seconds, peak of memory in MB, output, error stream. The status is negative where it was killed: it
    is where it takes longer, in seconds. It gets no more memory than that where a limit is given."""
    limit = (lambda: resource.setrlimit(resource.RLIMIT_AS, (megabytes << 20,) * 2)) if megabytes else None
    with tempfile.TemporaryFile() as given, tempfile.TemporaryFile() as out, tempfile.TemporaryFile() as errors:
        given.write(text if isinstance(text, bytes) else text.encode())
        given.seek(0)
        begun = time.perf_counter()
        child = subprocess.Popen(words, stdin=given, stdout=out, stderr=errors, preexec_fn=limit)
        stop = threading.Timer(longest, child.kill)
        stop.start()
        _, status, usage = os.wait4(child.pid, 0)
        stop.cancel()
        seconds = time.perf_counter() - begun
        out.seek(0)
        errors.seek(0)
        return os.waitstatus_to_exitcode(status), seconds, usage.ru_maxrss / 1024, out.read(), errors.read()


def run(words, text, longest=120):
    """One run: seconds, peak of memory in MB, the output. None where it failed or took longer, in seconds."""
    status, seconds, memory, output, _ = measured(words, text, longest)
    return (seconds, memory, output) if status == 0 else None


def checked(words, certificate, runs):
    """The least seconds that `check` takes for a certificate of `ring`; None where it does not accept it."""
    got = [run([PROGRAM, "check", *words[1:]], certificate) for _ in range(runs)]
    accepted = all(g and g[2] == b"accepted\n" for g in got)
    return min(g[0] for g in got) if accepted else None


def singular(p, matrices, words):
    """The same task for Singular, or None where it has no procedure for it."""
    gens = ",".join(f"M{i}" for i in range(len(matrices)))
    if words[0] == "basis":
        task = f"ideal B=invariant_basis({words[1]},{gens}); size(B);"
    elif words[0] == "primary":
        task = f"list L=primary_invariants({gens}); L[1];"
    elif words[0] == "ring":
        task = f"list L=invariant_ring({gens}); ncols(L[2]);"
    else:
        return None
    return f'LIB "finvar.lib"; {script(p, matrices)} {task} quit;'


def main():
    if not os.access(PROGRAM, os.X_OK):
        sys.exit("bench: the program is not built; start ./invring once")
    runs = int(sys.argv[1]) if len(sys.argv) > 1 else 5
    wanted = sys.argv[2:]
    other = shutil.which("Singular")
    print(f"{'task':<40} {'least s':>8} {'median s':>9} {'MB':>6} {'lines':>6} {'check/ring':>10} {'Singular/ours':>14}")
    ratios, checks = [], []
    for name, p, matrices, words in CASES:
        if wanted and words[0] not in wanted:
            continue
        text = script(p, matrices)
        got = [run([PROGRAM, *words], text) for _ in range(runs)]
        if None in got:
            print(f"{name:<40} failed")
            continue
        least = min(g[0] for g in got)
        check = ""
        if words[0] == "ring":
            seconds = checked(words, got[0][2], runs)
            check = "rejected" if seconds is None else f"{seconds / least:.2g}"
            checks += [seconds / least] if seconds else []
        task = singular(p, matrices, words)
        ratio = "no such task" if task is None else "not installed"
        if other and task:
            first = run([other, "-q"], task)
            theirs = [first] + [run([other, "-q"], task) for _ in range(runs - 1) if first]
            ratio = "failed or 120 s"
            if None not in theirs:
                ratios.append(min(t[0] for t in theirs) / least)
                ratio = f"{ratios[-1]:.2g}"
        median = statistics.median(g[0] for g in got)
        print(f"{name:<40} {least:8.3f} {median:9.3f} {max(g[1] for g in got):6.0f} {got[0][2].count(10):6d} {check:>10} {ratio:>14}")
    for what, found in [("check/ring", checks), ("Singular/ours", ratios)]:
        if found:
            print(f"geometric mean of {what}: {statistics.geometric_mean(found):.2g}")


if __name__ == "__main__":
    main()
