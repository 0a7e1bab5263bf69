#!/usr/bin/env python3
"""Times `propagate` by itself, beside a plain loop in C and beside MiniSat's, on one formula with the same decisions.

    bench/compare/kernel/run.py [--repeat N] [--folder FOLDER] [--from CHECKOUT] [VARIABLES,CLAUSES,ROUNDS ..]

The programs are built in the folder, of gmus the last commit; they run in turn, and the quickest run of each counts. A
visit is a clause that the loop in C comes to. `propagate` comes to the same ones in the same order where as many values
come out, which the table tells. MiniSat, whose lists are in another order, is left out where its library isn't there.
The last column counts calls of a run that were interrupted, whose time is left out: on an idle machine it is near 0.
"""
import argparse
import os
import shutil
import statistics
import subprocess
import sys
import tempfile

HERE = os.path.dirname(os.path.abspath(__file__))
FORMULAS = ["5000,36000,400", "100000,700000,10"]   # one that the processor's caches hold, and one that they don't


def build_loops(folder):
    """The loop in C in three forms (see linked.c), and once more to count visits; MiniSat's."""
    formula = os.path.join(HERE, "formula.c")
    found = ["c", "c-malloc", "c-relinked"]
    for name, flags in zip(found + ["count"], [[], ["-DMALLOC"], ["-DRELINK"], ["-DCOUNT"]]):
        made = os.path.join(folder, name)
        subprocess.run(["clang", "-O2", *flags, "-o", made, os.path.join(HERE, "linked.c"), formula], check=True)
    compiled = [os.path.join(folder, name) for name in ("minisat", "formula.o", "minisat.o")]
    subprocess.run(["clang", "-O2", "-c", "-o", compiled[1], formula], check=True)
    made = subprocess.run(["g++", "-O2", "-c", "-o", compiled[2], os.path.join(HERE, "minisat.cc")], stderr=subprocess.PIPE)
    if made.returncode == 0:
        made = subprocess.run(["g++", "-o", *compiled, "-lminisat"], stderr=subprocess.PIPE)
    if made.returncode == 0:
        found.append("minisat")
    else:
        print("MiniSat's propagate is left out, since its library isn't there", file=sys.stderr)
    return found


def build_ours(folder, checkout):
    """The program over `propagate`, in a copy of the last commit."""
    copy = os.path.join(folder, "checkout")
    subprocess.run(["git", "clone", "-q", checkout, copy], check=True)
    crate = os.path.join(copy, "crates", "kernel")
    for file, place in {"kernel.rt.txt": "src/main.rt", "formula.rt.txt": "src/formula.rt", "formula.c": "c/formula.c",
                        "formula.h": "c/formula.h", "promised.c": "c/promised.c"}.items():
        os.makedirs(os.path.dirname(os.path.join(crate, place)), exist_ok=True)
        shutil.copy(os.path.join(HERE, file), os.path.join(crate, place))
    with open(os.path.join(copy, "crates.txt"), "a") as crates:
        crates.write("kernel: sat_base clause_store trail_book propagate\n")
    log = os.path.join(folder, "build.log")
    print(f"building propagate, which takes some minutes; its log is {log}", file=sys.stderr)
    with open(log, "w") as out:
        subprocess.run(["rt", "run"], cwd=crate, env={**os.environ, "RT_ALLOW_C": "kernel", "KERNEL": "8,1,1"},
                       stdin=subprocess.DEVNULL, stdout=out, stderr=out)
    program = os.path.join(crate, "out", "kernel")
    if not os.path.exists(program):
        with open(log) as lines:
            sys.exit("".join(["propagate can't be built:\n", *lines.readlines()[-20:]]))
    shutil.copy(program, os.path.join(folder, "gmus"))
    return "gmus"


def run(folder, name, formula):
    """What a program reports, by words, and its standard error."""
    ran = subprocess.run([os.path.join(folder, name)], env={**os.environ, "KERNEL": formula}, text=True, check=True,
                         stdout=subprocess.PIPE, stderr=subprocess.PIPE)
    words = (ran.stdout + " " + ran.stderr).split()
    return {word: float(number) for word, number in zip(words[::2], words[1::2])}


def put_row(*cells):
    print("| " + " | ".join(cells) + " |", flush=True)


def measure(folder, names, formula, repeat):
    """Puts a row for each program."""
    visits = run(folder, "count", formula)["visits"]
    results = {name: [] for name in names}
    for _ in range(repeat):
        for name in names:
            results[name].append(run(folder, name, formula))
    plain = min(result["seconds"] for result in results["c"])
    for name, found in results.items():
        one, seconds = found[0], [result["seconds"] for result in found]
        put_row(formula, name, *[f"{one[word]:.0f}" for word in ("values", "decisions", "conflicts")],
                f"{min(seconds):.3f}", f"{statistics.median(seconds):.3f}",
                f"{visits / min(seconds) / 1e6:.1f}", f"{min(seconds) / plain:.2f}",
                f"{max(result['interrupted'] for result in found):.0f}")
        if any(one[word] != results["c"][0][word] for word in ("decisions", "conflicts")):
            print(f"!!! {name} decides otherwise than the loop in C", file=sys.stderr)


def main():
    words = argparse.ArgumentParser(description=__doc__, formatter_class=argparse.RawDescriptionHelpFormatter)
    words.add_argument("formulas", nargs="*", metavar="VARIABLES,CLAUSES,ROUNDS", help=f"({' '.join(FORMULAS)})")
    words.add_argument("--repeat", type=int, default=11, metavar="N", help="runs of each program (11)")
    words.add_argument("--folder", help="where the programs are to stay, a new one")
    words.add_argument("--from", dest="checkout", default=os.path.dirname(os.path.dirname(os.path.dirname(HERE))), metavar="CHECKOUT",
                       help="whose last commit is measured, this one without it")
    words.add_argument("--c-alone", action="store_true", help="leave propagate out")
    given = words.parse_args()
    folder = given.folder or tempfile.mkdtemp(prefix="gmus-kernel-")
    os.makedirs(folder, exist_ok=True)
    try:
        names = build_loops(folder)
        if not given.c_alone:
            names.append(build_ours(folder, given.checkout))
        put_row("formula", "program", "values", "decisions", "conflicts", "s", "median s", "million visits/s", "to C",
                "left out")
        put_row(*["---"] * 10)
        for formula in given.formulas or FORMULAS:
            measure(folder, names, formula, given.repeat)
    finally:
        if not given.folder:
            shutil.rmtree(folder)


main()
