#!/usr/bin/env python3
"""peers.py SHEET..: the finished tables of the same sheets by Singular and Macaulay2, timed inside those programs.

A finished table is the reduced Groebner basis, cut at the bound, of the ideal of the swaps as binomials. The peers
get the cost order as: weights by size, then by cost made positive (a multiple of the size is added, which changes
nothing at equal grade), then lexicographic. The degree bound is the sheet's. A peer that is not installed is left
out; the Debian packages are singular-ui and macaulay2."""
import re
import shutil
import subprocess
import sys
import tempfile
from pathlib import Path

RUNS, SECONDS, FIELD = 20, 300, 32003


def read(path):
    """The records of a valid sheet: kinds, bound, sizes, costs, swaps."""
    records = [line.split("\t") for line in Path(path).read_text().splitlines()]
    numbers = [(key, list(map(int, words))) for key, *words in records]
    (kinds, bound), sizes, costs = (record for _, record in numbers[:3])
    swaps = [(record[:kinds], record[kinds:]) for key, record in numbers if key == "swap"]
    return {"kinds": kinds, "bound": bound, "sizes": sizes, "costs": costs, "swaps": swaps}


def grade(sheet, load):
    return sum(count * size for count, size in zip(load, sheet["sizes"]))


def positive_costs(sheet):
    """Costs with the least multiple of the sizes added that makes them positive."""
    pairs = list(zip(sheet["costs"], sheet["sizes"]))
    factor = max([0] + [(size - cost) // size for cost, size in pairs])
    return [cost + factor * size for cost, size in pairs]


def binomials(sheet, name):
    """The swaps within the bound, as differences of monomials in the variables name(1), name(2), .."""
    used = [swap for swap in sheet["swaps"] if grade(sheet, swap[0]) <= sheet["bound"]]
    return ",".join(f"{monomial(left, name)}-{monomial(right, name)}" for left, right in used)


def monomial(load, name):
    return "*".join(f"{name(kind)}^{count}" for kind, count in enumerate(load, 1) if count)


def listed(numbers):
    return ",".join(map(str, numbers))


def singular(sheet):
    """(rows, milliseconds) by Singular's std, the least of some runs in one process."""
    swaps = binomials(sheet, lambda kind: f"x{kind}")
    variables = listed(f"x{kind}" for kind in range(1, sheet["kinds"] + 1))
    sizes = listed(sheet["sizes"])
    script = f"""
        ring r={FIELD},({variables}),(a({sizes}),a({listed(positive_costs(sheet))}),lp);
        option(redSB); option(redTail); degBound={sheet["bound"]};
        ideal I={swaps or "0"}; ideal G; int t; int i; int k; intvec w={sizes};
        system("--ticks-per-sec",1000000);
        for(i=1;i<={RUNS};i++) {{ t=rtimer; G=std(I); t=rtimer-t; printf("TIME %s",t); }}
        for(i=1;i<=size(G);i++) {{ if(deg(G[i],w)<={sheet["bound"]}) {{ k=k+1; }} }}
        printf("ROWS %s",k); quit;"""
    return answers(["Singular", "-q", "--no-rc"], script, 0.001)


def macaulay2(sheet):
    """(rows, milliseconds) by Macaulay2's gb, the least of some runs in one process."""
    swaps = binomials(sheet, lambda kind: f"x_{kind}")
    variables = listed(f"x_{kind}" for kind in range(1, sheet["kinds"] + 1))
    sizes = listed(sheet["sizes"])
    order = f"{{Weights=>{{{sizes}}},Weights=>{{{listed(positive_costs(sheet))}}},Lex}}"
    script = f"""
        R=ZZ/{FIELD}[{variables},Degrees=>{{{sizes}}},MonomialOrder=>{order}];
        once=i->(I=ideal({swaps or "0_R"});T=elapsedTiming(G=gb(I,DegreeLimit=>{sheet["bound"]}));T#0);
        scan({RUNS},i->print("TIME "|toString(once i)));
        print("ROWS "|toString(#select(first entries gens G,f->first degree f<={sheet["bound"]})));
        exit 0\n"""
    with tempfile.NamedTemporaryFile("w", suffix=".m2") as file:
        file.write(script)
        file.flush()
        return answers(["M2", "--script", file.name], "", 1000)


def answers(command, script, scale):
    """The rows and the least time that a peer printed; None where it printed none."""
    try:
        done = subprocess.run(command, input=script.encode(), capture_output=True, timeout=SECONDS)
    except subprocess.TimeoutExpired:
        return None
    out = done.stdout.decode()
    rows, times = re.search(r"ROWS (\d+)", out), re.findall(r"TIME ([\d.e-]+)", out)
    return (int(rows.group(1)), scale * min(map(float, times))) if rows and times else None


PEERS = {"Singular": ("Singular", singular), "Macaulay2": ("M2", macaulay2)}


def installed():
    """The peers of this machine, each with its call."""
    return {name: call for name, (program, call) in PEERS.items() if shutil.which(program)}


def main(paths):
    for path in paths:
        for name, peer in installed().items():
            found = peer(read(path))
            rows, time = found or ("-", float("nan"))
            print(f"{Path(path).name}\t{name}\t{rows} rows\t{time:.3f} ms", flush=True)


if __name__ == "__main__":
    if len(sys.argv) < 2:
        sys.exit(__doc__)
    main(sys.argv[1:])
