#!/usr/bin/env python3
"""Runs the merge gate, and makes the table of what each crate costs.

    bench/gate-costs.py [--write] [--cores LIST] [-- ARGUMENT..]   # `rt ci --anew`, or `rt ci ARGUMENT..`
    bench/gate-costs.py [--write] --join FILE..                     # from the records of several runs
    bench/gate-costs.py --check | --figures | --fit                 # runs nothing

It runs `rt ci` in this checkout, and reads the processor time of each of its processes twice a second. The machine should have
nothing else to do; the record has its load before the run. --cores 0,1 keeps the run to these processors. The record is
written to bench/data/gate-COMMIT-N.json. Printed are the processor minutes of each crate's proof and edits, the whole, the
longest chain of crates that wait for each other, and the time that a run on two and on four processors would take. --write
puts the table into docs/MAP.md; if several records have a crate, the last one counts. --fit fits the numbers by which
checks/budget.py expects a proof's minutes to that table.
"""

import argparse
import heapq
import json
import os
import re
import subprocess
import sys
import tempfile
import time

for folder in ("tools", "checks"):
    sys.path.append(os.path.join(os.path.dirname(os.path.dirname(os.path.abspath(__file__))), folder))
from budget import function_counts, longest_chain
from repository import COSTS_BEGIN, COSTS_END, TESTS, TOP, costs_on, crates_below, read, used_by_crates

DATA = f"{TOP}/bench/data"
TICK = os.sysconf("SC_CLK_TCK")
# the programs, and the page of each that says what its proof takes
PROOFS = {"wctrim": "docs/WCTRIM.md", "wcwhy": "", "wcplan": "docs/WCPLAN.md"}


def processes():
    """The parent, the processor seconds and the start of each process."""
    found = {}
    for name in os.listdir("/proc"):
        if name.isdigit():
            try:
                with open(f"/proc/{name}/stat", encoding="utf-8", errors="replace") as file:
                    words = file.read().rsplit(")", 1)[1].split()
            except (OSError, IndexError):
                continue
            found[int(name)] = int(words[1]), (int(words[11]) + int(words[12])) / TICK, int(words[19])
    return found


def below(root, found):
    """The processes that come from one."""
    children = {}
    for one, (parent, _, _) in found.items():
        children.setdefault(parent, []).append(one)
    todo, seen = [root], []
    while todo:
        one = todo.pop()
        seen.append(one)
        todo += children.get(one, [])
    return seen


def label(one):
    """The crate that a process is for, and whether it tries an edit."""
    try:
        with open(f"/proc/{one}/cmdline", encoding="utf-8", errors="replace") as file:
            words = file.read().split("\0")
        folder = os.readlink(f"/proc/{one}/cwd")
    except OSError:
        return None
    crate = words[words.index("--crate-name") + 1] if "--crate-name" in words[:-1] else ""
    if not crate:
        return ("", os.path.basename(words[0])) if words and words[0] else None
    # the proof that edits are compared with, and the edits, are made in folders of their own
    is_edit = "/rt-edit" in folder or any("/rt-edits-" in it for it in words)
    return crate, "edits" if is_edit else "proof"


def record(words, cores):
    """Runs the gate, and gives what it took."""
    load = os.getloadavg()[0]
    began = time.time()
    start = (lambda: os.sched_setaffinity(0, cores)) if cores else None
    # a file, since what a full pipe holds up would stop the gate
    said = tempfile.TemporaryFile("w+", errors="replace")
    gate = subprocess.Popen(["rt", "ci", *words], cwd=TOP, stdout=said, stderr=subprocess.STDOUT, preexec_fn=start)
    seen = {}
    while gate.poll() is None:
        found = processes()
        for one in below(gate.pid, found):
            key = one, found[one][2]
            at = seen.setdefault(key, [label(one), 0.0, time.time() - began, 0.0])
            at[0] = label(one) or at[0]
            at[1], at[3] = max(at[1], found[one][1]), time.time() - began
        time.sleep(0.5)
    with said:
        said.seek(0)
        lines = said.read().rstrip().split("\n")
    print("\n".join(it for it in lines if it.startswith("rt: ") or it is lines[-1]))
    crates, other = {}, 0.0
    for what, seconds, first, last in seen.values():
        if what is None or not what[0]:
            other += seconds
            continue
        of = crates.setdefault(what[0], {"proof": 0.0, "edits": 0.0, "first": first, "last": last})
        of[what[1]] += seconds
        if what[1] == "proof":
            of["first"], of["last"] = min(of["first"], first), max(of["last"], last)
    commit = subprocess.run(["git", "rev-parse", "--short", "HEAD"], cwd=TOP, stdout=subprocess.PIPE, text=True).stdout.strip()
    return {"commit": commit, "answer": lines[-1], "load": load, "cores": sorted(cores or os.sched_getaffinity(0)), "clock": time.time() - began, "other": other, "crates": crates}


def uses():
    """The crates that each crate waits for; a crate comes after these, else in the order of crates.txt."""
    found = used_by_crates()
    order = dict.fromkeys(it for name in found for it in crates_below(name, found))
    return {name: [it for it in found[name] if it in found] for name in order}


def by_the_clock(crates, processors):
    """The minutes that proofs and edits take on so many processors, those first that most waits for."""
    waits = uses()
    minutes = {name: crates.get(name, {}).get("proof", 0.0) / 60 for name in waits}
    after = {name: minutes[name] for name in waits}
    for name in reversed(list(waits)):
        for it in waits[name]:
            after[it] = max(after[it], minutes[it] + after[name])
    edits = [crates[it]["edits"] / 60 for it in crates if crates[it]["edits"]]
    now, running, done, left = 0.0, [], set(), sorted(waits, key=lambda it: -after[it])
    while left or running or edits:
        ready = [it for it in left if all(below in done for below in waits[it])]
        while len(running) < processors and (ready or edits and not running):
            if ready:
                name = ready.pop(0)
                left.remove(name)
                heapq.heappush(running, (now + minutes[name], name))
            else:
                heapq.heappush(running, (now + edits.pop(), ""))
        while len(running) < processors and edits and not ready:
            heapq.heappush(running, (now + edits.pop(), ""))
        now, name = heapq.heappop(running)
        done.add(name)
    return now


def table(runs):
    crates = {}
    for run in runs:
        for name, of in run["crates"].items():
            if of["proof"] or name not in crates:
                crates[name] = of
    lines = ["| Crate | Proof | Edits |", "|---|---|---|"]
    for name in uses():
        of = crates.get(name, {"proof": 0.0, "edits": 0.0})
        edits = f"{of['edits'] / 60:.1f}" if of["edits"] else ""
        lines.append(f"| `{name}` | {of['proof'] / 60:.1f} | {edits} |")
    proofs, edits = (sum(of[it] for of in crates.values()) / 60 for it in ("proof", "edits"))
    other = sum(run["other"] for run in runs) / 60
    lines += [f"| all | {proofs:.1f} | {edits:.1f} |", ""]
    lines.append(f"With {other:.1f} minutes for linking, running and the rest that is {proofs + edits + other:.0f} processor minutes.")
    two, four = by_the_clock(crates, 2), by_the_clock(crates, 4)
    lines.append(f"With one processor for each proof that takes {two:.0f} minutes on two processors, and {four:.0f} on four.")
    minutes = {name: crates.get(name, {"proof": 0.0})["proof"] / 60 for name in uses()}
    chain = longest_chain(minutes, used_by_crates())
    each = ", ".join(f"`{it}` {minutes[it]:.1f}" for it in chain)
    lines.append(f"The longest chain has {sum(minutes[it] for it in chain):.0f} minutes: {each}.")
    rows = sum(of["proof"] for name, of in crates.items() if TESTS.match(name)) / 60
    lines.append(f"The crates of the tests take {rows:.0f} minutes of the proofs, {100 * rows / max(proofs, 0.01):.0f}%.")
    for run in (it for it in runs if it["clock"]):
        whole = f"`{run['commit']}`: {run['clock'] / 60:.0f} minutes by the clock on {len(run['cores'])} processors"
        lines.append(f"Run {whole}, with a load of {run['load']:.1f} before it; {run['answer']}.")
    return "\n".join(lines)


def figures(costs):
    """What is made of the table elsewhere: a file, a pattern around a number, and the number."""
    used = used_by_crates()
    for name, proof in PROOFS.items():
        minutes = sum(costs.get(it, (0.0, 0.0))[0] for it in crates_below(name, used))
        minutes = round(minutes, -1 if minutes >= 100 else 0)
        for file in ("wctrim", proof) if proof else ("wctrim",):
            before = rf"{name}\)[^\n]* proof='some " if file == "wctrim" else rf"{name}: not proved: \./{name} --build proves it, in some "
            yield file, f"({before})(\\d+)( processor minutes)", f"{minutes:.0f}"
    wctrim = sum(costs.get(it, (0.0, 0.0))[0] for it in crates_below("wctrim", used))
    yield "README.md", r"(--build`\s+proves it, in some )(\d+)( processor minutes)", f"{wctrim:.0f}"
    two = re.search(r"takes (\d+) minutes on two processors", read("docs/MAP.md"))
    if two:
        yield "README.md", r"(in some \[)(\d+)(\s+minutes\]\(docs/MAP.md#what-the-gate-costs\))", f"{round(int(two[1]), -1)}"


def write_figures():
    """Puts what is made of the table where it belongs."""
    for file, pattern, number in figures(costs_on(read("docs/MAP.md"))):
        text = re.sub(pattern, lambda it: it[1] + number + it[3], read(file))
        (TOP / file).write_text(text, encoding="utf-8")


def fitted(points):
    """The factors of rows of numbers by which their sums come closest to the values beside them, by least squares."""
    size = len(points[0][0])
    rows = [[sum(it[m] * it[n] for it, _ in points) for n in range(size)] + [sum(it[m] * value for it, value in points)] for m in range(size)]
    for at in range(size):
        for other in range(size):
            if other != at:
                times = rows[other][at] / rows[at][at]
                rows[other] = [here - times * there for here, there in zip(rows[other], rows[at])]
    return [row[size] / row[at] for at, row in enumerate(rows)]


def fit():
    """Prints what a crate, a function, and a function for each 1,000 functions below cost, by the table on docs/MAP.md."""
    used, counts, points = used_by_crates(), function_counts(), []
    for name, (minutes, _) in costs_on(read("docs/MAP.md")).items():
        if name in counts:
            below = sum(counts[it] for it in crates_below(name, used)[:-1])
            points.append(((1, counts[name], counts[name] * below / 1000), minutes))
    factors = fitted(points)
    mean = sum(value for _, value in points) / len(points)
    rest = sum((value - sum(a * b for a, b in zip(factors, row))) ** 2 for row, value in points)
    share = 1 - rest / sum((value - mean) ** 2 for _, value in points)
    print("CRATE, FUNCTION, BELOW = %.2f, %.4f, %.4f  # of %d crates; %.0f%% of the variance" % (*factors, len(points), 100 * share))


def check():
    """Prints what is otherwise than the table's rows make it; how many figures there are is the last line."""
    page, wrong, count = read("docs/MAP.md"), [], 3
    costs = costs_on(page)
    of_all = costs.pop("all")
    for n, what in enumerate(("proofs", "edits")):
        if abs(sum(it[n] for it in costs.values()) - of_all[n]) > 0.5:
            wrong.append(f"docs/MAP.md: the {what} have {sum(it[n] for it in costs.values()):.1f} minutes together, not {of_all[n]}")
    rest = re.search(r"With ([\d.]+) minutes for linking, running and the rest that is (\d+) processor minutes", page)
    if abs(sum(of_all) + float(rest[1]) - int(rest[2])) > 1:
        wrong.append(f"docs/MAP.md: {of_all} and {rest[1]} minutes are not {rest[2]}")
    chain = re.search(r"The longest chain has (\d+) minutes: ([^\n]*)\.\n", page)
    for name, minutes in re.findall(r"`(\w+)` ([\d.]+)", chain[2]):
        if float(minutes) != costs.get(name, (0.0, 0.0))[0]:
            wrong.append(f"docs/MAP.md: {name} has {minutes} minutes in the longest chain, and other ones in its row")
    tests = re.search(r"The crates of the tests take (\d+) minutes of the proofs, (\d+)%", page)
    minutes, count = sum(it[0] for name, it in costs.items() if TESTS.match(name)), count + 2
    if abs(minutes - int(tests[1])) > 1 or abs(100 * minutes / of_all[0] - int(tests[2])) > 1:
        wrong.append(f"docs/MAP.md: the crates of the tests take {minutes:.1f} minutes of {of_all[0]}")
    for file, pattern, number in figures(costs):
        found = re.search(pattern, read(file))
        count += 1
        if not found or found[2] != number:
            wrong.append(f"{file}: {found[0] if found else pattern}: {number}, by the table in docs/MAP.md: bench/gate-costs.py --figures")
    print("\n".join([*wrong, f"{count} figures"]))
    return 1 if wrong else 0


def main():
    parser = argparse.ArgumentParser(usage=__doc__.split("\n\n")[1].strip(), description=__doc__,
                                     formatter_class=argparse.RawDescriptionHelpFormatter)
    parser.add_argument("--write", action="store_true")
    parser.add_argument("--cores", default="")
    parser.add_argument("--join", nargs="+")
    parser.add_argument("--check", action="store_true")
    parser.add_argument("--figures", action="store_true", help="write what is made of the table in docs/MAP.md, and run nothing")
    parser.add_argument("--fit", action="store_true", help="fit the numbers of checks/budget.py to the table in docs/MAP.md, and run nothing")
    parser.add_argument("rest", nargs="*")
    given = parser.parse_args()
    if given.fit:
        fit()
        return 0
    if given.figures:
        write_figures()
        return 0
    if given.check:
        return check()
    if given.join:
        runs = []
        for path in given.join:
            with open(path, encoding="utf-8") as file:
                runs.append(json.load(file))
    else:
        runs = [record(given.rest or ["--anew"], {int(it) for it in given.cores.split(",") if it})]
        os.makedirs(DATA, exist_ok=True)
        number = 1
        while os.path.exists(path := f"{DATA}/gate-{runs[0]['commit']}-{number}.json"):
            number += 1
        with open(path, "w", encoding="utf-8") as file:
            json.dump(runs[0], file, indent=1)
        print(f"the record is {os.path.relpath(path, TOP)}")
    text = table(runs)
    print(text)
    if given.write:
        page = f"{TOP}/docs/MAP.md"
        with open(page, encoding="utf-8") as file:
            old = file.read()
        new = re.sub(f"(?s){re.escape(COSTS_BEGIN)}.*{re.escape(COSTS_END)}", lambda _: f"{COSTS_BEGIN}\n\n{text}\n\n{COSTS_END}", old)
        with open(page, "w", encoding="utf-8") as file:
            file.write(new)
        write_figures()
    return 0 if all(re.fullmatch(r"\d+ passed, 0 failed", run["answer"]) for run in runs) else 1


if __name__ == "__main__":
    sys.exit(main())
