#!/usr/bin/env python3
"""Runs the code that trimming adds on a small machine, and compares what it does with what it has to do.

    checks/added-code.py [FILE]

The code is that of the rows of `realloc_via_memory_grow` and `allocate_stack_via_realloc` in crates/wc_tests/data. The machine
is this script's own; crates/wc_gc/MODEL.md has its rules ("What the added code does"). FILE (default: checks/added-code.rows)
has rows of these calls:

    machine EXPONENT            over a memory whose pages have 2^EXPONENT bytes. The first line of input is the code: `growing`,
                                the realloc for such pages; `stack REALLOC STACK-POINTER [STATE]`; or `body` and bytes. The
                                other lines are steps: `globals VALUE..`, `pages COUNT` (up to 2^32), `grants yes no ..` for
                                later growths, `enter ARGUMENT..`, `answer VALUE` and `trap` of the waiting call, `write GLOBAL
                                VALUE` by other code, `state`. The answers are `result VALUE`, `end`, `trap`, `call FUNCTION
                                ARGUMENT..`, `no meaning` or `nothing`; and the state
    growing_samples SEED COUNT, lazy_samples SEED COUNT
                                in how many of COUNT runs, over generated states and events, the code did what it has to

A row whose answer differs is printed, and at last how many agree; the status is 1 if one differs.
"""
import argparse
import pathlib
import sys

from module_bytes import signed_at, unsigned_at
from row_format import answered_bytes, bytes_of, rows_of

sys.path.append(str(pathlib.Path(__file__).resolve().parent.parent / "tools"))
from repository import TOP, row_files

# the bytes of a stack
STACK = 65536
WORD = 1 << 32
MOST = 0xFFFFFFFF


class Flaw(Exception):
    """Why a row can't be read."""


class Stop(Exception):
    """That a run ends before its code does, and how."""


class Machine:
    """The state that all code shares: globals, the size of one memory, and the answers to growths to come. Calls that wait
    have their locals, their operands and the index of their next operator."""

    def __init__(self, exponent):
        self.exponent, self.globals, self.pages, self.grants, self.waiting, self.has_stopped = exponent, [], 0, [], [], False

    def enter(self, code, arguments):
        if self.has_stopped:
            return "nothing"
        own, operators = code
        return self.run(operators, [[*arguments, *[0] * own], [], 0])

    def answer(self, code, value):
        if self.has_stopped or not self.waiting:
            return "nothing"
        frame = self.waiting.pop()
        frame[1].append(value)
        return self.run(code[1], frame)

    def trap(self):
        """The realloc traps in the last call that waits."""
        self.has_stopped |= bool(self.waiting)

    def write(self, index, value):
        """Other code writes a global."""
        if not self.has_stopped and index < len(self.globals):
            self.globals[index] = value

    def run(self, operators, frame):
        _, operands, _ = frame
        try:
            self.walk(operators, frame)
        except Stop as stop:
            how = str(stop)
            if how.startswith("call"):
                self.waiting.append(frame)
            else:
                self.has_stopped = True
            return how
        return f"result {operands[-1]}" if operands else "end"

    def walk(self, operators, frame):
        skipped = 0
        for at in range(frame[2], len(operators)):
            code, immediate = operators[at]
            frame[2] = at + 1
            if skipped:
                skipped += (code == 0x04) - (code == 0x0B)
            else:
                skipped = self.step(code, immediate, frame)
        if skipped:
            raise Stop("no meaning")

    def step(self, code, immediate, frame):
        """Does an operator; 1 where what comes up to the `end` of an `if` is skipped."""
        variables, operands, _ = frame

        def pop():
            if not operands:
                raise Stop("no meaning")
            return operands.pop()

        def there(items):
            if immediate >= len(items):
                raise Stop("no meaning")
            return items

        if code == 0x00:
            raise Stop("trap")
        if code == 0x04:
            return int(pop() == 0)
        if code == 0x10:
            arguments = [pop() for _ in range(4)][::-1]
            raise Stop("call %d %s" % (immediate, " ".join(map(str, arguments))))
        if code == 0x20:
            operands.append(there(variables)[immediate])
        elif code == 0x22:
            there(variables)[immediate] = pop()
            operands.append(variables[immediate])
        elif code == 0x23:
            operands.append(there(self.globals)[immediate])
        elif code == 0x24:
            there(self.globals)[immediate] = pop()
        elif code == 0x40 and immediate == 0:
            operands.append(self.grow(pop()))
        elif code == 0x41:
            operands.append(immediate % WORD)
        elif code in BINARY:
            second, first = pop(), pop()
            operands.append(BINARY[code](first, second) % WORD)
        elif code != 0x0B:
            raise Stop("no meaning")
        return 0

    def grow(self, more):
        """The old size, or the greatest number where growth is refused."""
        is_granted, most = self.grants.pop(0) if self.grants else False, WORD >> self.exponent
        if not is_granted or self.pages + more > most:
            return MOST
        self.pages += more
        return (self.pages - more) % WORD

    def state(self):
        return [f"pages {self.pages}", " ".join(["globals", *map(str, self.globals)])]


BINARY = {
    0x46: lambda first, second: int(first == second),
    0x47: lambda first, second: int(first != second),
    0x6A: lambda first, second: first + second,
    0x74: lambda first, second: first << second % 32,
}
# the operators with an index or a number after them; of an `if` it is the type of its block
WITH_NUMBER = {0x04, 0x10, 0x20, 0x22, 0x23, 0x24, 0x40, 0x41}


def code_of(data):
    """The number of locals of a body, and its operators, each with its number; without one if the machine lacks the operator."""
    count, at = unsigned_at(data, 0)
    own, operators = 0, []
    for _ in range(count):
        of_type, at = unsigned_at(data, at)
        own, at = own + of_type, at + 1
    while at < len(data):
        code, immediate, at = data[at], None, at + 1
        if code in WITH_NUMBER:
            immediate, at = (signed_at if code in (0x04, 0x41) else unsigned_at)(data, at)
        operators.append((code, immediate))
    return own, operators


def added_code():
    """The code of each row that has code which trimming adds, by the words of its call."""
    rows = [row for path in row_files() for row in rows_of(path)]
    return {" ".join([row.call, *row.arguments]): code_of(answered_bytes(row)) for row in rows
            if row.call in ("realloc_via_memory_grow", "allocate_stack_via_realloc")}


def number(word, most=MOST, what="no number"):
    if not word.isdigit() or int(word) > most:
        raise Flaw(f'{what} "{word}"')
    return int(word)


def steps(row, added):
    """The answer of a row of `machine`."""
    machine = Machine(number(row.arguments[0]))
    word, _, rest = row.input[0].partition(" ")
    code = (code_of(bytes_of([rest])) if word == "body" else
            added[f"realloc_via_memory_grow {machine.exponent}" if word == "growing" else f"allocate_stack_via_realloc {rest}"])
    for line in row.input[1:]:
        word, *words = line.split()
        if word == "pages":
            machine.pages = number(words[0], WORD, "no number of pages")
        elif word == "grants":
            machine.grants = [it == "yes" for it in words]
        elif word == "globals":
            machine.globals = [number(it) for it in words]
        elif word == "write":
            machine.write(*map(number, words))
        elif word == "trap":
            machine.trap()
        elif word == "state":
            yield from machine.state()
        elif word == "enter":
            yield machine.enter(code, [number(it) for it in words])
        elif word == "answer":
            yield machine.answer(code, number(words[0]))
        else:
            raise Flaw(f'no step of a machine "{line}"')


class Numbers:
    """Numbers below 2^24 that a seed makes, one after another."""

    def __init__(self, seed):
        self.seed = seed

    def next(self):
        self.seed = (self.seed * 1664525 + 1013904223) % WORD
        return self.seed >> 8

    def mostly(self, wanted):
        """This number in seven of eight cases, and another one else."""
        other = self.next()
        return wanted if other % 8 else other


def some_pages(numbers, exponent):
    """The size of a memory, often such that it has no room for a stack, or just has."""
    most, stack, drawn = WORD >> exponent, max(STACK >> exponent, 1), numbers.next()
    return max(0, [most - stack, most - drawn % stack, most - stack - drawn % stack, drawn % max(most, 1)][drawn % 4])


def growing_agrees(numbers, added):
    """Whether the growing realloc traps, or answers the end of the memory and grows it, as it has to."""
    exponent = numbers.next() % 17
    arguments = [numbers.mostly(0), numbers.mostly(0), numbers.next(), numbers.mostly(STACK)]
    machine = Machine(exponent)
    machine.pages = old = some_pages(numbers, exponent)
    machine.grants = [numbers.next() % 4 != 0]
    is_granted = machine.grants[0]
    outcome = machine.enter(added[f"realloc_via_memory_grow {exponent}"], arguments)
    is_request = arguments[:2] == [0, 0] and arguments[3] == STACK
    more = STACK >> exponent
    if is_granted and is_request and old + more <= WORD >> exponent:
        return outcome == f"result {(old << exponent) % WORD}" and machine.pages == old + more
    return outcome == "trap" and machine.pages == old


def lazy_agrees(numbers, added):
    """Whether the lazy code calls the realloc at most once over some events, exactly once where a call finds 0, and its state
    is then 2 after the answer. Three of eight events are calls of the code, two are answers, one is a trap, and in two other
    code writes the state."""
    code, machine, calls = added["allocate_stack_via_realloc 7 0 1"], Machine(16), 0
    machine.globals = [numbers.next(), numbers.next() % 4]
    for _ in range(12):
        found, event, outcome = machine.globals[1], numbers.next() % 8, "nothing"
        if event < 3:
            outcome = machine.enter(code, [])
        elif event < 5:
            outcome = machine.answer(code, numbers.next())
        elif event == 5:
            machine.trap()
        else:
            machine.write(1, numbers.next() % 3 + 1)
        state = machine.globals[1]
        if outcome.startswith("call "):
            calls += 1
            agrees = (found, state) == (0, 1)
        elif outcome == "end":
            agrees = found != 0 and state == found if event < 3 else state == 2
        else:
            agrees = outcome == "nothing"
        if not agrees:
            return False
    return calls <= 1


def samples(row, added):
    """The answer of a row of samples."""
    seed, count = map(number, row.arguments)
    numbers, agrees = Numbers(seed), growing_agrees if row.call == "growing_samples" else lazy_agrees
    yield "agree %d" % sum(agrees(numbers, added) for _ in range(count))


def answer(row, added):
    try:
        return list((steps if row.call == "machine" else samples)(row, added))
    except Flaw as flaw:
        return [f"bad row: {flaw}"]


def main():
    parser = argparse.ArgumentParser(description=__doc__, formatter_class=argparse.RawDescriptionHelpFormatter)
    parser.add_argument("file", nargs="?", type=pathlib.Path, default=TOP / "checks" / "added-code.rows", metavar="FILE")
    rows, added = rows_of(parser.parse_args().file), added_code()
    agreed = 0
    for row in rows:
        found = answer(row, added)
        agreed += found == row.answer
        if found != row.answer:
            print("\n".join([f"row {row.name}", *("  wanted " + it for it in row.answer), *("  found " + it for it in found)]))
    print(f"{agreed} of {len(rows)} rows agree")
    return int(agreed != len(rows) or not rows)


if __name__ == "__main__":
    sys.exit(main())
