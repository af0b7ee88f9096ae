"""Adapters of several shapes, for scripts that time their trimming and for those that damage them."""
import random

from module_bytes import HEADER, function_import, name, number, section, vector

# () -> (), and () -> i32
TYPES = section(1, vector([bytes.fromhex("600000"), bytes.fromhex("6000017f")]))
END = b"\x0b"
DROP = b"\x1a"


def local_get(index):
    return b"\x20" + number(index)


def local_set(index):
    return b"\x21" + number(index)


def constant(digit):
    """An `i32.const` below 64."""
    return b"\x41" + bytes([digit])


def call(index):
    return b"\x10" + number(index)


def body(locals_runs, code):
    """A body with its size. A run of locals is a count and a type."""
    text = vector([number(count) + ty for count, ty in locals_runs]) + code + END
    return number(len(text)) + text


def functions(count):
    """The section of `count` functions of type 0."""
    return section(3, vector([b"\0"] * count))


def exports(named):
    """The section that exports each of these functions under its name."""
    return section(7, vector([name(text) + b"\0" + number(index) for text, index in named]))


def module(*parts):
    return HEADER + b"".join(parts)


def chain_of(order):
    """Functions of some 50 bytes that call each other in this order, of even indices, from the first on; and as many
    dead ones, which stand after these and do likewise."""
    step = local_get(0) + constant(7) + b"\x6a" + local_set(0)
    branch = local_get(0) + b"\x04\x40" + constant(5) + local_set(0) + END
    called = {index + side: callee + side for index, callee in zip(order, order[1:]) for side in (0, 1)}

    def code(index):
        last = call(called[index]) if index in called else b""
        return body([(1, b"\x7f")], step * 5 + branch + last)

    count = max(order) + 2
    bodies = section(10, vector([code(index) for index in range(count)]))
    return module(TYPES, functions(count), exports([("a", order[0])]), bodies), ["a"]


def chain(count):
    """Each calls the second after it: so every second one is dead."""
    return chain_of(range(0, count, 2))


def backward_chain(count):
    """Each calls the second before it."""
    return chain_of(range(0, count, 2)[::-1])


def shuffled_chain(count):
    """The same functions, in an order that chance makes: the same in each run."""
    order = list(range(0, count, 2))
    random.Random(count).shuffle(order)
    return chain_of(order)


def many_exports(count):
    """Exports, every second of which is wanted, of a tenth as many functions."""
    held = max(count // 10, 1)
    named = [("export-%d" % index, index % held) for index in range(count)]
    bodies = [body([], b"")] * held
    adapter = module(TYPES, functions(held), exports(named), section(10, vector(bodies)))
    return adapter, [text for text, _ in named[::2]]


def many_imports(count):
    """Imported functions, every second of which is called."""
    imports = [function_import("env", "import-%d" % index) for index in range(count)]
    code = body([], b"".join(call(index) for index in range(0, count, 2)))
    parts = section(2, vector(imports)), functions(1), exports([("a", count)]), section(10, vector([code]))
    return module(TYPES, *parts), ["a"]


def many_globals(count):
    """Globals, each initialised by the second before it."""
    held = [b"\x7f\0" + constant(index) + END for index in range(min(count, 2))]
    held += [b"\x7f\0\x23" + number(index - 2) + END for index in range(2, count)]
    code = body([], b"\x23" + number(count - 1) + DROP)
    parts = functions(1), section(6, vector(held)), exports([("a", 0)]), section(10, vector([code]))
    return module(TYPES, *parts), ["a"]


def one_body(count):
    """One body of so many times ten bytes."""
    step = local_get(0) + constant(7) + b"\x6a" + local_set(0) + b"\x01\x01\x01"
    code = body([(1, b"\x7f")], step * count)
    return module(TYPES, functions(1), exports([("a", 0)]), section(10, vector([code]))), ["a"]


def many_labels(count):
    """A `br_table` of so many labels."""
    code = body([], b"\x02\x40" + constant(0) + b"\x0e" + number(count) + b"\0" * count + b"\0" + END)
    return module(TYPES, functions(1), exports([("a", 0)]), section(10, vector([code]))), ["a"]


def many_blocks(count):
    """Blocks inside each other."""
    code = body([], b"\x02\x40" * count + END * count)
    return module(TYPES, functions(1), exports([("a", 0)]), section(10, vector([code]))), ["a"]


def many_calls(count):
    """Calls in one body, each of another function."""
    calls = b"".join(call(index) for index in range(1, count + 1))
    bodies = [body([], calls)] + [body([], b"")] * count
    return module(TYPES, functions(count + 1), exports([("a", 0)]), section(10, vector(bodies))), ["a"]


def equal_calls(count):
    """Calls in one body, all of one function."""
    bodies = [body([], call(1) * count), body([], b"")]
    return module(TYPES, functions(2), exports([("a", 0)]), section(10, vector(bodies))), ["a"]


def many_accesses(count):
    """Loads and stores of an imported memory in one body, half of each."""
    load = constant(8) + b"\x28\x02\x04" + DROP
    store = constant(8) + constant(7) + b"\x36\x02\x04"
    memory = section(2, vector([name("env") + name("memory") + b"\x02\0" + number(1)]))
    code = body([], (load + store) * (count // 2))
    return module(TYPES, memory, functions(1), exports([("a", 0)]), section(10, vector([code]))), ["a"]


def many_types(count):
    """Types, every second of which is a function's."""
    types = section(1, vector([b"\x60" + number(1) + b"\x7f" + number(0)] * count))
    funcs = section(3, vector([number(index) for index in range(0, count, 2)]))
    held = (count + 1) // 2
    code = body([], b"".join(constant(0) + call(index) for index in range(1, held)))
    bodies = [code] + [body([], b"")] * (held - 1)
    return HEADER + types + funcs + exports([("a", 0)]) + section(10, vector(bodies)), ["a"]


# Each shape with its largest count.
SHAPES = {
    "chain": (chain, 1_000_000),
    "backward": (backward_chain, 1_000_000),
    "shuffled": (shuffled_chain, 1_000_000),
    "exports": (many_exports, 100_000),
    "imports": (many_imports, 100_000),
    "globals": (many_globals, 100_000),
    "body": (one_body, 1_000_000),
    "labels": (many_labels, 1_000_000),
    "blocks": (many_blocks, 1_000_000),
    "calls": (many_calls, 100_000),
    "call": (equal_calls, 100_000),
    "memory": (many_accesses, 1_000_000),
    "types": (many_types, 100_000),
}
