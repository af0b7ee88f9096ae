"""The shim of a component, read from the component's bytes: its slots, their types, and what the component fills them with."""
from module_bytes import content, exported_names, items, name_at, number_at, sections, vector_at

TYPES = {0x7f: "i32", 0x7e: "i64", 0x7d: "f32", 0x7c: "f64"}
# the options that the Rust crate has names for, by their opcodes; the encodings of strings are 0 to 2
OPTIONS = {0: "STRING_ENCODING", 1: "STRING_ENCODING", 2: "STRING_ENCODING", 3: "MEMORY", 4: "REALLOC", 6: "ASYNC"}
ORDER = ["MEMORY", "REALLOC", "STRING_ENCODING", "ASYNC"]
# built-ins that a slot may be filled with, by their opcodes: their names, and what is after the opcode
BUILT_INS = {
    0x09: ("task.return", "result options"), 0x0f: ("stream-read", "index options"), 0x10: ("stream-write", "index options"),
    0x16: ("future-read", "index options"), 0x17: ("future-write", "index options"), 0x1c: ("error-new", "options"),
    0x1d: ("error-debug-message", "options"), 0x20: ("waitable-set.wait", "byte memory"),
    0x21: ("waitable-set.poll", "byte memory"), 0x27: ("thread.new-indirect", "index index"),
}
# those that need nothing of a module, and so have no slots
OTHERS = {
    0x02: "index", 0x03: "index", 0x04: "index", 0x05: "", 0x06: "byte", 0x0a: "byte index", 0x0b: "byte index", 0x0d: "",
    0x0e: "index", 0x11: "index byte", 0x12: "index byte", 0x13: "index", 0x14: "index", 0x15: "index", 0x18: "index byte",
    0x19: "index byte", 0x1a: "index", 0x1b: "index", 0x1e: "", 0x1f: "", 0x22: "", 0x23: "", 0x24: "", 0x25: "", 0x26: "",
}


def function_type(content, at):
    """A function type, as the Rust crate prints it."""
    params, at = vector_at(content, at + 1, lambda content, at: (TYPES[content[at]], at + 1))
    results, at = vector_at(content, at, lambda content, at: (TYPES[content[at]], at + 1))
    shown = results[0] if len(results) == 1 else "(%s)" % ", ".join(results)
    return "(%s) -> %s" % (", ".join(params), shown), at


def types_of_shim(module):
    parts = dict(sections(module))
    types = items(parts[1], function_type)
    return [types[index] for index in items(parts[3], number_at)]


def option_at(content, at):
    """A canonical option, and the index after it."""
    kind = content[at]
    return OPTIONS.get(kind), number_at(content, at + 1)[1] if kind in (3, 4, 5, 7) else at + 1


def shown(options):
    """Options, as the Rust crate prints them."""
    return " | ".join(option for option in ORDER if option in options)


class Component:
    """What a component instantiates its fixup with: the name of a slot for each function, and its options."""

    def __init__(self, data, adapter):
        self.adapter = adapter
        self.modules, self.instances, self.core_functions, self.core_instances, self.functions = [], [], [], [], []
        readers = {2: self.core_instance, 6: self.alias, 8: self.canonical, 10: self.imported}
        for id, part in sections(data):
            if id == 1:
                self.modules.append(part)
            elif id in readers:
                items(part, readers[id])

    def core_instance(self, content, at):
        if content[at] == 0:
            module, at = number_at(content, at + 1)
            given, at = vector_at(content, at, self.argument)
            self.core_instances.append((module, given))
        else:
            given, at = vector_at(content, at + 1, self.inline_export)
            self.core_instances.append((None, given))
        return None, at

    @staticmethod
    def argument(content, at):
        name, at = name_at(content, at)
        index, at = number_at(content, at + 1)
        return (name, index), at

    @staticmethod
    def inline_export(content, at):
        name, at = name_at(content, at)
        kind = content[at]
        index, at = number_at(content, at + 1)
        return (name, kind, index), at

    def alias(self, content, at):
        sort, core = content[at], content[at] == 0 and content[at + 1]
        at += 2 if sort == 0 else 1
        kind = content[at]
        index, at = number_at(content, at + 1)
        if kind == 2:
            return None, number_at(content, at)[1]
        name, at = name_at(content, at)
        if sort == 0 and core == 0:
            head = "dtor" if "[dtor]" in name or name.endswith("_dtor") else "adapt-" + self.adapter
            self.core_functions.append("%s-%s\t" % (head, name))
        elif sort == 1:
            self.functions.append("indirect-%s-%s" % (self.instances[index], name))
        elif sort == 5:
            self.instances.append(name)
        return None, at

    def canonical(self, content, at):
        kind, at = content[at], at + 1
        if kind > 1:
            return self.built_in(content, at, kind)
        index, at = number_at(content, at + 1)
        options, at = vector_at(content, at, option_at)
        if kind == 0:
            _, at = number_at(content, at)
            self.functions.append("lifted")
        else:
            self.core_functions.append("%s\t%s" % (self.functions[index], shown(options)))
        return None, at

    def built_in(self, content, at, kind):
        name, parts = BUILT_INS.get(kind) or ("built in", OTHERS[kind])
        options = []
        for part in parts.split():
            if part == "options":
                options, at = vector_at(content, at, option_at)
            elif part == "byte":
                at += 1
            elif part == "result":
                at = number_at(content, at + 1)[1]
            else:
                options = ["MEMORY"] if part == "memory" else options
                _, at = number_at(content, at)
        self.core_functions.append("%s\t%s" % (name, shown(options)))
        return None, at

    def imported(self, content, at):
        name, at = name_at(content, at + 1)
        kind = content[at]
        if kind == 3:
            # a type: equal to one, or a resource
            return None, (number_at(content, at + 2)[1] if content[at + 1] == 0 else at + 2)
        _, at = number_at(content, at + 1)
        if kind == 5:
            self.instances.append(name)
        elif kind == 1:
            self.functions.append("indirect-$root-" + name)
        return None, at

    def slots(self):
        """The slots of the shim: of each its name, its type and its options; None if there is no shim."""
        shims = [module for module in self.modules if "$imports" in exported_names(module)]
        fixups = [given for module, given in self.core_instances
                  if module is not None and b"$imports" in (content(self.modules[module], 2) or b"")]
        if not shims:
            return None
        exports = self.core_instances[dict(fixups[0])[""]][1]
        functions = {name: self.core_functions[index] for name, kind, index in exports if kind == 0}
        filled = [functions[str(number)].split("\t") for number in range(len(functions))]
        return ["\t".join((name, ty, options)) for (name, options), ty in zip(filled, types_of_shim(shims[0]), strict=True)]
