"""Parts of core modules as bytes, written and read."""

HEADER = b"\0asm\1\0\0\0"


def number(n):
    """The shortest spelling of an unsigned number."""
    made = bytearray()
    while n >= 128:
        made.append(n & 127 | 128)
        n >>= 7
    made.append(n)
    return bytes(made)


def name(text):
    """A name: its length in bytes and its UTF-8 bytes."""
    text = text.encode()
    return number(len(text)) + text


def vector(items):
    """A count and the items."""
    return number(len(items)) + b"".join(items)


def section(ident, content):
    """A section: its id, its size and its content."""
    return bytes([ident]) + number(len(content)) + content


def function_import(module, field):
    """The import of a function of type 0."""
    return name(module) + name(field) + b"\0\0"


def types():
    """The type section with the one type 0, which takes and gives nothing."""
    return section(1, bytes.fromhex("01600000"))


def number_at(data, at):
    """An unsigned number of up to five bytes, and the index after it; a ValueError if there is none."""
    value = 0
    for position in range(min(5, len(data) - at)):
        byte = data[at + position]
        value |= (byte & 127) << 7 * position
        if byte < 128:
            return value, at + position + 1
    raise ValueError


def signed_at(data, at):
    """A signed number of any length, and the index after it."""
    value, shift = 0, 0
    while True:
        value |= (data[at] & 0x7F) << shift
        shift, at = shift + 7, at + 1
        if data[at - 1] < 0x80:
            return (value - (1 << shift) if data[at - 1] & 0x40 else value), at


def unsigned_at(data, at):
    """An unsigned number of any length, and the index after it."""
    value, after = signed_at(data, at)
    return value % (1 << 7 * (after - at)), after


def spans(data, at=8):
    """For each section that can be framed its id, and the indices of its id, its content and its end."""
    while at < len(data):
        try:
            size, start = number_at(data, at + 1)
        except ValueError:
            return
        if start + size > len(data):
            return
        yield data[at], at, start, start + size
        at = start + size


def sections(data, at=8):
    """The sections of a module or a component: ids and contents."""
    for id, _, start, end in spans(data, at):
        yield id, data[start:end]


def content(module, id):
    """The content of the first section with this id; that of one that counts no items if there is none."""
    return next((content for other, content in sections(module) if other == id), b"\0")


def name_at(data, at):
    """A name, and the index after it; a ValueError if there is none."""
    length, at = number_at(data, at)
    return data[at:at + length].decode(), at + length


def vector_at(data, at, read):
    """The items of a vector at an index, each read by a function that returns it and the index after it; and the index after them."""
    count, at = number_at(data, at)
    found = []
    for _ in range(count):
        item, at = read(data, at)
        found.append(item)
    return found, at


def items(data, read):
    """The items of a vector."""
    return vector_at(data, 0, read)[0]


def exported_names(module):
    """The names of a module's exports, as far as they can be read."""
    names = []
    for data in (content for id, content in sections(module) if id == 7):
        try:
            count, at = number_at(data, 0)
            for _ in range(count):
                text, at = name_at(data, at)
                _, at = number_at(data, at + 1)
                names.append(text)
        except ValueError:
            pass
    return names
