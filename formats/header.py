"""include/jeqlluna_title.h from the table of the formats: offsets, sizes and values, no code."""
import textwrap

WIDTH = 140
TOP = """/* Where the fields of the parameters, of an update's input and of a reply stand: offsets and sizes in bytes, and values by name.
 * All numbers are little-endian. A record's offsets count from its first byte. docs/FORMATS.md says in which sequence the records stand.
 * Made by formats/make from formats/table.txt; C99 and C++98, no code. */
#ifndef JEQLLUNA_TITLE_H
#define JEQLLUNA_TITLE_H
"""


def names(table):
    """Each name with its number and a comment, record by record: (name, number, comment)."""
    for r in table.records.values():
        yield from record_names(r)


def record_names(r):
    prefix = f"JEQLLUNA_{r.name.upper()}_"
    if r.open:
        yield prefix + "LEAST", f"{r.size:#x}", "bytes that it has at least"
    else:
        more = f", and {r.each[0]} bytes for each of its {r.each[1].replace('_', ' ')}" if r.each else ""
        yield prefix + "SIZE", f"{r.size:#x}", f"bytes of the record{more}"
    if r.padding:
        yield prefix + "PADDING", f"{r.padding[-1]:#x}", "bytes that may follow it, at most"
    digits = max(2, len(f"{r.size:x}"))
    for f in r.fields:
        if f.name:
            name = prefix + f.name.upper()
            yield name, f"0x{f.offset:0{digits}x}", f"{f.kind}{since(r, f)}: {' '.join(f.text)}"
            for value, number, meaning in f.values:
                yield f"{name}_{value.upper()}", f"{number:#x}" if number > 9 else str(number), f"value: {meaning}"


def since(r, f):
    """From which revision a field counts, where not every revision that has the record does."""
    least = f.acts.least if f.acts else f.read.least
    return f", from revision {least}" if least > r.revisions.least else ""


def define(name, number, comment):
    line = f"#define {name} {number} /* {comment} */"
    if len(line) <= WIDTH:
        return line
    return "\n".join(textwrap.wrap(f"/* {comment} */", WIDTH, subsequent_indent=" * ")) + f"\n#define {name} {number}"


def text(table):
    parts = [TOP]
    for r in table.records.values():
        about = "\n".join(textwrap.wrap(f"/* {' '.join(r.text)} */", WIDTH, subsequent_indent=" * "))
        parts.append("\n".join([about] + [define(*n) for n in record_names(r)]) + "\n")
    return "\n".join(parts + ["#endif\n"])
