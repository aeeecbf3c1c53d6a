"""docs/FORMATS.md from the table of the formats."""
from table import PARAMETERS, REPLY, UPDATE

TOP = """# The formats

What stands at which offset of the parameters, of an update's input and of a reply. Made by `formats/make` from `formats/table.txt`, and
held to the proved code by `formats/flip`, which changes each byte of each record in turn. `include/jeqlluna_title.h` has the same
offsets, sizes and values as `#define`s.

All numbers are little-endian. u8 to u64 are numbers, i32 is one with a sign, f32 a 32-bit float; a flag is a byte, 0 for no and
anything else for yes. A field that reaches past the end of the bytes reads as 0. Bytes that are not read may hold anything.

**Revisions.** The parameters' revision word says which revision the title speaks: its highest byte less 48 ("0"), going round at 2^32,
so that a word of 0 is above every revision. A field has its meaning in all revisions, or from one on; some are kept before that,
without effect.

**Counts.** How many records a section has follows from the parameters, as the two tables below say. How many splitters, destinations
and, from revision 7 on, mixes are sent stands in the header of their section.

## An update's input

It begins with a header that has the sizes of sections, and these follow without a gap, in this sequence:

{update}

Each section begins where the one before it ends, by the header's sizes, whatever stands there; one that reaches past the input's end is
empty. Records that are missing, or not whole, change nothing, but a voice without a record is no longer in use; those beyond the count
are not read. The splitters have no size in the header: where their magic stands they end behind the last record, at the next multiple
of 16 bytes from their beginning; elsewhere they have no byte. The mixes begin there. What stands behind the sinks is not read.

**No bytes.** An input of length 0 asks how far the voices have played. Nothing changes by it, no voice goes out of use, and the reply
has `played` and `consumed` of each voice as they stand. Pools read 0 and effects 4, as where their sections are missing; the rest of
the reply is as ever. An input of one byte is an update like any other: its sections are empty, and every voice goes out of use.

## A merged block

`jeqlluna_merge` makes one input of a title's and a click track's. It has these parts, one behind the other:

| part | bytes | from |
|---|---|---|
| `update_header` | 0x40 | the title, but for `voices_size`, 0x170 × `voices`, and `channel_resources_size`, 0x70 × `voices` |
| `behaviour`, `pool` | as many as this header says | the title |
| `channel_resource` | 0x70 × `voices` | each from the click where one of its voices in use names it, else from the title |
| `voice` | 0x170 × `voices` | each from the block in which it is in use; zeros where it is in use in neither |
| `effect` and all that follows | what is left | the title, from its effects on, by the sizes of its own header |

Bytes that a block lacks are 0; of a voice that is not whole nothing is taken. Other fields of the header, those that are not read among
them, are the title's.

## A reply

Its length is that of all sections below; the effects share what the expected size leaves beyond the others, as many whole bytes for
each.

{reply}
"""


def listed(table, sequence):
    """The sequence as a table: record, how many, bytes of each, which field has the section's size."""
    head = table.sequences[sequence][0]
    rows = ["| section | records | bytes of each | size of the section | revisions |", "|---|---|---|---|---|"]
    for name in table.sequences[sequence]:
        r = table.records[name]
        where = f"`{r.section}` of `{head}`" if r.section else "told by its records" if name != head else "fixed"
        rows.append(f"| [`{name}`](#{name}) | {counted(r)} | {sized(r)} | {where} | {revisions(r.revisions)} |")
    return "\n".join(rows)


def counted(r):
    words = r.count.split()
    return " ".join(w if w in "+*" or w.isdigit() else f"`{w}`" for w in words).replace("*", "×")


def sized(r):
    size = f"at least {r.size}" if r.open else plain(r.size)
    if r.each:
        size += f" + {r.each[0]} × `{r.each[1]}`"
    if len(r.padding) == 1:
        size += f", or {r.padding[0]:#x} more"
    elif r.padding:
        size += f", or up to {r.padding[-1]:#x} more by {r.padding[0]:#x}"
    return size


def plain(n):
    return str(n) if n < 16 else f"{n:#x}"


def revisions(which):
    return "all" if which.least == 0 else f"from {which.least}"


def bits(mask):
    return "" if mask is None else f", bits {mask:#x}"


def when(f):
    """From which revision a field of the input counts."""
    if not f.acts or f.acts.least == f.read.least and f.acts.mask == f.read.mask:
        return revisions(f.read) + bits(f.read.mask)
    rest = ["before"] if f.acts.least > f.read.least else []
    rest += ["other bits"] if f.acts.mask != f.read.mask else []
    return f"{revisions(f.acts)}{bits(f.acts.mask)}; {' and '.join(rest)}: kept, without effect"


def holds(f):
    v = f.holds
    if v.always is not None:
        return f"always {v.always:#x}"
    return "any" if v.most is None else f"{v.least:#x} to {v.most:#x}"


def row(r, f, reply):
    digits = max(2, len(f"{r.size:x}"))
    width = f.width.replace("*", "×") if "*" in f.width else plain(int(f.width, 0))
    start = f"| 0x{f.offset:0{digits}x} | {width} |"
    if not f.name:
        words = " ".join(f.text) or ("Always 0." if reply else "Not read.")
        return f"{start} | | | {words} | |"
    words = " ".join(f.text) + "".join(f"<br>{plain(n)} `{name}`: {meaning}" for name, n, meaning in f.values)
    said = f"{revisions(f.read)}, {holds(f)}" if reply else when(f)
    crate, file, name = f.definition
    return f"{start} {f.kind} | {said} | `{f.name}` | {words} | `{name}` ({crate} {file}) |"


def section(table, r):
    reply = r.name in table.sequences[REPLY]
    inside = "; ".join(f"{f.times} in each `{o.name}`" for o in table.records.values() for f in o.fields if f.name and f.base == r.name)
    facts = [f"Bytes: {sized(r)} (`{r.definition[2]}`, {r.definition[0]} {r.definition[1]}).", f"How many: {inside or counted(r)}."]
    if r.revisions.least:
        facts.append(f"From revision {r.revisions.least} on.")
    out = [f"### {r.name}", "", " ".join(r.text), "", " ".join(facts), ""]
    if not r.fields:
        return "\n".join(out)
    said = "revisions, values" if reply else "revisions"
    by = "written by" if reply else "read by"
    out += [f"| offset | bytes | kind | {said} | name | what it does | {by} |", "|---|---|---|---|---|---|---|"]
    out += [row(r, f, reply).replace("|  |", "| |") for f in r.fields]
    if r.open:
        out.append(f"| 0x{r.size:02x} | the rest | | | | {'Always 0.' if reply else 'Not read.'} | |")
    elif r.each:
        out.append(f"| behind them | 0 or {r.padding[-1]:#x} | | | | Not read, but no magic may stand there. | |")
    elif r.padding:
        out.append(f"| 0x{r.size:02x} | up to {r.padding[-1]:#x} | | | | Not read, but no magic may stand there. | |")
    return "\n".join(out + [""])


def text(table):
    top = TOP.format(update=listed(table, UPDATE), reply=listed(table, REPLY))
    order = [("The parameters", [PARAMETERS]), ("Records of an update", []), ("Records of a reply", table.sequences[REPLY])]
    for name in table.sequences[UPDATE]:
        order[1][1].extend([name] + [n for n in table.records if any(f.base == n for f in table.records[name].fields if f.name)])
    parts = [top]
    for title, names in order:
        parts.append(f"## {title}\n")
        parts += [section(table, table.records[n]) for n in names]
    return "\n".join(parts).rstrip("\n") + "\n"
