"""Whether a table of the formats agrees with itself and with the definitions that it names."""
import re

from table import PARAMETERS, REPLY, UPDATE, WIDTHS, Wrong

NAME = re.compile(r"[a-z][a-z0-9_]*")


def demand(true, line, words):
    if not true:
        raise Wrong(f"table.txt:{line}: {words}")


def covered(table, r):
    """Each byte of a record stands in exactly one line: no gap, no overlap, and the widths add up to the size."""
    end = 0
    for f in r.fields:
        demand(f.offset == end, f.line, f"{r.name} has {'a gap' if f.offset > end else 'an overlap'}: {f.offset:#x} comes behind {end:#x}")
        if r.each and f is r.fields[-1]:
            each, by = r.each
            whole = f.width == f"{each} * {by}" and f.times == by and width_of(table, f.base) == each
            demand(whole, f.line, "the last field is not as long as the size says")
            demand(r.field(by) is not None and end == r.size, f.line, f"{r.name} ends its fixed part at {end:#x}, not {r.size:#x}")
            return
        width = int(f.width, 0)
        demand(width > 0, f.line, "a field has at least one byte")
        if f.name:
            one = width_of(table, f.base)
            demand(one, f.line, f"`{f.base}` is no kind")
            demand(width == one * int(f.times or 1), f.line, f"{f.kind} has {one * int(f.times or 1):#x} bytes, not {width:#x}")
            demand(f.offset % min(one, 8) == 0 or f.base not in WIDTHS, f.line, f"{r.name}.{f.name} is not aligned")
        end += width
    demand(end == r.size, r.line, f"the fields of {r.name} end at {end:#x}, its size is {r.size:#x}")


def width_of(table, kind):
    return WIDTHS.get(kind) or (table.records[kind].size if kind in table.records else 0)


def fields_say(table, r):
    """Names, revisions, values and sentences."""
    names = set()
    demand(r.text and r.text[-1].endswith("."), r.line, f"no sentence says what {r.name} is")
    demand(r.padding == sorted(set(r.padding)), r.line, f"the padding of {r.name} does not rise")
    for f in r.fields:
        if not f.name:
            demand(not f.values, f.line, "bytes without a name have no named values")
            continue
        demand(NAME.fullmatch(f.name) and f.name not in names, f.line, f"`{f.name}` is no name, or stands twice in {r.name}")
        names.add(f.name)
        demand(f.text and f.text[-1].endswith("."), f.line, f"no sentence says what {r.name}.{f.name} does")
        demand(f.read.least >= r.revisions.least, f.line, f"{r.name}.{f.name} is there before its record")
        top = 1 << 8 * WIDTHS.get(f.base, 0)
        for mask in (f.read.mask, f.acts and f.acts.mask):
            demand(mask is None or 0 < mask < top and not f.times, f.line, f"the mask of {r.name}.{f.name} is not within its width")
        demand(not f.acts or f.acts.within(f.read), f.line, f"{r.name}.{f.name} acts where it is not read")
        demand(not f.holds or f.holds.most is None or f.holds.most < top, f.line, f"{r.name}.{f.name} has no room for its values")
        for name, value, _ in f.values:
            demand(NAME.fullmatch(name) and value < top, f.line, f"{r.name}.{f.name} has no room for {name}")


def placed(table):
    """Every record has its place: in a sequence, in another record, or as the parameters; and every section its size in the header."""
    demand(set(table.sequences) == {UPDATE, REPLY}, 1, "the sequences are those of an update and of a reply")
    demand(PARAMETERS in table.records, 1, "there are no parameters")
    stand = [PARAMETERS] + [n for s in table.sequences.values() for n in s]
    for r in table.records.values():
        demand(stand.count(r.name) + bool(table.nested(r.name)) == 1, r.line, f"{r.name} stands nowhere, or in two places")
        counted(table, r)
    for names in table.sequences.values():
        demand(all(n in table.records for n in names), 1, f"a sequence names a record that there is not: {' '.join(names)}")
        head, sections = table.records[names[0]], []
        for r in (table.records[n] for n in names[1:]):
            demand(not r.section or head.field(r.section), r.line, f"{head.name} has no field {r.section}")
            if r.section and sections[-1:] != [r.section]:
                sections.append(r.section)
        sizes = {f.name for f in head.fields if f.name.endswith("_size") and f.name != "total_size"}
        right = len(sections) == len(set(sections)) and set(sections) == sizes
        demand(right, head.line, f"the sizes in {head.name} are not those of the sections")


def counted(table, r):
    """How many there are: numbers, fields of the parameters, or RECORD.FIELD."""
    for word in re.findall(r"[^\s+*]+", r.count):
        record, _, name = word.rpartition(".")
        owner = table.records.get(record or PARAMETERS)
        demand(word.isdigit() or owner and owner.field(name), r.line, f"the count of {r.name} names {word}, which is no field")


def body(top, definition, line):
    """The text of a definition: from where its name is declared to the next empty line."""
    demand(len(definition) == 3, line, f"a definition is a crate, a file and a name, not `{' '.join(definition)}`")
    crate, file, name = definition
    path = top / "crates" / crate / "specs" / f"{file}.antt"
    demand(path.is_file(), line, f"there is no file crates/{crate}/specs/{file}.antt")
    m = re.search(rf"^[ ]*(?:(?:unfoldable|abbrev) )?pub {re.escape(name)} :.*?(?=\n\n|\Z)", path.read_text(), re.M | re.S)
    demand(m, line, f"crates/{crate}/specs/{file}.antt has no `{name}`")
    return m.group(0)


def defined(top, table):
    """Every definition is there; one that reads a field has its offset among its numbers, and a record's its size."""

    def has(text, number):
        return number == 0 or number in {int(n, 0) for n in re.findall(r"\b(?:0x[0-9a-f]+|[1-9]\d*)\b", text)}

    for r in table.records.values():
        text = body(top, r.definition, r.line)
        right = r.open or r.name == PARAMETERS or has(text, r.size)
        demand(right, r.line, f"`{r.definition[2]}` has no number {r.size:#x}, the size of {r.name}")
        for f in (f for f in r.fields if f.name):
            text = body(top, f.definition, f.line)
            right = f.holds or has(text, f.offset)
            demand(right, f.line, f"`{f.definition[2]}` has no number {f.offset:#x}, the offset of {r.name}.{f.name}")


def agree(top, table):
    placed(table)
    for r in table.records.values():
        covered(table, r)
        fields_say(table, r)
    defined(top, table)
