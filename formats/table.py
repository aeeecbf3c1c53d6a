"""The table of the formats (formats/table.txt): read, and tested for whether it agrees with itself and names definitions that exist."""
import re

WIDTHS = {"u8": 1, "flag": 1, "u16": 2, "u32": 4, "i32": 4, "f32": 4, "u64": 8}
REPLY = "reply"
UPDATE = "update"
PARAMETERS = "parameters"


class Wrong(Exception):
    """What is wrong with the table, with the line's number."""


class Revisions:
    """`all`, `N..`, each with `& MASK` where only some bits count."""

    def __init__(self, text):
        m = re.fullmatch(r"(all|(\d+)\.\.)(?: & (0x[0-9a-f]+|\d+))?", text)
        if not m:
            raise Wrong(f"revisions are `all` or `N..`, not `{text}`")
        self.least = int(m.group(2) or 0)
        self.mask = int(m.group(3), 0) if m.group(3) else None

    def within(self, other):
        """Whether these revisions, and these bits, are among others."""
        return self.least >= other.least and (other.mask is None or self.mask is not None and self.mask & ~other.mask == 0)


class Values:
    """What a field of a reply may hold: the least and the most, or any number."""

    def __init__(self, text):
        m = re.fullmatch(r"(any)|= (0x[0-9a-f]+|\d+)|(0x[0-9a-f]+|\d+)\.\.(0x[0-9a-f]+|\d+)", text)
        if not m:
            raise Wrong(f"values are `any`, `= N` or `LEAST..MOST`, not `{text}`")
        self.always = int(m.group(2), 0) if m.group(2) else None
        self.least, self.most = (int(m.group(3), 0), int(m.group(4), 0)) if m.group(3) else (self.always, self.always)
        if not m.group(1) and self.least > self.most:
            raise Wrong(f"the least value is above the most: `{text}`")


class Field:
    """A line of a record: bytes from `offset` on. `name` is empty where nothing reads, or writes, them."""

    def __init__(self, line, cells, reply):
        self.line, self.text, self.values = line, [], []
        self.offset, self.width, self.kind, self.name = int(cells[0], 0), cells[1], cells[2], ""
        if cells[2] == ("zero" if reply else "reserved") and len(cells) == 3:
            return
        if len(cells) != 7:
            raise Wrong("a field has seven columns, or three where it is " + ("`zero`" if reply else "`reserved`"))
        self.read = Revisions(cells[3])
        self.acts, self.holds = (None, Values(cells[4])) if reply else (Revisions(cells[4]), None)
        self.name, self.definition = cells[5], cells[6].split()
        m = re.fullmatch(r"(\w+)(?:\[(\w+)\])?", self.kind)
        if not m:
            raise Wrong(f"`{self.kind}` is no kind")
        self.base, self.times = m.group(1), m.group(2)


class Record:
    def __init__(self, line, name):
        self.line, self.name, self.text, self.fields, self.keys = line, name, [], [], {}

    def settle(self):
        """The keys' meanings, when the record is read whole."""
        missing = {"size", "count", "defined"} - self.keys.keys()
        if missing or self.keys.keys() - {"size", "count", "defined", "padding", "section", "revisions"}:
            raise Wrong(f"record {self.name}: keys are missing, {sorted(missing)}, or unknown, {sorted(self.keys)}")
        size = re.fullmatch(r"(least )?(0x[0-9a-f]+|\d+)(?: \+ (\d+) \* (\w+))?", self.keys["size"])
        if not size:
            raise Wrong(f"record {self.name}: `{self.keys['size']}` is no size")
        self.open, self.size = bool(size.group(1)), int(size.group(2), 0)
        self.each = (int(size.group(3)), size.group(4)) if size.group(3) else None
        self.padding = [int(n, 0) for n in self.keys.get("padding", "").split()]
        self.count, self.section = self.keys["count"], self.keys.get("section")
        self.revisions = Revisions(self.keys.get("revisions", "all"))
        self.definition = self.keys["defined"].split()

    def field(self, name):
        return next((f for f in self.fields if f.name == name), None)


class Table:
    def __init__(self, path):
        self.records, self.sequences = {}, {}
        at, owner = None, None
        for number, line in enumerate(path.read_text().split("\n"), 1):
            try:
                at, owner = self.take(number, line, at, owner)
            except (Wrong, ValueError) as e:
                raise Wrong(f"{path.name}:{number}: {e}") from None
        for r in self.records.values():
            r.settle()

    def take(self, number, line, at, owner):
        """One line. `at` is the record that it stands in, `owner` what an indented line is about."""
        if not line.strip() or line.startswith("#"):
            return at, owner
        if line.startswith("    ") and owner:
            owner.text.append(line.strip())
        elif m := re.fullmatch(r"sequence (\w+): (.+)", line):
            self.sequences[m.group(1)] = m.group(2).split()
        elif m := re.fullmatch(r"record (\w+)", line):
            if m.group(1) in self.records:
                raise Wrong(f"there are two records {m.group(1)}")
            at = owner = self.records[m.group(1)] = Record(number, m.group(1))
        elif at and (m := re.fullmatch(r"(\w+): (.+)", line)):
            at.keys[m.group(1)] = m.group(2)
        elif at and (m := re.fullmatch(r"= (\w+) \| (0x[0-9a-f]+|\d+) \| (.+)", line)) and isinstance(owner, Field):
            owner.values.append((m.group(1), int(m.group(2), 0), m.group(3)))
        elif at and re.match(r"0x[0-9a-f]+ \| ", line):
            owner = Field(number, [c.strip() for c in line.split(" | ")], at.name in self.sequences.get(REPLY, []))
            at.fields.append(owner)
        else:
            raise Wrong(f"this line means nothing here: {line}")
        return at, owner

    def nested(self, name):
        return [f for r in self.records.values() for f in r.fields if f.name and f.base == name]
