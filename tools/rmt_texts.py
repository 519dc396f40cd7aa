"""Programs, entries, packet lines and maps, read for the tools beside this file.

docs/language.md has the forms of the texts and docs/image.md that of a map. A text is taken to be one that the program
takes; what isn't understood is a Fault, whose text names the file and the line.
"""

import re
from collections import namedtuple

# White space and comments, and then a name, a number or a sign.
TOKEN = re.compile(rb"(?:[ \t\n\r]|//[^\n]*)*([A-Za-z_][A-Za-z0-9_]*|[0-9][0-9A-Za-z]*|==|[{}():;,.=+*&|^-])")
BLANK = re.compile(rb"(?:[ \t\n\r]|//[^\n]*)*\Z")
NAME = re.compile(rb"[A-Za-z_]")
PACKET = re.compile(rb"([0-9]{1,10}) ((?:[0-9A-Fa-f]{2}){1,9216})\Z")

# Outcomes of a node: a miss, or an `if` that doesn't hold; a hit with the first action of the list, or an `if` that holds.
MISS, FIRST = 1, 2

# A field of a program: its name, as the program prints it, and its bits.
Field = namedtuple("Field", "name bits")
# A table: its kind is empty without a key; the key is the fields' names, the default the text of its call.
Table = namedtuple("Table", "name kind key actions default")
# An `apply` or an `if`: a table or a test of a field, mask and value; the node and its outcomes under which it runs.
Node = namedtuple("Node", "name table test parent outcomes")
# An entry: a value and a mask for each field of the key, and what of those that match is taken, the least first.
Entry = namedtuple("Entry", "number table line keys rank action")
# A lane of the vector, and a part of a table or gate.
Lane = namedtuple("Lane", "word low bits")
Part = namedtuple("Part", "node stage quanta")
Cell = namedtuple("Cell", "entry stage cell")


class Fault(Exception):
    """What isn't understood."""


def read(path):
    with open(path, "rb") as file:
        return file.read()


def number_of(word):
    """The number that a word writes, or None."""
    if re.fullmatch(rb"[0-9]+", word):
        return int(word)
    return int(word[2:], 16) if re.fullmatch(rb"0x[0-9A-Fa-f]+", word) else None


def tokens_of(text):
    """The tokens of a program's text, each with its place."""
    tokens, at = [], 0
    while not BLANK.match(text, at):
        match = TOKEN.match(text, at)
        if not match:
            line = text.count(b"\n", 0, at) + 1
            raise Fault(f"program, line {line} or behind it: no token")
        tokens.append((match.group(1), match.start(1)))
        at = match.end()
    return tokens


class Program:
    """What a program declares, in the order of its text."""

    def __init__(self, text):
        self.text, self.tokens, self.at = text, tokens_of(text), 0
        self.headers = []  # names
        self.tables = {}  # by name
        self.nodes = []
        header_fields, metadata = [], []
        while self.at < len(self.tokens):
            self.declaration(header_fields, metadata)
        ports = [Field("in_port", 9), Field("out_port", 9), Field("drop", 1)]
        self.fields = ports + header_fields + metadata
        self.bits = {field.name: field.bits for field in self.fields}

    def word(self):
        return self.tokens[self.at][0] if self.at < len(self.tokens) else b""

    def fault(self, wanted):
        here = self.tokens[self.at][1] if self.at < len(self.tokens) else len(self.text)
        line = self.text.count(b"\n", 0, here) + 1
        stands = f"`{self.word().decode()}` stands" if self.word() else "the text ends"
        raise Fault(f"program, line {line}: {stands} where {wanted} is wanted")

    def take(self, *words):
        """Passes over these words."""
        for word in words:
            if self.word() != word:
                self.fault(f"`{word.decode()}`")
            self.at += 1

    def takes(self, word):
        """Passes over a word where it stands here, and says whether it does."""
        is_here = self.word() == word
        self.at += is_here
        return is_here

    def name(self):
        if not NAME.match(self.word()):
            self.fault("a name")
        self.at += 1
        return self.tokens[self.at - 1][0].decode()

    def number(self):
        number = number_of(self.word())
        if number is None:
            self.fault("a number")
        self.at += 1
        return number

    def skip_to(self, *signs):
        """Passes over what stands before one of these signs."""
        while self.word() not in signs:
            if not self.word():
                self.fault(" or ".join(f"`{sign.decode()}`" for sign in signs))
            self.at += 1

    def declaration(self, header_fields, metadata):
        word = self.word()
        self.at += 1
        if word == b"header":
            self.header(header_fields)
        elif word == b"meta":
            self.take(b"{")
            metadata += self.declared("meta")
            self.take(b"}")
        elif word == b"action":
            self.skip_to(b"}")
            self.take(b"}")
        elif word == b"table":
            self.table()
        elif word == b"control":
            self.block(None, frozenset())
        else:
            self.at -= 1
            self.fault("a declaration")

    def declared(self, space):
        """The fields that are declared here."""
        fields = []
        while self.word() not in (b"}", b"tail"):
            name = self.name()
            self.take(b":")
            fields.append(Field(f"{space}.{name}", self.number()))
            self.take(b";")
        return fields

    def header(self, fields):
        name = self.name()
        self.headers.append(name)
        self.take(b"{")
        fields.append(Field(f"{name}.valid", 1))
        fields += self.declared(name)
        self.skip_to(b"}")
        self.take(b"}", b"next")
        if self.word() == b"(":
            self.skip_to(b"}")
            self.take(b"}")
        else:
            self.skip_to(b";")
            self.take(b";")

    def field(self):
        """The name of a field that is named here."""
        name = self.name()
        return f"{name}.{self.name()}" if self.takes(b".") else name

    def listed(self, item):
        """Items with commas between them, up to a semicolon."""
        items = [item()]
        while self.takes(b","):
            items.append(item())
        self.take(b";")
        return items

    def table(self):
        name = self.name()
        self.take(b"{")
        kind, key, actions = "", [], []
        if self.word() in (b"exact", b"prefix", b"ternary"):
            kind = self.name()
            key = self.listed(self.field)
            self.take(b"actions")
            actions = self.listed(self.name)
            self.skip_to(b"default")
        self.take(b"default")
        default = self.at
        self.skip_to(b";")
        call = b"".join(word for word, _ in self.tokens[default : self.at]).decode().replace(",", ", ")
        self.take(b";", b"}")
        self.tables[name] = Table(name, kind, key, actions, call)

    def block(self, parent, outcomes):
        """The nodes of a block, which run where a node has one of some outcomes."""
        self.take(b"{")
        while not self.takes(b"}"):
            if self.takes(b"apply"):
                self.apply(parent, outcomes)
            elif self.takes(b"if"):
                self.gate(parent, outcomes)
            else:
                self.fault("`apply`, `if` or `}`")

    def add(self, name, table, test, parent, outcomes):
        self.nodes.append(Node(name, table, test, parent, outcomes))
        return len(self.nodes) - 1

    def apply(self, parent, outcomes):
        name = self.name()
        if name not in self.tables:
            self.at -= 1
            self.fault("a table that is declared before it")
        node = self.add(name, self.tables[name], None, parent, outcomes)
        if self.takes(b";"):
            return
        actions = self.tables[name].actions
        left = set(range(MISS, FIRST + len(actions)))
        self.take(b"{")
        while not self.takes(b"}"):
            arm = self.name()
            taken = {"miss": {MISS}, "hit": left - {MISS}}.get(arm)
            if taken is None and arm in actions:
                taken = {FIRST + actions.index(arm)}
            taken = left & (taken or set())
            left -= taken
            self.block(node, frozenset(taken))

    def gate(self, parent, outcomes):
        self.take(b"(")
        field = self.field()
        mask = self.number() if self.takes(b"&") else -1
        self.take(b"==")
        test = (field, mask, self.number())
        self.take(b")")
        node = self.add(f"gate{len(self.nodes)}", None, test, parent, outcomes)
        self.block(node, frozenset([FIRST]))
        if self.takes(b"else"):
            self.block(node, frozenset([MISS]))


def lines_of(text):
    """The lines of an entry or packet text that aren't passed over, each with its number."""
    for number, line in enumerate(text.split(b"\n"), 1):
        if line.strip(b" ") and not line.startswith(b"#"):
            yield number, line


def pattern_of(kind, word, bits):
    """The value and the mask that a word of a key writes, for a field of so many bits."""
    whole = (1 << bits) - 1
    if kind == "ternary" and word == b"*":
        return 0, 0
    sign = {"prefix": b"/", "ternary": b"&"}.get(kind)
    value, found, other = word.partition(sign) if sign else (word, b"", b"")
    value, other = number_of(value), number_of(other) if found else whole
    if value is None or other is None:
        return None
    mask = whole & ~(whole >> other) if kind == "prefix" else other
    return value, mask


def entry_of(number, line, program):
    """The entry of a line, or None."""
    words = [word for word in line.split(b" ") if word]
    table = program.tables.get(words[0].decode("ascii", "replace"))
    ranked = table is not None and table.kind == "ternary"
    if table is None or len(words) < len(table.key) + 2 + ranked:
        return None
    rank = number_of(words[1]) if ranked else 0
    key = words[1 + ranked : 1 + ranked + len(table.key)]
    keys = [pattern_of(table.kind, word, program.bits[field]) for word, field in zip(key, table.key)]
    action = words[1 + ranked + len(table.key)].decode("ascii", "replace")
    if rank is None or None in keys or action not in table.actions:
        return None
    if table.kind == "prefix":
        rank = -bin(keys[0][1]).count("1")
    return Entry(number, table.name, line.decode("ascii", "replace"), keys, rank, action)


def entries_of(text, program):
    """The entries of a text, by their numbers."""
    entries = []
    for place, line in lines_of(text):
        entry = entry_of(len(entries), line, program)
        if entry is None:
            raise Fault(f"entries, line {place}: it is no entry of the program")
        entries.append(entry)
    return entries


def packet_of(text, number):
    """The port and the frame, in digits, of the packet of a number."""
    count = 0
    for place, line in lines_of(text):
        if line == b"commit" or line.startswith((b"+ ", b"- ")):
            raise Fault(f"packets, line {place}: it changes entries, and only packets are followed")
        match = PACKET.match(line)
        if not match or int(match[1]) > 511:
            raise Fault(f"packets, line {place}: it is no packet")
        if count == number:
            return int(match[1]), match[2].decode()
        count += 1
    raise Fault(f"packets: there is no packet {number}, for they are {count}, counted from 0")


def word_bits(word):
    """How many bits a word of the vector has."""
    return 8 if word < 64 else 16 if word < 160 else 32


class Map:
    """Where the fields, nodes and entries of a program stand in a configuration, as the bytes of a map tell."""

    def __init__(self, data):
        self.data, self.at = data, 0
        if data[:4] != b"RMTM":
            raise Fault("it is no map: it doesn't begin with the letters RMTM; `compile PROGRAM ENTRIES IMAGE MAP` writes one")
        self.at = 4
        if self.number(2) != 1:
            raise Fault("it is no map: its version is not 1")
        self.fields = [[self.lane() for _ in range(self.number(1))] for _ in range(self.number(4))]
        self.joins = [(self.number(1), self.number(2)) for _ in range(self.number(2))]
        self.parts = [Part(self.number(1), self.number(1), self.number(2)) for _ in range(self.number(2))]
        self.starts = [self.number(2) for _ in range(self.number(1))]
        self.cells = [Cell(self.number(4), self.number(1), self.number(4)) for _ in range(self.number(4))]
        if self.at != len(data):
            raise Fault("it is no map: bytes stand behind its end")

    def number(self, size):
        """The next number, of so many bytes."""
        self.at += size
        if self.at > len(self.data):
            raise Fault("it is no map: it ends too early")
        return int.from_bytes(self.data[self.at - size : self.at], "big")

    def lane(self):
        lane = Lane(self.number(1), self.number(1), self.number(1))
        if lane.word > 223 or not 1 <= lane.bits <= 32 or lane.low + lane.bits > word_bits(lane.word):
            raise Fault("it is no map: a lane lies in no word of the vector")
        return lane

    def must_belong_to(self, program):
        """Refuses the map of another program, as far as names and widths tell."""
        if [sum(lane.bits for lane in lanes) for lanes in self.fields] != [field.bits for field in program.fields]:
            raise Fault("it is the map of another program: its fields are others")
        if {part.node for part in self.parts} != set(range(len(program.nodes))):
            raise Fault("it is the map of another program: its tables and gates are others")
        if any(place.stage >= len(self.starts) for place in self.parts + self.cells):
            raise Fault("it is the map of no program: a stage has no start")


def map_of(path, program):
    """The map of a file, which belongs to a program."""
    try:
        found = Map(read(path))
        found.must_belong_to(program)
    except Fault as fault:
        raise Fault(f"{path}: {fault}") from None
    return found
