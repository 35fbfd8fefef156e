"""Texts of netlists in structural Verilog, token by token, as docs/FORMATS.md has them: for tools/testbench."""
import re

TOKEN = re.compile(
    r"""\s+|//[^\n]*|/\*.*?\*/|\(\*(?:"(?:\\.|[^"\\])*"|.)*?\*\)|`timescale[^\n]*"""
    r"""|(?P<name>\\[!-~]+|[A-Za-z_][A-Za-z0-9_$]*)|(?P<other>[0-9][0-9A-Za-z_']*|.)""",
    re.S,
)
KEYWORDS = "module endmodule input output wire assign and nand or nor xor xnor not buf".split()
DECLARING = ("input", "output", "wire")


def tokens_of(text):
    """The tokens, without white space, comments and attributes."""
    return [found[0] for found in TOKEN.finditer(text) if found.lastgroup]


def text_of(tokens):
    """The text of tokens, a statement a line."""
    return " ".join(token + "\n" if token == ";" else token for token in tokens).replace("\n ", "\n") + "\n"


def plain(token):
    """A name's one spelling, as canonical texts have it."""
    word = token.lstrip("\\")
    return word if re.fullmatch(r"[A-Za-z_][A-Za-z0-9_$]*", word) and word not in KEYWORDS else f"\\{word} "


def spelled(token):
    return token + " " if token.startswith("\\") else token


def number(token):
    return int(token.replace("_", ""))


def statements(tokens):
    """The statements of a module, each with its `;`; the first is the header, the last has `endmodule` too."""
    begin = 0
    for place, token in enumerate(tokens):
        if token == ";":
            yield tokens[begin : place + 1]
            begin = place + 1
    yield tokens[begin:]


def first_name(part):
    """The place of the first name that a declaration declares."""
    return part.index("]") + 1 if "[" in part else 1 + (part[1] == "wire")


def is_bit(tokens, place):
    """Whether a bit is picked by the tokens behind this one, as `[5]`."""
    return tokens[place + 1 : place + 2] == ["["] and tokens[place + 3 : place + 4] == ["]"]


class Vectors:
    """The wires and outputs with a range that stand bit by bit in all statements but their declarations."""

    def __init__(self, parts):
        self.ranges, self.outputs, self.whole = {}, set(), set()
        for part in parts[1:]:
            if part[:1] and part[0] in DECLARING:
                self.declare(part)
        for part in parts[1:]:
            if not part[:1] or part[0] not in DECLARING:
                self.use(part)
        names = {plain(token) for part in parts for token in part if token[0] == "\\"}
        self.whole |= {plain(token) for token in parts[0]} - self.outputs
        self.split = {
            name: [self.bit(name, k) for k in self.places(name)]
            for name in self.ranges.keys() - self.whole
            if names.isdisjoint(self.bit(name, k) for k in self.places(name))
        }

    @staticmethod
    def bit(name, k):
        """The name of the wire of a bit."""
        return f"\\{name.strip().lstrip(chr(92))}[{k}] "

    def places(self, name):
        left, right = self.ranges[name]
        return range(left, right + 1) if left <= right else range(left, right - 1, -1)

    def declare(self, part):
        if "[" not in part:
            return
        at = first_name(part)
        between = number(part[at - 4]), number(part[at - 2])
        for name in map(plain, part[at:-1:2]):
            if part[0] == "input" or self.ranges.get(name, between) != between:
                self.whole.add(name)
            self.ranges[name] = between
            if part[0] == "output":
                self.outputs.add(name)

    def use(self, part):
        for place, token in enumerate(part):
            if plain(token) in self.ranges and part[place - 1] != "." and not is_bit(part, place):
                self.whole.add(plain(token))


def split_vectors(tokens):
    """The same module with a wire for each bit of such vectors. Simulators take long for a wide vector that gates drive bit by bit."""
    parts = list(statements(tokens))
    split = (vectors := Vectors(parts)).split
    made = list(parts[0])
    for part in parts[1:-1]:
        made += declared(part, vectors) if part[0] in DECLARING else bit_by_bit(part, split)
    for name in sorted(split.keys() & vectors.outputs):
        made += ["assign", name.strip(), "=", "{", *separated(split[name]), "}", ";"]
    return made + parts[-1]


def separated(names):
    """The names with commas between them."""
    return [token for name in names for token in (",", name.strip())][1:]


def declared(part, vectors):
    """A declaration, with the wires of its vectors' bits in place of wires and behind outputs."""
    split = vectors.split
    at = first_name(part)
    names = part[at:-1:2]
    kept = [name for name in names if plain(name) not in split or part[0] == "output"]
    made = [*part[:at], *separated(kept), ";"] if kept else []
    for name in names:
        if plain(name) in split and (part[0] == "output" or plain(name) not in vectors.outputs):
            made += ["wire", *separated(split[plain(name)]), ";"]
    return made


def bit_by_bit(part, split):
    """A statement with the wires of bits in place of the vectors' bits."""
    made, place = [], 0
    while place < len(part):
        name = plain(part[place]) if place + 3 < len(part) and part[place + 1] == "[" else None
        if name in split and part[place - 1] != ".":
            made.append(Vectors.bit(name, number(part[place + 2])).strip())
            place += 4
        else:
            made.append(part[place])
            place += 1
    return made
