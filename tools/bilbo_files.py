"""Reads what `bilbo compile IN PREFIX` writes: PREFIX.v, PREFIX.sched, PREFIX.sig and PREFIX.cert, as docs/FORMATS.md and
docs/NETLIST.md say. A text that isn't of its form is a `Bad`, with the number of the line. Numbers of nets are those of the original.
"""
import os
import re
import shutil
import subprocess
import sys
from dataclasses import dataclass, field

NUMBER = r"(0|[1-9][0-9]{0,9})"
HEX = r"([0-9a-f]{8})"
KINDS = ("input", "state", "split", "cut", "watch", "output")
SOURCES = ("input", "state", "split", "cut")
OBSERVERS = ("state", "cut", "watch", "output")
NAME = r"(?:[A-Za-z_][A-Za-z0-9_$]*|\\[!-~]+ )"
BIT = NAME + r"(?:\[[0-9]+\])?"
GATES = ("and", "nand", "or", "nor", "xor", "xnor", "not", "buf")


class Bad(Exception):
    """Why a tool can't go on, in one line."""


@dataclass
class Cell:
    kind: str
    net: int
    column: int
    register: int
    session: bool = False


@dataclass
class Schedule:
    width: int = 0
    degree: int = 0
    mask: int = 0
    masks: list = field(default_factory=list)  # of registers
    first: list = field(default_factory=list)  # each register's first cell
    cells: list = field(default_factory=list)  # the chain
    sessions: list = field(default_factory=list)  # registers that compact
    cycles: int = 0

    def register(self, number):
        """The numbers of a register's cells."""
        ends = self.first[1:] + [len(self.cells)]
        return range(self.first[number], ends[number])


@dataclass
class Netlist:
    module: str = ""
    ports: list = field(default_factory=list)
    variables: dict = field(default_factory=dict)  # name: role, left, right (both None for a scalar)
    gates: list = field(default_factory=list)  # operator (or "zero", "one"), output, inputs
    flops: list = field(default_factory=list)  # q, d
    clock: str = ""

    def bits(self, name):
        """A variable's bits from left to right, as they are written."""
        _, left, right = self.variables[name]
        if left is None:
            return [name]
        step = 1 if right >= left else -1
        return [f"{name}[{k}]" for k in range(left, right + step, step)]

    def drivers(self):
        """Each bit's gate, with operator and inputs."""
        return {out: (op, ins) for op, out, ins in self.gates}

    def original_nets(self):
        """The original's nets by number: the bits of its variables that have a driver, without the clock."""
        driven = {out for _, out, _ in self.gates} | {q for q, _ in self.flops}
        names = [n for n in self.variables if not n.startswith("bt_") or re.fullmatch(r"bt_w[0-9]+", n)]
        return [
            bit
            for name in names
            for bit in self.bits(name)
            if bit != self.clock and (self.variables[name][0] == "input" or bit in driven)
        ]

    def original_gates(self):
        """How many gates were there before: those in front of the controller's first one."""
        for place, (_, out, _) in enumerate(self.gates):
            if out == "bt_ni":
                return place
        return len(self.gates)


class Lines:
    """The lines of a text, taken one after the other."""

    def __init__(self, path):
        self.path, self.at = path, 0
        try:
            with open(path, encoding="ascii", newline="\n") as file:
                text = file.read()
        except OSError as error:
            raise Bad(f"{path}: {error.strerror}") from None
        except UnicodeDecodeError:
            raise Bad(f"{path}: a byte that is not ASCII") from None
        self.text = text
        self.lines = text.split("\n")
        self.whole = self.lines.pop() == ""

    def bad(self, want):
        raise Bad(f"{self.path}: line {self.at + 1} is not of the form `{want}`")

    def match(self, pattern):
        """The next line's parts, where it is of this form; it is then taken."""
        found = re.fullmatch(pattern, self.lines[self.at]) if self.at < len(self.lines) else None
        self.at += found is not None
        return found

    def take(self, pattern, want):
        return self.match(pattern) or self.bad(want)

    def number(self, word):
        if int(word) >= 1 << 32:
            self.at -= 1
            self.bad("a number below 4294967296")
        return int(word)

    def finish(self):
        self.take("end", "end")
        if self.at < len(self.lines) or not self.whole:
            self.bad("nothing behind `end` and its line feed")


def read_schedule(prefix):
    text, plan = Lines(prefix + ".sched"), Schedule()
    text.take("bilbo-schedule 1", "bilbo-schedule 1")
    plan.width = text.number(text.take(f"width {NUMBER}", "width N")[1])
    plan.degree = int(text.take("degree ([1-9]|1[0-9]|20)", "degree N, from 1 to 20")[1])
    plan.mask = int(text.take(f"mask {HEX}", "mask H")[1], 16)
    while found := text.match(f"register {HEX}"):
        plan.masks.append(int(found[1], 16))
        plan.first.append(len(plan.cells))
        while found := text.match(f"cell ({'|'.join(KINDS)}) {NUMBER} {HEX}"):
            plan.cells.append(Cell(found[1], text.number(found[2]), int(found[3], 16), len(plan.masks) - 1))
    while found := text.match(f"session((?: {NUMBER})*)"):
        plan.sessions.append([text.number(word) for word in found[1].split()])
        if any(r >= len(plan.masks) for r in plan.sessions[-1]):
            text.at -= 1
            text.bad("session R ..., each a register of the schedule")
    plan.cycles = int(text.take(r"cycles (0|[1-9][0-9]*)", "register H, cell K N H, session N ... or cycles N, in this order")[1])
    want = 1 + 2 * len(plan.sessions) * (1 << plan.degree)
    if plan.cycles != want:
        text.at -= 1
        text.bad(f"cycles {want}")
    text.finish()
    return plan


def read_signatures(prefix, plan):
    """Session by session, a signature for each register that compacts there."""
    text, sessions = Lines(prefix + ".sig"), []
    text.take("bilbo-signatures 1", "bilbo-signatures 1")
    for number, registers in enumerate(plan.sessions):
        text.take(f"session {number}", f"session {number}")
        values = {}
        for register in registers:
            values[register] = int(text.take(f"register {register} {HEX}", f"register {register} H")[1], 16)
            if values[register] >> len(plan.register(register)):
                text.at -= 1
                text.bad(f"register {register} H, with a bit for each of its cells")
        sessions.append(values)
    text.finish()
    return sessions


def read_certificate(prefix, plan):
    """For each observer's cell the source cells of its leaves, with their duals."""
    text, segments = Lines(prefix + ".cert"), {}
    text.take("bilbo-certificate 1", "bilbo-certificate 1")
    text.take(f"period {1 << plan.degree}", f"period {1 << plan.degree}")
    for number, cell in enumerate(plan.cells):
        if cell.kind not in OBSERVERS:
            continue
        words = text.take(f"segment {number}((?: {NUMBER} {HEX}){{0,16}})", f"segment {number} N H ...")[1].split()
        leaves = [(int(source), int(dual, 16)) for source, dual in zip(words[::2], words[1::2])]
        if any(source >= len(plan.cells) or plan.cells[source].kind not in SOURCES for source, _ in leaves):
            text.at -= 1
            text.bad(f"segment {number} N H ..., each N the cell of a source")
        segments[number] = leaves
    text.finish()
    return segments


def read_netlist(prefix):
    text, netlist = Lines(prefix + ".v"), Netlist()
    found = text.take(rf"module ({NAME}) \(((?:{NAME}, )*(?:{NAME})?)\);", "module NAME (PORT, PORT, ...);")
    netlist.module, netlist.ports = found[1], re.findall(NAME, found[2])
    while found := text.match(rf"(input|output|wire) (?:\[([0-9]+):([0-9]+)\] )?({NAME});"):
        ends = (None, None) if found[2] is None else (int(found[2]), int(found[3]))
        netlist.variables[found[4]] = (found[1], *ends)
    bit = re.compile(BIT)
    while found := text.match(rf"(?:({'|'.join(GATES)}) \(({BIT}(?:, {BIT})+)\);|assign ({BIT}) = 1'b([01]);)"):
        if found[1]:
            out, *ins = bit.findall(found[2])
            netlist.gates.append((found[1], out, ins))
        else:
            netlist.gates.append((("zero", "one")[int(found[4])], found[3], []))
    while found := text.match(rf"dff bt_f{len(netlist.flops)} \(({BIT}), ({BIT}), ({BIT})\);"):
        netlist.clock = netlist.clock or found[1]
        netlist.flops.append((found[2], found[3]))
    text.take("endmodule", "a declaration, a gate, a flip-flop or endmodule, in this order")
    if text.at < len(text.lines) or not text.whole:
        text.bad("nothing behind `endmodule` and its line feed")
    if "bt_so" not in netlist.ports:
        raise Bad(f"{prefix}.v: no port bt_so: this is no netlist with a self-test")
    return netlist


def cell_names(plan, netlist):
    """What each cell stands on: kind and net."""
    nets = netlist.original_nets()
    for number, cell in enumerate(plan.cells):
        if cell.net >= len(nets):
            raise Bad(f"cell {number} stands on net {cell.net}, and the netlist has {len(nets)} nets: schedule and netlist differ")
    return [f"{cell.kind} {nets[cell.net].strip()}" for cell in plan.cells]


def tool(name, why):
    """The path of a packaged tool."""
    path = shutil.which(name)
    if path is None:
        raise Bad(f"{name} is not installed, which {why}")
    return path


def run(words, folder=None):
    """Runs a tool and gives what it prints; its own words where it fails."""
    done = subprocess.run(words, cwd=folder, stdout=subprocess.PIPE, stderr=subprocess.STDOUT, text=True, check=False)
    if done.returncode != 0:
        raise Bad(f"{os.path.basename(words[0])} ended with status {done.returncode}:\n{done.stdout.strip()}")
    return done.stdout


def ends(main):
    """Runs a tool's main function; what is bad is told in one line, and the status is 2."""
    try:
        sys.exit(main())
    except Bad as bad:
        print(f"{os.path.basename(sys.argv[0])}: {bad}", file=sys.stderr)
        sys.exit(2)
    except BrokenPipeError:
        sys.exit(2)
