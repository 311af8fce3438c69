"""A small assembler of S/370 machine code, for the guest of this folder (guest.asm).

assembled(text)   the bytes that its lines stand for, from address 0, and the addresses of its names

A line is a name in the first column, or none; an operation; its operands, and remarks. One that begins with * is a remark. Operations are
those below, the branches with their conditions in the name, and DC, DS, EQU, ORG, CCW and USING as assemblers of the field have them: DC and
DS take X, C, F, H, D and A, USING takes one register. An expression is a sum or a difference of names, numbers, X'..', C'.' and *.
"""
import re

RR = {"BCTR": 0x06, "BCR": 0x07, "BALR": 0x05, "LTR": 0x12, "LR": 0x18, "AR": 0x1A, "SR": 0x1B}
RX = {
    "LA": 0x41, "STC": 0x42, "IC": 0x43, "BAL": 0x45, "BCT": 0x46, "BC": 0x47, "LH": 0x48, "STH": 0x40, "AH": 0x4A, "SH": 0x4B, "ST": 0x50,
    "N": 0x54, "L": 0x58, "S": 0x5B,
}
SI = {"TM": 0x91, "MVI": 0x92, "CLI": 0x95, "XI": 0x97}
SS = {"MVC": 0xD2, "CLC": 0xD5, "XC": 0xD7}
S = {"LPSW": 0x8200, "SIO": 0x9C00}
CONDITIONS = {"": 15, "E": 8, "NE": 7, "Z": 8, "NZ": 7, "O": 1, "NO": 14, "P": 2, "NP": 13, "M": 4}
BRANCHES = {f"B{name}": mask for name, mask in CONDITIONS.items()}
RETURNS = {f"B{name}R": mask for name, mask in CONDITIONS.items()}
# Of a constant: where it is aligned, and its length.
KINDS = {"X": (1, 0), "C": (1, 0), "H": (2, 2), "F": (4, 4), "A": (4, 4), "D": (8, 8)}
OPERATION_LINE = re.compile(r"(\S*)\s+(\S+)(?:\s+((?:'[^']*'|\S)+))?")
TERM = re.compile(r"([+-]?)(X'[0-9A-F]+'|C'[^']'|[A-Z][A-Z0-9]*|[0-9]+|\*)")
CONSTANT = re.compile(r"(\d*)([XCHFAD])(?:'([^']*)'|\(([^)]*)\))?")


class Line:
    """A line that stands for bytes: its address, its operation and its operands."""

    def __init__(self, number, address, operation, operands):
        self.number, self.address, self.operation, self.operands = number, address, operation, operands


class Assembly:
    def __init__(self):
        self.names, self.lines, self.at, self.base = {}, [], 0, None

    def take(self, number, text):
        """The first time over a line: gives it its address, and its name a value."""
        if text.startswith("*") or not text.strip():
            return
        name, operation, operands = OPERATION_LINE.match(text).groups()
        operands = operands or ""
        if operation == "EQU":
            self.name(name, self.value(operands))
            return
        if operation == "ORG":
            self.at = self.value(operands)
            return
        self.at = -(-self.at // self.alignment(operation, operands)) * self.alignment(operation, operands)
        self.name(name, self.at)
        self.lines.append(Line(number, self.at, operation, operands))
        self.at += self.length(operation, operands)

    def name(self, name, value):
        assert name not in self.names, f"{name} stands twice"
        if name:
            self.names[name] = value

    def alignment(self, operation, operands):
        if operation in ("DC", "DS"):
            return KINDS[CONSTANT.match(operands)[2]][0]
        return {"CCW": 8, "USING": 1}.get(operation, 2)

    def length(self, operation, operands):
        if operation in ("DC", "DS"):
            return sum(self.length_of_constant(it) for it in split(operands))
        if operation in RR or operation in RETURNS or operation == "USING":
            return 0 if operation == "USING" else 2
        return 8 if operation == "CCW" else 6 if operation in SS else 4

    def length_of_constant(self, operand):
        count, kind, quoted, _ = CONSTANT.fullmatch(operand).groups()
        data = {"X": len(quoted) // 2, "C": len(quoted)}.get(kind, KINDS[kind][1]) if quoted is not None else KINDS[kind][1] or 1
        return data * int(count or 1)

    def value(self, expression, here=None):
        total, end = 0, 0
        for found in TERM.finditer(expression):
            assert found.start() == end, f"no expression: {expression}"
            sign, term = found.groups()
            total, end = total + (-1 if sign == "-" else 1) * self.term(term, here), found.end()
        assert end == len(expression) and end, f"no expression: {expression}"
        return total

    def term(self, term, here):
        if term == "*":
            return self.at if here is None else here
        if term.startswith("X'"):
            return int(term[2:-1], 16)
        if term.startswith("C'"):
            return term[2].encode("cp037")[0]
        return int(term) if term.isdigit() else self.names[term]

    def bytes_of(self, line):
        """The second time over it: the bytes that a line stands for."""
        operation, operands, here = line.operation, split(line.operands), line.address
        if operation == "USING":
            self.base = self.value(operands[0], here), self.value(operands[1])
            return b""
        if operation == "DC":
            return b"".join(self.constant(it) for it in operands)
        if operation == "DS":
            return bytes(self.length(operation, line.operands))
        if operation == "CCW":
            code, address, flags, count = (self.value(it, here) for it in operands)
            return bytes([code]) + address.to_bytes(3, "big") + bytes([flags, 0]) + count.to_bytes(2, "big")
        return self.instruction(operation, operands, here)

    def instruction(self, operation, operands, here):
        if operation in BRANCHES:
            operation, operands = "BC", [str(BRANCHES[operation]), *operands]
        elif operation in RETURNS:
            operation, operands = "BCR", [str(RETURNS[operation]), *operands]
        if operation in RR:
            return bytes([RR[operation], self.value(operands[0]) << 4 | self.value(operands[1])])
        if operation in RX:
            index, address = self.indexed(operands[1], here)
            return bytes([RX[operation], self.value(operands[0]) << 4 | index]) + address
        if operation in SI:
            return bytes([SI[operation], self.value(operands[1])]) + self.based(operands[0], here)
        if operation in S:
            return S[operation].to_bytes(2, "big") + self.based(operands[0], here)
        length, first = self.sized(operands[0], here)
        return bytes([SS[operation], length - 1]) + first + self.based(operands[1], here)

    def constant(self, operand):
        count, kind, quoted, expression = CONSTANT.fullmatch(operand).groups()
        if kind == "X":
            data = bytes.fromhex(quoted)
        elif kind == "C":
            data = quoted.encode("cp037")
        else:
            data = self.value(expression or quoted).to_bytes(KINDS[kind][1], "big")
        return data * int(count or 1)

    def parted(self, operand):
        """The expression of an operand, and what stands in parentheses behind it."""
        expression, _, behind = operand.partition("(")
        return expression, behind.rstrip(")").split(",") if behind else []

    def address(self, value, base=None):
        """Base and displacement: by the register given, or none below 4096, or that of USING."""
        if base is None:
            base, value = (0, value) if value < 4096 else (self.base[1], value - self.base[0])
        assert 0 <= value < 4096, f"out of range: {value}"
        return (base << 12 | value).to_bytes(2, "big")

    def based(self, operand, here):
        expression, behind = self.parted(operand)
        return self.address(self.value(expression, here), self.value(behind[0]) if behind else None)

    def indexed(self, operand, here):
        expression, behind = self.parted(operand)
        value = self.value(expression, here)
        index = self.value(behind[0]) if behind and behind[0] else 0
        if len(behind) == 2:
            return index, self.address(value, self.value(behind[1]))
        return index, self.address(value)

    def sized(self, operand, here):
        expression, behind = self.parted(operand)
        return self.value(behind[0]), self.address(self.value(expression, here), self.value(behind[1]) if len(behind) == 2 else None)


def split(operands):
    """Operands, between the commas that stand in no parentheses."""
    return re.findall(r"(?:'[^']*'|\([^)]*\)|[^,'(])+", operands)


def assembled(text):
    assembly = Assembly()
    for number, line in enumerate(text.splitlines(), 1):
        try:
            assembly.take(number, line)
        except (AssertionError, AttributeError, KeyError, TypeError) as fault:
            raise ValueError(f"line {number}: {fault}") from fault
    image = bytearray(max(line.address + assembly.length(line.operation, line.operands) for line in assembly.lines))
    for line in assembly.lines:
        try:
            data = assembly.bytes_of(line)
        except (AssertionError, KeyError, IndexError, OverflowError) as fault:
            raise ValueError(f"line {line.number}: {fault}") from fault
        image[line.address : line.address + len(data)] = data
    return bytes(image), assembly.names
