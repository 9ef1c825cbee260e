#!/usr/bin/env python3
"""A second, plain interpreter of the language of docs/LANGUAGE.md, for comparing outcomes.

Usage: interpret.py [-fwrapv | -ftrapv | --turns=N].. FILE [NUMBER]..: prints what the program printed and its last line, as
gimple-run does on the same words. It takes accepted programs and lawful words, and checks neither.
"""
import re
import sys
from typing import NamedTuple

BITS = {"i8": 8, "i16": 16, "i32": 32, "i64": 64, "u8": 8, "u16": 16, "u32": 32, "u64": 64}
SIZE = {name: bits // 8 for name, bits in BITS.items()} | {"ptr": 8}
OPS = ["+", "-", "*", "/", "%", "&", "|", "^", "<<", ">>"]
CMPS = ["==", "!=", "<", "<=", ">", ">="]
TOKEN = re.compile(r"\s+|//[^\n]*|([A-Za-z_][A-Za-z0-9_.]*|[0-9]+|<=|>=|==|!=|<<|>>|[;{}()\[\],:=@&<>+\-*/%|^])")


class Trap(Exception):
    pass


class Code(NamedTuple):
    """A function value. The other values are numbers, None for null, and pairs of an object and an offset."""
    name: str


class Parser:
    def __init__(self, text):
        self.tokens = [m.group(1) for m in TOKEN.finditer(text) if m.group(1)]
        self.at = 0

    def peek(self):
        return self.tokens[self.at] if self.at < len(self.tokens) else None

    def take(self, want=None):
        token = self.peek()
        assert want is None or token == want, (token, want, self.at)
        self.at += 1
        return token

    def has(self, token):
        if self.peek() == token:
            self.at += 1
            return True
        return False

    def signed(self):
        minus = self.has("-")
        number = int(self.take())
        return -number if minus else number

    def decl(self):
        shape = self.take()
        if shape == "struct":
            shape = ("struct", self.take())
        name = self.take()
        length = None
        if self.has("["):
            length = int(self.take())
            self.take("]")
        return (name, shape, length)

    def operand(self):
        token = self.peek()
        if token == "null":
            self.take()
            return ("null",)
        if self.has("&"):
            name = self.take()
            return ("addr", name, self.signed() if self.has("@") else 0)
        if token == "-" or token.isdigit():
            return ("num", self.signed())
        return ("reg", self.take())

    def args(self):
        self.take("(")
        out = []
        while not self.has(")"):
            out.append(self.operand())
            self.has(",")
        return out

    def mem(self):
        self.take("MEM")
        self.take("<")
        scalar = self.take()
        self.take(">")
        self.take("[")
        base = ("var", self.take()) if self.has("&") else ("reg", self.take())
        offset = self.signed() if self.has("@") else 0
        self.take("]")
        return (scalar, base, offset)

    def target(self):
        self.take("<")
        self.take("bb")
        label = int(self.take())
        self.take(">")
        return label

    def scalars(self):
        """The scalars of the formals that an indirect call writes."""
        self.take("(")
        out = []
        while not self.has(")"):
            out.append(self.take())
            self.has(",")
        return out

    def indirect(self, to):
        """A call through a register: its target, the result and the formals' scalars, the register, the arguments."""
        assert self.profile == 2
        self.take("*")
        self.take("<")
        result, formals = self.take(), self.scalars()
        self.take(">")
        return ("indirect", to, result, formals, self.take(), self.args())

    def program(self):
        self.take("gimple")
        self.profile = int(self.take())
        self.take(";")
        structs, globals_, functions = {}, [], {}
        while self.has("struct"):
            name = self.take()
            self.take("{")
            fields = []
            while not self.has("}"):
                fields.append(self.decl())
                self.take(";")
            self.take(";")
            structs[name] = fields
        while self.has("global"):
            constant = self.has("const")
            decl = self.decl()
            items = []
            if self.has("="):
                self.take("{")
                while not self.has("}"):
                    items.append(self.operand())
                    self.has(",")
            self.take(";")
            globals_.append((decl, constant, items))
        while self.peek():
            function = self.function()
            functions[function["name"]] = function
        return structs, globals_, functions

    def function(self):
        result, name = self.take(), self.take()
        self.take("(")
        params, locals_, registers, blocks = [], [], [], []
        while not self.has(")"):
            params.append((self.take(), self.take()))
            self.has(",")
        self.take("{")
        while self.has("local"):
            locals_.append(self.decl())
            self.take(";")
        while self.peek() in SIZE:
            registers.append((self.take(), self.take()))
            self.take(";")
        while not self.has("}"):
            label = self.target()
            self.take(":")
            body = []
            while True:
                end = self.end()
                if end:
                    break
                body.append(self.statement())
            blocks.append((label, body, end))
        return {"name": name, "result": result, "params": params, "locals": locals_, "regs": registers, "blocks": blocks}

    def end(self):
        token = self.peek()
        if token == "goto":
            self.take()
            out = ("goto", self.target())
        elif token == "return":
            self.take()
            out = ("return", None if self.peek() == ";" else self.operand())
        elif token == "if":
            self.take()
            self.take("(")
            left, cmp, right = self.operand(), self.take(), self.operand()
            self.take(")")
            self.take("goto")
            yes = self.target()
            self.take(";")
            self.take("else")
            self.take("goto")
            out = ("if", left, cmp, right, yes, self.target())
        elif token == "switch":
            self.take()
            self.take("(")
            on = self.operand()
            self.take(")")
            self.take("{")
            cases = []
            while self.has("case"):
                value = self.signed()
                self.take(":")
                cases.append((value, self.target()))
                self.take(";")
            self.take("default")
            self.take(":")
            other = self.target()
            self.take(";")
            self.take("}")
            return ("switch", on, cases, other)
        else:
            return None
        self.take(";")
        return out

    def statement(self):
        token = self.peek()
        if token == "MEM":
            place = self.mem()
            self.take("=")
            out = ("store", place, self.operand())
        elif token == "putint":
            self.take()
            self.take("(")
            out = ("put", self.operand())
            self.take(")")
        elif token == "abort":
            self.take()
            self.take("(")
            self.take(")")
            out = ("abort",)
        elif token == "*":
            out = self.indirect(None)
        else:
            name = self.take()
            if self.peek() == "(":
                out = ("call", None, name, self.args())
            else:
                self.take("=")
                out = self.rhs(name)
        self.take(";")
        return out

    def rhs(self, to):
        token = self.peek()
        if token == "(":
            self.take()
            scalar = self.take()
            self.take(")")
            return ("convert", to, scalar, self.operand())
        if token == "MEM":
            return ("load", to, self.mem())
        if token == "getint":
            self.take()
            self.take("(")
            self.take(")")
            return ("get", to)
        if token == "*":
            return self.indirect(to)
        left = self.operand()
        if left[0] == "reg" and self.peek() == "(":
            return ("call", to, left[1], self.args())
        if self.peek() in OPS:
            return ("arith", to, left, self.take(), self.operand())
        if self.peek() in CMPS:
            return ("compare", to, left, self.take(), self.operand())
        return ("copy", to, left)


def wrap(scalar, value):
    bits = BITS[scalar]
    value %= 1 << bits
    return value - (1 << bits) if scalar[0] == "i" and value >= 1 << (bits - 1) else value


def signed64(value):
    return wrap("i64", value)


def fitting(scalar, value):
    """The value, which has to be one of the scalar."""
    if wrap(scalar, value) != value:
        raise Trap("Overflow")
    return value


def evaluate(wraps, op, scalar, a, b):
    """An operator on integers. The mode, whether signed sums wrap, touches `+`, `-` and `*` alone."""
    bits = BITS[scalar]
    if op in "+-*":
        value = {"+": a + b, "-": a - b, "*": a * b}[op]
        return wrap(scalar, value) if wraps or scalar[0] == "u" else fitting(scalar, value)
    if op in "/%":
        if b == 0:
            raise Trap("Divide")
        quotient = fitting(scalar, abs(a) // abs(b) * (1 if (a < 0) == (b < 0) else -1))
        return quotient if op == "/" else a - quotient * b
    if op in ("<<", ">>"):
        if not 0 <= b < bits:
            raise Trap("Shift")
        return wrap(scalar, a << b) if op == "<<" else a >> b
    return wrap(scalar, {"&": a & b, "|": a | b, "^": a ^ b}[op])


def compare(cmp, a, b):
    if cmp == "==":
        return a == b
    if cmp == "!=":
        return a != b
    return {"<": a < b, "<=": a <= b, ">": a > b, ">=": a >= b}[cmp]


class Machine:
    def __init__(self, program, wraps, numbers):
        self.structs, self.globals, self.functions = program
        self.wraps = wraps
        self.numbers = list(numbers)
        self.output = []
        self.objects = {}
        self.serial = 0
        for k, (decl, constant, items) in enumerate(self.globals):
            slots = self.layout(decl)
            self.make(("g", k), decl, constant)
            for (offset, scalar), item in zip(slots, items):
                self.objects[("g", k)]["slots"][(offset, scalar)] = self.value(None, item)

    def layout(self, decl):
        def shape_of(shape):
            if isinstance(shape, str):
                return SIZE[shape], SIZE[shape], [(0, shape)]
            at, align, slots = 0, 1, []
            for field in self.structs[shape[1]]:
                size, own, inner = of(field)
                at = -(-at // own) * own
                slots += [(at + offset, scalar) for offset, scalar in inner]
                at += size
                align = max(align, own)
            return -(-at // align) * align, align, slots

        def of(field):
            size, align, slots = shape_of(field[1])
            count = 1 if field[2] is None else field[2]
            return size * count, align, [(k * size + offset, scalar) for k in range(count) for offset, scalar in slots]

        self.last = of(decl)
        return self.last[2]

    def make(self, key, decl, constant):
        slots = self.layout(decl)
        self.objects[key] = {"size": self.last[0], "constant": constant,
                             "slots": {slot: (None if slot[1] == "ptr" else 0) for slot in slots}}

    def value(self, frame, operand):
        if operand[0] == "num":
            return operand[1]
        if operand[0] == "null":
            return None
        if operand[0] == "reg":
            return frame["values"][operand[1]]
        variable = self.variable(frame, operand[1])
        return Code(operand[1]) if variable is None else (variable, operand[2])

    def variable(self, frame, name):
        """The object of a variable's name; None for a name that only a function has."""
        if frame:
            for k, local in enumerate(frame["function"]["locals"]):
                if local[0] == name:
                    return ("l", frame["serial"], k)
        names = [g[0][0] for g in self.globals]
        return ("g", names.index(name)) if name in names else None

    def access(self, frame, place, store):
        scalar, base, offset = place
        pointer = (self.variable(frame, base[1]), 0) if base[0] == "var" else frame["values"][base[1]]
        if pointer is None:
            raise Trap("NullAccess")
        if isinstance(pointer, Code):
            raise Trap("BadSlot")
        offset = signed64(pointer[1] + offset)
        if pointer[0] not in self.objects:
            raise Trap("Dangling")
        found = self.objects[pointer[0]]
        if not 0 <= offset < found["size"]:
            raise Trap("Bounds")
        if (offset, scalar) not in found["slots"]:
            raise Trap("BadSlot")
        if store and found["constant"]:
            raise Trap("ReadOnly")
        return found["slots"], (offset, scalar)

    def called(self, frame, statement):
        """The function that a call enters, its arguments, and the register that takes the result."""
        if statement[0] == "call":
            _, to, name, arguments = statement
            return name, arguments, to
        _, to, result, formals, register, arguments = statement
        value = frame["values"][register]
        if value is None:
            raise Trap("NullAccess")
        function = self.functions.get(value.name) if isinstance(value, Code) else None
        if function is None or result != function["result"] or formals != [scalar for scalar, _ in function["params"]]:
            raise Trap("BadCall")
        return value.name, arguments, to

    def enter(self, name, values, takes):
        function = self.functions[name]
        frame = {"function": function, "serial": self.serial, "takes": takes, "block": 0, "index": 0, "values": {}}
        self.serial += 1
        frame["scalars"] = {n: s for s, n in function["params"] + function["regs"]}
        frame["values"] = {n: (None if s == "ptr" else 0) for s, n in function["regs"]}
        frame["values"].update({n: v for (s, n), v in zip(function["params"], values)})
        for k, local in enumerate(function["locals"]):
            self.make(("l", frame["serial"], k), local, False)
        frame["labels"] = {block[0]: k for k, block in enumerate(function["blocks"])}
        return frame

    def run(self, turns):
        frames = [self.enter("main", [], None)]
        try:
            while True:
                frame = frames[-1]
                label, body, end = frame["function"]["blocks"][frame["block"]]
                if frame["index"] < len(body):
                    statement = body[frame["index"]]
                    frame["index"] += 1
                    if statement[0] in ("call", "indirect"):
                        name, arguments, to = self.called(frame, statement)
                        if turns == 0:
                            return "going"
                        turns -= 1
                        frames.append(self.enter(name, [self.value(frame, a) for a in arguments], to))
                    else:
                        self.execute(frame, statement)
                    continue
                goes = self.leave(frame, end)
                if turns == 0:
                    return "going"
                turns -= 1
                if end[0] == "return":
                    frames.pop()
                    if not frames:
                        return "ended %d" % goes
                    for k in range(len(frame["function"]["locals"])):
                        del self.objects[("l", frame["serial"], k)]
                    if frame["takes"] is not None:
                        frames[-1]["values"][frame["takes"]] = goes
                else:
                    frame["block"] = frame["labels"][goes]
                    frame["index"] = 0
        except Trap as trap:
            return "trapped " + str(trap)

    def leave(self, frame, end):
        if end[0] == "goto":
            return end[1]
        if end[0] == "return":
            return None if end[1] is None else self.value(frame, end[1])
        if end[0] == "if":
            return end[4] if compare(end[2], self.value(frame, end[1]), self.value(frame, end[3])) else end[5]
        value = self.value(frame, end[1])
        return next((target for case, target in end[2] if case == value), end[3])

    def execute(self, frame, statement):
        values, kind = frame["values"], statement[0]
        if kind == "copy":
            values[statement[1]] = self.value(frame, statement[2])
        elif kind == "arith":
            _, to, left, op, right = statement
            a, b = self.value(frame, left), self.value(frame, right)
            if frame["scalars"][to] == "ptr":
                values[to] = (a[0], signed64(a[1] + b)) if isinstance(a, tuple) and not isinstance(a, Code) else a
            else:
                values[to] = evaluate(self.wraps, op, frame["scalars"][to], a, b)
        elif kind == "compare":
            values[statement[1]] = int(compare(statement[3], self.value(frame, statement[2]), self.value(frame, statement[4])))
        elif kind == "convert":
            values[statement[1]] = wrap(statement[2], self.value(frame, statement[3]))
        elif kind == "load":
            slots, key = self.access(frame, statement[2], False)
            values[statement[1]] = slots[key]
        elif kind == "store":
            slots, key = self.access(frame, statement[1], True)
            slots[key] = self.value(frame, statement[2])
        elif kind == "get":
            values[statement[1]] = self.numbers.pop(0) if self.numbers else 0
        elif kind == "put":
            self.output.append(str(self.value(frame, statement[1])))
        else:
            raise Trap("Abort")


def main():
    words = sys.argv[1:]
    wraps, turns = False, 1000000
    while words[0].startswith("-") and words[0] != "-":
        word = words.pop(0)
        if word.startswith("--turns="):
            turns = int(word.removeprefix("--turns="))
        else:
            wraps = word == "-fwrapv"
    text = sys.stdin.read() if words[0] == "-" else open(words[0], encoding="latin-1").read()
    machine = Machine(Parser(text).program(), wraps, [int(word) for word in words[1:]])
    last = machine.run(turns)
    for line in machine.output + [last]:
        print(line)


if __name__ == "__main__":
    main()
