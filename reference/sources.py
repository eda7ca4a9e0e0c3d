"""Random Lua programs whose `and`, `or` and comparisons stand in conditions alone, and which are not deep: the programs whose chunks always come back as source."""

import random

GLOBALS = ["print", "f", "g", "t", "u", "x", "y", "log"]
FIELDS = ["a", "b", "name", "next", "size"]
LOCALS = ["a", "b", "c", "i", "n", "v", "w", "item", "self"]
TEXTS = ['""', '"k"', '"two words"', '"a\\nb"', '"q\\"q"', '"\\0\\200"', '"name"', '"end"']
ARITHMETIC = ["+", "-", "*", "/", "%", "^", ".."]
COMPARISONS = ["==", "~=", "<", "<=", ">", ">="]


class Function:
    """What is around a statement: the names of the function, and whether it takes extra arguments."""

    def __init__(self, around, vararg):
        self.around, self.vararg = around, vararg
        self.scope = []
        self.active = 0

    def names(self):
        names, function = [], self
        while function is not None:
            names += function.scope
            function = function.around
        return names


class Writer:
    """Writes one program. `weight` is about how many statements it has."""

    def __init__(self, seed, weight):
        self.random = random.Random(seed)
        self.left = weight
        self.function = Function(None, True)
        self.loops = 0

    def chance(self, part):
        return self.random.random() < part

    def pick(self, things):
        return things[self.random.randrange(len(things))]

    # ---- expressions

    def name(self):
        known = self.function.names()
        return self.pick(known) if known and self.chance(0.7) else self.pick(GLOBALS)

    def simple(self):
        kind = self.random.randrange(9)
        if kind < 3:
            return self.name()
        if kind == 3:
            return str(self.random.choice([0, 1, 2, 3, 7, 10, 255, 256, 100000, 9223372036854775807]))
        if kind == 4:
            return self.pick(TEXTS)
        if kind == 5:
            return self.pick(["nil", "true", "false"])
        if kind == 6:
            return "-" + str(self.random.randrange(1, 100))
        if kind == 7 and self.function.vararg:
            return "..."
        return self.name() + "." + self.pick(FIELDS)

    def prefix(self, depth):
        kind = self.random.randrange(6)
        if depth <= 0 or kind < 2:
            return self.name()
        if kind == 2:
            return self.prefix(depth - 1) + "." + self.pick(FIELDS)
        if kind == 3:
            return self.prefix(depth - 1) + "[" + self.value(depth - 1) + "]"
        if kind == 4:
            return self.call(depth - 1)
        return "(" + self.value(depth - 1) + ")"

    def call(self, depth):
        on = self.prefix(depth - 1)
        if self.chance(0.25):
            on += ":" + self.pick(FIELDS)
        kind = self.random.randrange(12)
        if kind == 0:
            return on + self.pick(TEXTS)
        if kind == 1:
            return on + self.table(depth - 1)
        return on + "(" + ", ".join(self.value(depth - 1) for _ in range(self.random.randrange(4))) + ")"

    def table(self, depth):
        items = []
        for _ in range(self.pick([0, 1, 1, 2, 3, 5]) if self.chance(0.97) else self.random.randrange(48, 104)):
            kind = self.random.randrange(5)
            if kind == 0:
                items.append(self.pick(FIELDS) + " = " + self.value(depth - 1))
            elif kind == 1:
                items.append("[" + self.value(depth - 1) + "] = " + self.value(depth - 1))
            else:
                items.append(self.value(depth - 1))
        return "{" + self.pick([", ", "; "]).join(items) + "}"

    def value(self, depth):
        if depth <= 0 or self.chance(0.35):
            return self.simple()
        kind = self.random.randrange(10)
        if kind < 3:
            return self.value(depth - 1) + " " + self.pick(ARITHMETIC) + " " + self.value(depth - 1)
        if kind == 3:
            return self.pick(["- ", "#", "not "]) + self.value(depth - 1)
        if kind == 4:
            return "(" + self.value(depth - 1) + ")"
        if kind == 5:
            return self.table(depth - 1)
        if kind == 6 and self.left > 0 and self.chance(0.5):
            return "function" + self.body()
        if kind == 7:
            return self.prefix(depth)
        return self.call(depth)

    def condition(self, depth):
        if depth <= 0 or self.chance(0.3):
            if self.chance(0.6):
                return self.value(1) + " " + self.pick(COMPARISONS) + " " + self.value(1)
            return self.value(1)
        kind = self.random.randrange(5)
        if kind < 2:
            return self.condition(depth - 1) + " " + self.pick(["and", "or"]) + " " + self.condition(depth - 1)
        if kind == 2:
            return "not (" + self.condition(depth - 1) + ")"
        if kind == 3:
            return "(" + self.condition(depth - 1) + ")"
        return self.pick(["true", "false", "nil", "1"])

    # ---- statements

    def inside(self, work, names=(), hidden=0):
        """A block whose names end with it."""
        function = self.function
        before, active = list(function.scope), function.active
        function.scope += names
        function.active += len(names) + hidden
        text = work()
        function.scope, function.active = before, active
        return text

    def body(self, method=False):
        params = [self.pick(LOCALS) for _ in range(self.random.randrange(3))]
        vararg = self.chance(0.2)
        around, loops = self.function, self.loops
        self.function, self.loops = Function(around, vararg), 0
        names = (["self"] if method else []) + params
        text = self.inside(lambda: self.block(True), names)
        self.function, self.loops = around, loops
        return "(" + ", ".join(params + (["..."] if vararg else [])) + ")" + text + " end"

    def block(self, may_end=True):
        lines = [self.statement() for _ in range(self.random.randrange(1, 4)) if self.left > 0]
        if may_end and self.chance(0.12):
            lines.append("return" + self.pick(["", " " + self.value(2), " " + self.call(2), " " + self.value(1) + ", " + self.value(1)]))
        elif may_end and self.loops > 0 and self.chance(0.2):
            lines.append("break")
        return "".join("\n" + line + ";" for line in lines) + "\n"

    def looped(self, names=(), hidden=0, may_end=True):
        self.loops += 1
        text = self.inside(lambda: self.block(may_end), names, hidden)
        self.loops -= 1
        return text

    def local(self):
        if self.function.active > 180:
            return self.assignment()
        names = [self.pick(LOCALS) for _ in range(self.pick([1, 1, 1, 2, 3]))]
        values = [self.value(2) for _ in range(self.pick([0, 1, 1, 1, 2, 3]))]
        self.function.scope += names
        self.function.active += len(names)
        return "local " + ", ".join(names) + (" = " + ", ".join(values) if values else "")

    def local_function(self):
        if self.function.active > 180:
            return self.assignment()
        name = self.pick(LOCALS)
        self.function.scope.append(name)
        self.function.active += 1
        return "local function " + name + self.body()

    def target(self):
        kind = self.random.randrange(6)
        if kind < 3:
            return self.name()
        on = self.name() if kind < 5 else self.pick([self.prefix(2), "(" + self.table(1) + ")"])
        if self.chance(0.5):
            return on + "." + self.pick(FIELDS)
        return on + "[" + self.value(1) + "]"

    def assignment(self):
        targets = [self.target() for _ in range(self.pick([1, 1, 1, 1, 2, 3]))]
        values = [self.value(3) for _ in range(self.pick([1, 1, 1, len(targets), 2, 3]))]
        return ", ".join(targets) + " = " + ", ".join(values)

    def function_statement(self):
        path = [self.name()] + [self.pick(FIELDS) for _ in range(self.random.randrange(3))]
        method = self.chance(0.4)
        return "function " + ".".join(path) + (":" + self.pick(FIELDS) if method else "") + self.body(method)

    def if_statement(self):
        text = "if " + self.condition(2) + " then" + self.inside(self.block)
        while self.chance(0.3):
            text += "elseif " + self.condition(2) + " then" + self.inside(self.block)
        if self.chance(0.4):
            text += "else" + self.inside(self.block)
        return text + "end"

    def repeat_statement(self):
        def work():
            block = self.block(False)
            return block + "until " + self.condition(2)

        self.loops += 1
        text = self.inside(work)
        self.loops -= 1
        return "repeat" + text

    def statement(self):
        self.left -= 1
        kind = self.random.randrange(20)
        if kind < 5:
            return self.local()
        if kind < 9:
            return self.assignment()
        if kind < 12:
            return self.call(3)
        if kind < 14:
            return self.if_statement()
        if kind == 14:
            return "while " + self.condition(2) + " do" + self.looped() + "end"
        if kind == 15:
            return self.repeat_statement()
        if kind == 16:
            name, step = self.pick(LOCALS), self.pick(["", ", " + self.value(1), ", 1"])
            head = "for " + name + " = " + self.value(1) + ", " + self.value(1) + step + " do"
            return head + self.looped([name], 3) + "end"
        if kind == 17:
            names = [self.pick(LOCALS) for _ in range(self.random.randrange(1, 4))]
            values = [self.value(2) for _ in range(self.random.randrange(1, 4))]
            return "for " + ", ".join(names) + " in " + ", ".join(values) + " do" + self.looped(names, 3) + "end"
        if kind == 18:
            return "do" + self.inside(self.block) + "end"
        return self.pick([self.local_function, self.function_statement])()

    def program(self):
        lines = []
        while self.left > 0:
            lines.append(self.statement())
        return "".join(line + ";\n" for line in lines)


def program(seed, weight):
    """The program of a seed, of about so many statements."""
    return Writer(seed, weight).program()
