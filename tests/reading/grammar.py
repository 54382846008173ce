"""Trees of a chart's text, by the productions of IEC 61131-3, Annex B, that the language has."""

from typing import NamedTuple, Optional, Union

from lexer import RESERVED, Refused, tokens


class Name(NamedTuple):
    """A name used as a variable."""
    name: str


class Dotted(NamedTuple):
    """A name with a point and a second name, such as S.T."""
    name: str
    suffix: str


class Integer(NamedTuple):
    """An integer without a type, its sign included."""
    value: int


class Typed(NamedTuple):
    """A literal that has a type: INT#5, T#1s, TRUE."""
    type: str
    value: Union[int, bool]


class Prefix(NamedTuple):
    """`-` or NOT before an operand."""
    operator: str
    operand: tuple


class Binary(NamedTuple):
    """An operator between two operands; `&` is AND."""
    operator: str
    left: tuple
    right: tuple


class Assignment(NamedTuple):
    """`target := value`; the suffix of the target is empty where it has no point."""
    target: str
    suffix: str
    value: tuple


class If(NamedTuple):
    """Branches of (condition, statements) in text order, and the statements behind ELSE or None."""
    branches: list
    otherwise: Optional[list]


class Declaration(NamedTuple):
    """A variable: its location is None or (letter, size, numbers), its initial value a literal or None."""
    name: str
    type: str
    location: Optional[tuple]
    initial: Optional[tuple]


class External(NamedTuple):
    """A name of VAR_EXTERNAL."""
    name: str
    type: str


class Association(NamedTuple):
    """An action of a step. The time is None, a number of microseconds, or a variable's name."""
    action: str
    qualifier: str
    time: Union[None, int, str]
    indicators: list


class Step(NamedTuple):
    """A step with its associations."""
    name: str
    initial: bool
    associations: list


class Transition(NamedTuple):
    """A transition; name and priority may be None."""
    name: Optional[str]
    priority: Optional[int]
    before: list
    after: list
    condition: tuple


class Action(NamedTuple):
    """A declared action with its statements."""
    name: str
    statements: list


class ProgramType(NamedTuple):
    """A PROGRAM: its variables (declarations and externals, in text order) and the elements of its chart."""
    name: str
    variables: list
    steps: list
    transitions: list
    actions: list


class Task(NamedTuple):
    """A task; `single` is a variable's name or None, an interval of 0 stands where none is given."""
    name: str
    single: Optional[str]
    interval: int
    priority: int


class Instance(NamedTuple):
    """A program instance; the task's name may be None."""
    name: str
    task: Optional[str]
    type: str


class Source(NamedTuple):
    """A whole text: program types, global variables of both levels, tasks and instances."""
    types: list
    globals: list
    tasks: list
    instances: list


TYPES = ("BOOL", "INT", "DINT", "TIME")
MOST_OPEN, MOST_OPERATORS = 64, 256
TIMED = ("L", "D", "SD", "DS", "SL")
UNTIMED = ("N", "R", "S", "P", "P0", "P1")
LEVELS = [["OR"], ["XOR"], ["AND", "&"], ["=", "<>"], ["<", ">", "<=", ">="], ["+", "-"], ["*", "/", "MOD"]]


class Parser:
    """Reads the tokens of a text from left to right."""

    def __init__(self, found: list):
        self.tokens, self.place = found, 0
        self.open, self.operators = 0, 0

    # -- limits of depth

    def fail_too_deep(self):
        """Tells that the next token stands too deep, or is an operator too many."""
        raise Refused(f"refused 5 TooDeep line {self.peek().line}")

    def inside(self, production):
        """What a production reads behind a parenthesis, a prefix operator or an IF, all of which stay open meanwhile."""
        if self.open == MOST_OPEN:
            self.fail_too_deep()
        self.open += 1
        found = production()
        self.open -= 1
        return found

    def operator(self):
        """Takes an operator of an expression and gives it in capitals."""
        if self.operators == MOST_OPERATORS:
            self.fail_too_deep()
        self.operators += 1
        return self.take().value.upper()

    # -- tokens

    def peek(self, ahead=0):
        """The next token, or one behind it."""
        return self.tokens[min(self.place + ahead, len(self.tokens) - 1)]

    def fail(self):
        """Tells that the next token can't stand where it stands."""
        raise Refused(f"refused 4 Syntax line {self.peek().line}")

    def take(self):
        """The next token; the place is behind it afterwards."""
        token = self.peek()
        self.place += 1
        return token

    def sees(self, text: str, ahead=0) -> bool:
        """Whether the next token (or one behind it) is this sign or word."""
        token = self.peek(ahead)
        return token.kind in ("word", "sign") and token.value.upper() == text

    def eat(self, text: str) -> bool:
        """Takes the next token where it is this sign or word, and tells whether it was."""
        seen = self.sees(text)
        if seen:
            self.place += 1
        return seen

    def expect(self, *texts: str):
        """Takes these signs and words, one after the other."""
        for text in texts:
            if not self.eat(text):
                self.fail()

    def one_of(self, texts) -> str:
        """Takes one of these signs and words, and gives it in capitals."""
        for text in texts:
            if self.eat(text):
                return text
        return self.fail()

    def kind(self, kind: str):
        """Takes a token of this kind and gives its value."""
        if self.peek().kind != kind:
            self.fail()
        return self.take().value

    def name(self) -> str:
        """Takes a name, which is a word that isn't reserved."""
        if self.peek().kind != "word" or self.peek().value.upper() in RESERVED:
            self.fail()
        return self.take().value

    def names(self) -> list:
        """One name or more, parted by commas."""
        found = [self.name()]
        while self.eat(","):
            found.append(self.name())
        return found

    # -- the whole text

    def source(self) -> Source:
        """Program types before and behind one configuration."""
        types = self.programs()
        variables, tasks, instances = self.configuration()
        types += self.programs()
        if self.peek().kind != "end":
            self.fail()
        return Source(types, variables, tasks, instances)

    def programs(self) -> list:
        """Program types, up to something else."""
        found = []
        while self.eat("PROGRAM"):
            found.append(self.program())
        return found

    def program(self) -> ProgramType:
        """What follows PROGRAM."""
        made = ProgramType(self.name(), [], [], [], [])
        while self.sees("VAR") or self.sees("VAR_EXTERNAL"):
            made.variables.extend(self.variables())
        while not self.eat("END_PROGRAM"):
            self.element(made)
        return made

    def configuration(self) -> tuple:
        """Global variables, tasks and instances of CONFIGURATION and its RESOURCE."""
        self.expect("CONFIGURATION")
        self.name()
        variables = self.globals()
        self.expect("RESOURCE")
        self.name()
        self.expect("ON")
        self.name()
        variables += self.globals()
        tasks, instances = [], []
        while self.eat("TASK"):
            tasks.append(self.task())
        while self.sees("PROGRAM") or not instances:
            instances.append(self.instance())
        self.expect("END_RESOURCE", "END_CONFIGURATION")
        return variables, tasks, instances

    def task(self) -> Task:
        """What follows TASK, up to its semicolon."""
        name, single, interval = self.name(), None, 0
        self.expect("(")
        if self.eat("SINGLE"):
            self.expect(":=")
            single = self.name()
            self.expect(",")
        if self.eat("INTERVAL"):
            self.expect(":=")
            interval = self.duration()
            self.expect(",")
        self.expect("PRIORITY", ":=")
        priority = self.kind("integer")
        self.expect(")", ";")
        return Task(name, single, interval, priority)

    def instance(self) -> Instance:
        """PROGRAM name WITH task : type;"""
        self.expect("PROGRAM")
        name = self.name()
        task = self.name() if self.eat("WITH") else None
        self.expect(":")
        made = Instance(name, task, self.name())
        self.expect(";")
        return made

    # -- variables

    def globals(self) -> list:
        """Blocks of VAR_GLOBAL, up to something else."""
        found = []
        while self.eat("VAR_GLOBAL"):
            while not self.eat("END_VAR"):
                found += self.declarations()
        return found

    def variables(self) -> list:
        """One block of VAR or VAR_EXTERNAL."""
        found, external = [], self.one_of(("VAR", "VAR_EXTERNAL")) == "VAR_EXTERNAL"
        while not self.eat("END_VAR"):
            found += self.externals() if external else self.declarations()
        return found

    def externals(self) -> list:
        """One line of VAR_EXTERNAL."""
        names = self.names()
        self.expect(":")
        kind = self.one_of(TYPES)
        self.expect(";")
        return [External(name, kind) for name in names]

    def declarations(self) -> list:
        """One line of VAR or VAR_GLOBAL: names, or one name with a location."""
        names, location = [self.name()], None
        if self.eat("AT"):
            location = self.kind("location")
        while location is None and self.eat(","):
            names.append(self.name())
        self.expect(":")
        kind = self.one_of(TYPES)
        initial = self.initial() if self.eat(":=") else None
        self.expect(";")
        return [Declaration(name, kind, location, initial) for name in names]

    def initial(self):
        """An initial value."""
        if self.eat("-"):
            return Integer(-self.kind("integer"))
        return self.literal() or self.fail()

    def literal(self):
        """A literal without a sign, or None where the next token is none."""
        token = self.peek()
        if token.kind in ("integer", "based"):
            return Integer(self.take().value)
        if token.kind == "typed":
            return Typed(*self.take().value)
        if self.sees("TRUE") or self.sees("FALSE"):
            return Typed("BOOL", self.take().value.upper() == "TRUE")
        return None

    def duration(self) -> int:
        """Microseconds of a duration."""
        if self.peek().kind != "typed" or self.peek().value[0] != "TIME":
            self.fail()
        return self.take().value[1]

    # -- elements of a chart

    def element(self, made: ProgramType):
        """A step, a transition or an action, which the program type gets."""
        kind = self.one_of(("INITIAL_STEP", "STEP", "TRANSITION", "ACTION"))
        if kind == "TRANSITION":
            made.transitions.append(self.transition())
        elif kind == "ACTION":
            name = self.name()
            self.expect(":")
            made.actions.append(Action(name, self.statements(("END_ACTION",))))
            self.expect("END_ACTION")
        else:
            made.steps.append(self.step(kind == "INITIAL_STEP"))

    def step(self, initial: bool) -> Step:
        """What follows STEP or INITIAL_STEP."""
        made = Step(self.name(), initial, [])
        self.expect(":")
        while not self.eat("END_STEP"):
            made.associations.append(self.association())
            self.expect(";")
        return made

    def association(self) -> Association:
        """name(qualifier, time, indicators); a qualifier that is left out is N."""
        action, qualifier, time, indicators = self.name(), "N", None, []
        self.expect("(")
        if not self.sees(",") and not self.sees(")"):
            qualifier = self.one_of(UNTIMED + TIMED)
        if qualifier in TIMED:
            self.expect(",")
            time = self.duration() if self.peek().kind == "typed" else self.name()
        while self.eat(","):
            indicators.append(self.name())
        self.expect(")")
        return Association(action, qualifier, time, indicators)

    def transition(self) -> Transition:
        """What follows TRANSITION."""
        name = None if self.sees("(") or self.sees("FROM") else self.name()
        priority = None
        if self.eat("("):
            self.expect("PRIORITY", ":=")
            priority = self.kind("integer")
            self.expect(")")
        self.expect("FROM")
        before = self.step_names()
        self.expect("TO")
        after = self.step_names()
        self.expect(":=")
        condition = self.expression()
        self.expect(";", "END_TRANSITION")
        return Transition(name, priority, before, after, condition)

    def step_names(self) -> list:
        """One step, or several in parentheses."""
        if not self.eat("("):
            return [self.name()]
        found = self.names()
        self.expect(")")
        return found

    # -- statements

    def statements(self, ends) -> list:
        """Statements up to one of these words, which stays."""
        found = []
        while not any(self.sees(end) for end in ends):
            if not self.sees(";"):
                found.append(self.statement())
            self.expect(";")
        return found

    def statement(self):
        """An assignment or an IF."""
        if self.eat("IF"):
            return self.inside(self.choice)
        target = self.name()
        suffix = self.name() if self.eat(".") else ""
        self.expect(":=")
        return Assignment(target, suffix, self.expression())

    def choice(self) -> If:
        """What follows IF."""
        branches, otherwise, more = [], None, True
        while more:
            condition = self.expression()
            self.expect("THEN")
            branches.append((condition, self.statements(("ELSIF", "ELSE", "END_IF"))))
            more = self.eat("ELSIF")
        if self.eat("ELSE"):
            otherwise = self.statements(("END_IF",))
        self.expect("END_IF")
        return If(branches, otherwise)

    # -- expressions

    def expression(self):
        """A whole expression, whose operators are counted."""
        self.operators = 0
        return self.joined(0)

    def joined(self, level: int):
        """Operands with operators that bind at least as tightly as those of this level; equal ones group to the left."""
        if level == len(LEVELS):
            return self.unary()
        left = self.joined(level + 1)
        while any(self.sees(operator) for operator in LEVELS[level]):
            operator = self.operator()
            left = Binary("AND" if operator == "&" else operator, left, self.joined(level + 1))
        return left

    def unary(self):
        """An operand with its prefix operators; a minus directly before a decimal integer is its sign."""
        if self.sees("-") and self.peek(1).kind == "integer":
            self.take()
            return Integer(-self.take().value)
        if self.sees("NOT") or self.sees("-"):
            return Prefix(self.operator(), self.inside(self.unary))
        if self.eat("("):
            inner = self.inside(lambda: self.joined(0))
            self.expect(")")
            return inner
        return self.literal() or self.operand()

    def operand(self):
        """A name, or a name with a point and a second one."""
        name = self.name()
        return Dotted(name, self.name()) if self.eat(".") else Name(name)


def read(text: bytes) -> Source:
    """The tree of a text; raises Refused where there is none within the limits of depth."""
    return Parser(tokens(text)).source()
