"""From a tree to a plant: names become numbers and each expression gets the types of its operators."""

from typing import NamedTuple, Optional, Union

import grammar
from lexer import Refused


class Place(NamedTuple):
    """A variable as a program type sees it: a global one, or one of its own, by number."""
    own: bool
    number: int


class Literal(NamedTuple):
    """A value and its type."""
    value: Union[int, bool]
    type: str


class Variable(NamedTuple):
    """The value of a variable."""
    place: Place


class StepFlag(NamedTuple):
    """S.X, by the step's number."""
    step: int


class StepTime(NamedTuple):
    """S.T, by the step's number."""
    step: int


class ActionQ(NamedTuple):
    """Q of the action in whose body this stands."""


class Not(NamedTuple):
    """The other truth value."""
    operand: tuple


class Minus(NamedTuple):
    """The operand with the other sign, in its type."""
    type: str
    operand: tuple


class Operation(NamedTuple):
    """An operator between two operands of one type."""
    operator: str
    type: str
    left: tuple
    right: tuple


class Assign(NamedTuple):
    """A variable gets a value."""
    place: Place
    value: tuple


class Choose(NamedTuple):
    """The statements of the first branch whose condition is true, else those behind ELSE."""
    branches: list
    otherwise: list


class Held(NamedTuple):
    """A variable of the image."""
    name: str
    type: str
    location: Optional[tuple]
    initial: Union[int, bool]


class Association(NamedTuple):
    """The action (by its number among a chart's actions), the qualifier and the time of an association of a step."""
    step: int
    action: int
    qualifier: str
    time: Union[None, int, Place]


class Action(NamedTuple):
    """An action: a Boolean one has the place of its variable, a declared one its statements."""
    name: str
    place: Optional[Place]
    statements: Optional[list]


class Transition(NamedTuple):
    """A transition: its preceding and following steps as sets of numbers, its condition, its priority and its name."""
    before: frozenset
    after: frozenset
    condition: tuple
    priority: Optional[int]
    name: Optional[str]


class Chart(NamedTuple):
    """What a program type says. Actions stand in the order of their first association.

    `bodies` has the numbers of the declared actions that are associated, in the order of their declarations, and `declared` the names
    of all that are declared; `ranked` has the numbers of the transitions, the first in rank first; `scope` is that of conditions.
    """
    own: list
    steps: list
    initial: frozenset
    associations: list
    actions: list
    bodies: list
    declared: list
    transitions: list
    ranked: list
    scope: object


class PlantTask(NamedTuple):
    """A task: SINGLE is the number of a global variable, or None."""
    name: str
    single: Optional[int]
    interval: int
    priority: int


class PlantInstance(NamedTuple):
    """A program instance; `first` is the number that the first of its own variables has in the image."""
    name: str
    task: int
    chart: Chart
    first: int

    def variable(self, place: Place) -> int:
        """The number in the image of a variable that the program type names."""
        return place.number + (self.first if place.own else 0)


class Plant(NamedTuple):
    """Variables in image order, of which the first are the global ones; tasks; instances."""
    variables: list
    globals: int
    tasks: list
    instances: list


RANGES = {"INT": (-2 ** 15, 2 ** 15 - 1), "DINT": (-2 ** 31, 2 ** 31 - 1), "TIME": (-2 ** 62, 2 ** 62), "BOOL": (0, 1)}
SIZES = {"BOOL": "X", "INT": "W", "DINT": "D"}
ADDING, MULTIPLYING, LOGICAL = ("+", "-"), ("*", "/", "MOD"), ("AND", "XOR", "OR")


def refuse(what: str):
    """Ends the loading with a refusal."""
    raise Refused("refused " + what)


def fits(value, kind: str) -> bool:
    """Whether a value lies in the range of a type."""
    lowest, highest = RANGES[kind]
    return lowest <= value <= highest


def place_of(names: list, name: str):
    """The number of a name in a list, in whatever capitals; None where it isn't there. A declared name is ASCII."""
    wanted = name.upper() if name.isascii() else None
    return next((number for number, other in enumerate(names) if other.upper() == wanted), None)


def literal(tree, wanted: str) -> Literal:
    """The value of a literal where a type is wanted."""
    if isinstance(tree, grammar.Typed) and tree.type != wanted:
        refuse("10 WrongType")
    if isinstance(tree, grammar.Integer) and wanted == "TIME":
        refuse("10 WrongType")
    if not fits(tree.value, wanted):
        refuse("11 LiteralRange")
    return Literal(bool(tree.value) if wanted == "BOOL" else tree.value, wanted)


class Scope:
    """What the names of a program type stand for; `action` is the declared action in whose body they stand."""

    def __init__(self, variables: dict, steps: list, action=None):
        self.variables, self.steps, self.action = variables, steps, action

    def find(self, name: str):
        """Place and type of a variable, or None."""
        return self.variables.get(name.upper())

    def dotted(self, tree):
        """Meaning and type of a name with a point, or None."""
        suffix, step = tree.suffix.upper(), place_of(self.steps, tree.name)
        if suffix == "X" and step is not None:
            return StepFlag(step), "BOOL"
        if suffix == "T" and step is not None:
            return StepTime(step), "TIME"
        if suffix == "Q" and self.action is not None and self.action.upper() == tree.name.upper():
            return ActionQ(), "BOOL"
        return None

    def natural(self, tree):
        """The type that an expression has by itself, or None."""
        if isinstance(tree, grammar.Name):
            found = self.find(tree.name)
            return found and found[1]
        if isinstance(tree, grammar.Dotted):
            found = self.dotted(tree)
            return found and found[1]
        if isinstance(tree, grammar.Typed):
            return tree.type
        if isinstance(tree, grammar.Integer):
            return None
        if isinstance(tree, grammar.Prefix):
            return "BOOL" if tree.operator == "NOT" else self.natural(tree.operand)
        if tree.operator in ADDING + MULTIPLYING:
            return self.natural(tree.left) or self.natural(tree.right)
        return "BOOL"

    def check(self, tree, wanted: str):
        """The expression with its types, where this type is wanted of it."""
        if isinstance(tree, (grammar.Integer, grammar.Typed)):
            return literal(tree, wanted)
        if isinstance(tree, (grammar.Name, grammar.Dotted)):
            return self.check_name(tree, wanted)
        if isinstance(tree, grammar.Prefix):
            return self.check_prefix(tree, wanted)
        return self.check_binary(tree, wanted)

    def check_name(self, tree, wanted: str):
        """A variable, a flag or time of a step, or Q."""
        found = self.find(tree.name) if isinstance(tree, grammar.Name) else self.dotted(tree)
        if not found:
            refuse("9 Unknown")
        if found[1] != wanted:
            refuse("10 WrongType")
        return Variable(found[0]) if isinstance(tree, grammar.Name) else found[0]

    def check_prefix(self, tree, wanted: str):
        """NOT or a minus."""
        if wanted not in (("BOOL",) if tree.operator == "NOT" else ("INT", "DINT")):
            refuse("10 WrongType")
        operand = self.check(tree.operand, wanted)
        return Not(operand) if tree.operator == "NOT" else Minus(wanted, operand)

    def check_binary(self, tree, wanted: str):
        """An operator between two operands."""
        if tree.operator in ADDING:
            accepted, inner = ("INT", "DINT", "TIME"), wanted
        elif tree.operator in MULTIPLYING:
            accepted, inner = ("INT", "DINT"), wanted
        elif tree.operator in LOGICAL:
            accepted, inner = ("BOOL",), "BOOL"
        else:
            accepted, inner = ("BOOL",), self.natural(tree.left) or self.natural(tree.right) or "DINT"
        if wanted not in accepted or (tree.operator in ("<", ">", "<=", ">=") and inner == "BOOL"):
            refuse("10 WrongType")
        return Operation(tree.operator, inner, self.check(tree.left, inner), self.check(tree.right, inner))

    def statement(self, tree):
        """A statement with its types."""
        if isinstance(tree, grammar.If):
            branches = [(self.check(condition, "BOOL"), self.statements(inner)) for condition, inner in tree.branches]
            return Choose(branches, self.statements(tree.otherwise or []))
        if tree.suffix:
            refuse("12 NotAssignable")
        found = self.find(tree.target)
        if not found:
            refuse("9 Unknown")
        return Assign(found[0], self.check(tree.value, found[1]))

    def statements(self, trees: list) -> list:
        """Statements with their types."""
        return [self.statement(tree) for tree in trees]


def held(declaration) -> Held:
    """A variable of a declaration; without an initial value it begins FALSE, 0 or T#0s."""
    kind, location = declaration.type, declaration.location
    if location and SIZES.get(kind) != location[1]:
        refuse("10 WrongType")
    first = literal(declaration.initial, kind).value if declaration.initial else (False if kind == "BOOL" else 0)
    return Held(declaration.name, kind, location, first)


LIMITS = {"Steps": 1_024, "Transitions": 2_048, "Associations": 4_096, "Variables": 4_096, "Instances": 64, "Tasks": 16}


def watch_limit(what: str, count: int):
    """Refuses more than there may be."""
    if count > LIMITS[what]:
        refuse(f"22 Limit {what}")


def watch_double(seen: set, name: str):
    """Refuses a name that stands before, in whatever capitals, and notes it."""
    if name.upper() in seen:
        refuse("13 Duplicate")
    seen.add(name.upper())


def load_task(task, variables: list) -> PlantTask:
    """A task over the global variables."""
    single = None
    if task.single is not None:
        single = place_of([variable.name for variable in variables], task.single)
        if single is None:
            refuse("9 Unknown")
        if variables[single].type != "BOOL":
            refuse("17 NotBool")
    if task.interval < 0:
        refuse("11 LiteralRange")
    return PlantTask(task.name, single, task.interval, task.priority)


class ChartLoader:
    """Loads one program type over the global variables."""

    def __init__(self, tree, global_variables: list):
        self.tree, self.globals = tree, global_variables
        self.own, self.actions, self.action_numbers = [], [], {}
        self.variables = {held_one.name.upper(): (Place(False, number), held_one.type)
                          for number, held_one in enumerate(global_variables)}
        self.steps = [step.name for step in tree.steps]
        self.step_numbers = {name.upper(): number for number, name in enumerate(self.steps)}

    def load(self) -> Chart:
        """The chart of the program type."""
        watch_limit("Steps", len(self.tree.steps))
        watch_limit("Transitions", len(self.tree.transitions))
        watch_limit("Associations", sum(len(step.associations) for step in self.tree.steps))
        self.load_variables()
        initial = frozenset(number for number, step in enumerate(self.tree.steps) if step.initial)
        if not initial:
            refuse("14 NoInitial")
        associations = [self.association(number, association)
                        for number, step in enumerate(self.tree.steps) for association in step.associations]
        transitions = [self.transition(transition) for transition in self.tree.transitions]
        ranked = sorted(range(len(transitions)), key=lambda number: rank(transitions[number], number))
        declared = {action.name.upper(): self.scope(action.name).statements(action.statements) for action in self.tree.actions}
        actions = [action if action.place else action._replace(statements=declared[action.name.upper()]) for action in self.actions]
        bodies = [self.action_numbers[action.name.upper()] for action in self.tree.actions
                  if action.name.upper() in self.action_numbers]
        names = [action.name for action in self.tree.actions]
        return Chart(self.own, self.steps, initial, associations, actions, bodies, names, transitions, ranked, self.scope())

    def scope(self, action=None) -> Scope:
        """The names as they stand in a condition, or in the body of an action."""
        return Scope(self.variables, self.steps, action)

    def load_variables(self):
        """The program type's own variables and its externals; a name of its own hides a global one."""
        tree, seen, names = self.tree, dict(self.variables), set()
        for one in tree.variables:
            watch_double(names, one.name)
            if isinstance(one, grammar.Declaration):
                self.variables[one.name.upper()] = (Place(True, len(self.own)), one.type)
                self.own.append(held(one))
            elif one.name.upper() not in seen:
                refuse("9 Unknown")
            elif seen[one.name.upper()][1] != one.type:
                refuse("10 WrongType")
        transitions = [transition.name for transition in tree.transitions if transition.name]
        for name in self.steps + [one.name for one in tree.actions] + transitions:
            watch_double(names, name)

    def boolean_action(self, name: str) -> Action:
        """The action that a BOOL variable is by itself; it has the spelling of the variable's declaration."""
        found = self.variables.get(name.upper())
        if not found:
            refuse("16 UnknownAction")
        if found[1] != "BOOL":
            refuse("17 NotBool")
        declared = (self.own if found[0].own else self.globals)[found[0].number].name
        return Action(declared, found[0], None)

    def action(self, name: str) -> int:
        """The number of an action, which it gets with its first association: a declared one, else a variable."""
        known = name.upper()
        if known not in self.action_numbers:
            declared = place_of([action.name for action in self.tree.actions], name)
            made = self.boolean_action(name) if declared is None else Action(self.tree.actions[declared].name, None, [])
            self.action_numbers[known] = len(self.actions)
            self.actions.append(made)
        return self.action_numbers[known]

    def association(self, step: int, tree) -> Association:
        """An association of a step, its time as microseconds or as the place of a TIME variable."""
        action, time = self.action(tree.action), tree.time
        if isinstance(time, str):
            found = self.variables.get(time.upper())
            if not found:
                refuse("9 Unknown")
            if found[1] != "TIME":
                refuse("18 NotTime")
            time = found[0]
        if any(name.upper() not in self.variables for name in tree.indicators):
            refuse("9 Unknown")
        return Association(step, action, tree.qualifier, time)

    def numbered_step(self, name: str):
        """The number of a step, or None."""
        return self.step_numbers.get(name.upper())

    def transition(self, tree) -> Transition:
        """A transition between steps by their numbers."""
        sides = []
        for names in (tree.before, tree.after):
            numbers = [self.numbered_step(name) for name in names]
            seen = set()
            for name, number in zip(names, numbers):
                if number is None:
                    refuse("15 UnknownStep")
                watch_double(seen, name)
            sides.append(frozenset(numbers))
        return Transition(*sides, self.scope().check(tree.condition, "BOOL"), tree.priority, tree.name)


def rank(transition: Transition, number: int) -> tuple:
    """Transitions with a priority number come first, the lowest first; all others follow, each kind by text order."""
    unnumbered = transition.priority is None
    return (unnumbered, 0 if unnumbered else transition.priority, number)


def load_globals(declarations: list) -> list:
    """The global variables."""
    found, names = [], set()
    for one in declarations:
        watch_double(names, one.name)
        found.append(held(one))
    return found


def load_tasks(trees: list, variables: list) -> list:
    """The tasks, over the global variables."""
    watch_limit("Tasks", len(trees))
    found, names = [], set()
    for one in trees:
        watch_double(names, one.name)
        found.append(load_task(one, variables))
    return found


def load_charts(trees: list, variables: list) -> list:
    """The charts of the program types, over the global variables."""
    found, names = [], set()
    for one in trees:
        watch_double(names, one.name)
        found.append(ChartLoader(one, variables).load())
    return found


def load_instances(source, tasks: list, charts: list, first: int) -> list:
    """The instances; the variables of the first one stand behind so many global ones."""
    watch_limit("Instances", len(source.instances))
    found, names = [], set()
    for one in source.instances:
        watch_double(names, one.name)
        task = None if one.task is None else place_of([task.name for task in tasks], one.task)
        number = place_of([kind.name for kind in source.types], one.type)
        if task is None:
            refuse("19 NoTask")
        if number is None:
            refuse("20 UnknownType")
        found.append(PlantInstance(one.name, task, charts[number], first))
        first += len(charts[number].own)
    return found


def load(source) -> Plant:
    """The plant of a tree; raises Refused with the first check that fails."""
    variables = load_globals(source.globals)
    first = len(variables)
    tasks = load_tasks(source.tasks, variables)
    charts = load_charts(source.types, variables[:])
    instances = load_instances(source, tasks, charts, first)
    watch_limit("Variables", first + sum(len(one.chart.own) for one in instances))
    for one in instances:
        variables += [own._replace(name=f"{one.name}.{own.name}") for own in one.chart.own]
    locations = [variable.location for variable in variables if variable.location]
    if len(set(locations)) < len(locations):
        refuse("21 SameLocation")
    return Plant(variables, first, tasks, instances)
