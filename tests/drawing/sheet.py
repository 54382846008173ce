"""A reader of SVG, as far as `sfcmon draw` writes it: what stands where, and which element it belongs to."""

import re
import xml.etree.ElementTree as ET
from dataclasses import dataclass, field

SPACE = "{http://www.w3.org/2000/svg}"
# How wide a character is, in tenths of a pixel, and how high it rises, by the size of its font.
SMALL, USUAL = (61, 7), (72, 9)


@dataclass(frozen=True)
class Room:
    """A rectangle, with the element that it belongs to and what it is."""

    owner: str
    kind: str
    left: int
    top: int
    right: int
    bottom: int

    def meets(self, other) -> bool:
        """Whether they have a point within both."""
        return self.left < other.right and other.left < self.right and self.top < other.bottom and other.top < self.bottom

    def holds(self, other) -> bool:
        """Whether the other lies within this one."""
        return self.left <= other.left and other.right <= self.right and self.top <= other.top and other.bottom <= self.bottom

    def touches(self, point: tuple) -> bool:
        """Whether a point lies on it, or a pixel beside it."""
        return self.left - 1 <= point[0] <= self.right + 1 and self.top - 1 <= point[1] <= self.bottom + 1


@dataclass
class Element:
    """A group with an id."""

    title: str
    classes: list
    texts: list = field(default_factory=list)
    boxes: list = field(default_factory=list)
    lines: list = field(default_factory=list)
    # The corners of its first line, in turn.
    course: list = field(default_factory=list)


def numbers(node, *names) -> list:
    """Attributes that are whole numbers."""
    return [int(node.get(name)) for name in names]


def corners(path: str) -> list:
    """The corners of a path of horizontal and vertical lines, each with whether a line leads to it."""
    found, x, y = [], 0, 0
    for letter, first, second in re.findall(r"([MHV])(-?\d+)(?: (-?\d+))?", path):
        if letter == "M":
            x, y = int(first), int(second)
        elif letter == "H":
            x = int(first)
        else:
            y = int(first)
        found.append((letter != "M", x, y))
    return found


class Sheet:
    """A picture."""

    def __init__(self, text: str):
        self.root = ET.fromstring(text)
        self.width, self.height = numbers(self.root, "width", "height")
        self.boxes, self.lines, self.texts, self.ids = [], [], [], []
        self.elements = {}
        self.charts = {}
        self.walk(self.root, 0, 0, None)

    def walk(self, node, right: int, down: int, owner):
        """Takes in a node, moved so far, and what stands below it."""
        if moved := re.fullmatch(r"translate\((-?\d+) (-?\d+)\)", node.get("transform") or ""):
            right, down = right + int(moved[1]), down + int(moved[2])
        classes = (node.get("class") or "").split()
        if node.get("id"):
            owner = node.get("id")
            self.ids.append(owner)
            title = node[0].text if len(node) and node[0].tag == f"{SPACE}title" else None
            self.elements[owner] = Element(title, classes)
            if "chart" in classes:
                self.charts[owner] = title
        if node.tag == f"{SPACE}rect":
            self.take_box(node, classes, right, down, owner)
        elif node.tag == f"{SPACE}text":
            self.take_text(node, classes, right, down, owner)
        elif node.tag == f"{SPACE}path" and "l" in classes:
            self.take_path(node, right, down, owner)
        for below in node:
            self.walk(below, right, down, owner)

    def take_box(self, node, classes, right, down, owner):
        """A box, a cell or a bar."""
        if "paper" in classes or "inner" in classes:
            return
        x, y, width, height = numbers(node, "x", "y", "width", "height")
        room = Room(owner, classes[0], x + right, y + down, x + width + right, y + height + down)
        self.boxes.append(room)
        self.elements[owner].boxes.append(room)

    def take_text(self, node, classes, right, down, owner):
        """A text."""
        said = "".join(node.itertext())
        self.elements[owner].texts.append((classes, said))
        if not said:
            return
        wide, high = SMALL if {"q", "time"} & set(classes) else USUAL
        width = (len(said) * wide + 9) // 10
        x, y = numbers(node, "x", "y")
        left = x + right - (width // 2 if "mid" in classes else width if "end" in classes else 0)
        self.texts.append(Room(owner, said, left, y + down - high, left + width, y + down + 2))

    def take_path(self, node, right, down, owner):
        """Lines."""
        element, course, before = self.elements[owner], [], None
        for is_drawn, x, y in corners(node.get("d")):
            point = (x + right, y + down)
            course.append(point)
            if is_drawn:
                line = Room(owner, "line", min(before[0], point[0]), min(before[1], point[1]), max(before[0], point[0]), max(before[1], point[1]))
                self.lines.append(line)
                element.lines.append(line)
            before = point
        element.course = element.course or course

    def of_class(self, chart: str, name: str) -> dict:
        """The elements of a chart that have this class, by their ids."""
        return {it: element for it, element in self.elements.items() if name in element.classes and it.startswith(f"{chart}-")}
