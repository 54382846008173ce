"""That nothing on a sheet lies on something else."""

from collections import defaultdict

from sheet import Room, Sheet

CELL = 64


class Grid:
    """Rooms by the squares that they lie in."""

    def __init__(self, rooms: list):
        self.squares = defaultdict(list)
        for room in rooms:
            for square in squares_of(room):
                self.squares[square].append(room)

    def near(self, room: Room) -> list:
        """The rooms in the squares of this one, each once."""
        return list(dict.fromkeys(it for square in squares_of(room) for it in self.squares.get(square, ())))


def squares_of(room: Room):
    """The squares that a room lies in."""
    for column in range(room.left // CELL, room.right // CELL + 1):
        for row in range(room.top // CELL, room.bottom // CELL + 1):
            yield column, row


def is_level(line: Room) -> bool:
    """Whether a line is horizontal."""
    return line.top == line.bottom


def goes_through(line: Room, room: Room) -> bool:
    """Whether a line has a point inside of a box or a text."""
    if is_level(line):
        return room.top < line.top < room.bottom and line.left < room.right and room.left < line.right
    return room.left < line.left < room.right and line.top < room.bottom and room.top < line.bottom


def is_at_bar(line: Room, bar: Room) -> bool:
    """Whether a line only begins or ends at the middle of a bar."""
    return not is_level(line) and 2 * line.left in (bar.left + bar.right - 1, bar.left + bar.right, bar.left + bar.right + 1)


def crosses(level: Room, upright: Room) -> bool:
    """Whether a horizontal line and a vertical one cross, each inside of the other."""
    return level.left < upright.left < level.right and upright.top < level.top < upright.bottom


def overlapping(rooms: list):
    """Pairs of rooms that overlap."""
    grid, place = Grid(rooms), {room: number for number, room in enumerate(rooms)}
    if len(place) < len(rooms):
        yield next((room, room) for room in rooms if rooms.count(room) > 1)
    for room in rooms:
        for other in grid.near(room):
            if place[room] < place[other] and room.meets(other):
                yield room, other


def lying(lines: list):
    """Pairs of lines that lie on each other for more than a pixel."""
    rows = defaultdict(list)
    for line in lines:
        if is_level(line):
            rows["row", line.top].append((line.left, line.right, line))
        else:
            rows["column", line.left].append((line.top, line.bottom, line))
    for row in rows.values():
        row.sort(key=lambda it: it[:2])
        for (_, end, first), (begin, _, second) in zip(row, row[1:]):
            if begin < end - 1:
                yield first, second


def faults_of(sheet: Sheet):
    """What is wrong with where things stand."""
    page = Room("", "page", 0, 0, sheet.width, sheet.height)
    for room in [*sheet.boxes, *sheet.texts, *sheet.lines]:
        if not page.holds(room):
            yield f"outside of the page: {room}"
    for first, second in overlapping(sheet.boxes):
        yield f"boxes overlap: {first} {second}"
    for first, second in overlapping(sheet.texts):
        yield f"texts overlap: {first} {second}"
    boxes, texts = Grid(sheet.boxes), Grid(sheet.texts)
    for text in sheet.texts:
        for box in boxes.near(text):
            if text.meets(box) and not box.holds(text):
                yield f"a text over the edge of a box: {text} {box}"
    for line in sheet.lines:
        for box in boxes.near(line):
            if goes_through(line, box) and not (box.kind == "bar" and is_at_bar(line, box)):
                yield f"a line through a box: {line} {box}"
        for text in texts.near(line):
            if goes_through(line, text):
                yield f"a line through a text: {line} {text}"
    upright = Grid([line for line in sheet.lines if not is_level(line)])
    for line in sheet.lines:
        if is_level(line):
            for other in upright.near(line):
                if not is_level(other) and crosses(line, other):
                    yield f"lines cross: {line} {other}"
    for first, second in lying(sheet.lines):
        yield f"lines lie on each other: {first} {second}"
