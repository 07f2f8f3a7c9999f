"""A text that differs from a given one in one place."""

NUMBERS = ["0", "1", "4294967295", "4294967296", "01", "ok", "none", "true", "full", "-", "stranded", "cancelled", "toolarge"]


def change_reply(drawn, lines, order, state):
    if not order:
        return
    at = drawn.randrange(order)
    front, *words = lines[at].split(" ")
    words[drawn.randrange(len(words))] = drawn.choice(NUMBERS)
    lines[at] = " ".join([front, *words])


def exchange_places(drawn, lines, order, state):
    one, other = drawn.randrange(order + 1, state), drawn.randrange(order + 1, state)
    lines[one], lines[other] = lines[other], lines[one]


def exchange_neighbours(drawn, lines, order, state):
    if state - order < 3:
        return
    at = drawn.randrange(order + 1, state - 1)
    lines[at], lines[at + 1] = lines[at + 1], lines[at]


def move_place(drawn, lines, order, state):
    line = lines.pop(drawn.randrange(order + 1, state))
    lines.insert(drawn.randrange(order + 1, state), line)


def repeat_place(drawn, lines, order, state):
    lines[drawn.randrange(order + 1, state)] = lines[drawn.randrange(order + 1, state)]


def exchange_replies(drawn, lines, order, state):
    if order < 2:
        return
    one, other = drawn.randrange(order), drawn.randrange(order)
    for this, that in ((one, other), (other, one)):
        lines[this] = lines[this].split(" ")[0] + " " + lines[that].split(" ", 1)[1]


def change_state(drawn, lines, order, state):
    at = drawn.randrange(state + 1, len(lines) - 1)
    words = lines[at].split(" ")
    if len(words) > 1 and drawn.random() < 0.8:
        words[drawn.randrange(1, len(words))] = drawn.choice(NUMBERS)
    else:
        words.append(drawn.choice(NUMBERS))
    lines[at] = " ".join(words)


def drop_line(drawn, lines, order, state):
    del lines[drawn.randrange(len(lines))]


def repeat_line(drawn, lines, order, state):
    at = drawn.randrange(len(lines))
    lines.insert(at, lines[at])


def change_byte(drawn, lines, order, state):
    at = drawn.randrange(len(lines))
    line = lines[at]
    byte = chr(drawn.choice([10, 13, 32, 35, 46, 48, 57, 97, 200, drawn.randrange(256)]))
    place = drawn.randint(0, len(line))
    lines[at] = line[:place] + byte + line[place + drawn.randrange(2) :]


KINDS = [
    change_reply,
    exchange_places,
    exchange_neighbours,
    exchange_neighbours,
    move_place,
    repeat_place,
    exchange_replies,
    change_state,
    drop_line,
    repeat_line,
    change_byte,
]


def mutated(drawn, text):
    """Another text; the same one where the change changed nothing."""
    lines = text.split("\n")
    drawn.choice(KINDS)(drawn, lines, lines.index("order"), lines.index("state"))
    return "\n".join(lines)
