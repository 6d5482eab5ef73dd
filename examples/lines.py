# The lines of a script, each a kind and three numbers, of which unused ones are 0; and scripts that several examples have.


def line(kind, first=0, second=0, third=0):
    return (kind, first, second, third)


def ask(register, item):
    return line(0, register, item)


def ask_at(register, at):
    return line(1, register, at)


def put(register, value):
    return line(2, register, value)


def add(register, left, right):
    return line(3, register, left, right)


def leave_out(left, right, lines):
    return line(4, left, right, lines)


def give(register):
    return line(5, register)


# A line of a kind that is not there, which names a register that is not there.
UNKNOWN = line(6, 8)

# Asks for item 3 and gives what it is told.
ECHO = [ask(0, 3), give(0)]

# Asks for items 0 and 1 and gives their sum.
SUM = [ask(0, 0), ask(1, 1), add(2, 0, 1), give(2)]
