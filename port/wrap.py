"""Two branches that give the same number modulo 2^64 become one sum that wraps round, as C's of uint64_t do.

One rule, true of all numbers: sums and differences of the same terms are the same modulo 2^64, in whatever order they are taken. So
`if low <= x { x - low } else { x + (MAX - low) + 1 }` is x - low.
"""
from collections import Counter

from fold import reads_memory
from forms import U64, Assign, Binary, If, Int, Return, inside, with_bodies

WRAPPING = {'Add': 'WrapAdd', 'Sub': 'WrapSub'}
SIGN = {'Add': 1, 'Sub': -1, 'WrapAdd': 1, 'WrapSub': -1}
ONE = Int(64, 1)


def terms(value, times=1):
    """How often each term is added, modulo 2^64; a literal counts as that many ones."""
    if isinstance(value, Int):
        return Counter({ONE: times * value.value % 2 ** 64})
    if isinstance(value, Binary) and value.op in SIGN:
        total = terms(value.left, times)
        for term, more in terms(value.right, times * SIGN[value.op]).items():
            total[term] = (total[term] + more) % 2 ** 64
        return total
    return Counter({value: times % 2 ** 64})


def wrapping(value):
    """The value with sums and differences that may wrap round."""
    if isinstance(value, Binary) and value.op in WRAPPING:
        return Binary(WRAPPING[value.op], wrapping(value.left), wrapping(value.right))
    return value


def size(value):
    return sum(1 for _ in inside(value))


def joined(then, other):
    """The one value that both branches give, or None."""
    return wrapping(min(then, other, key=size)) if +terms(then) == +terms(other) else None


def branches(function, statement, rest):
    """The place and the two values of an `if` that does nothing but choose between sums, and how many statements behind it belong to
    it: `{ return a; } return b;` chooses a result. What reads memory stays where it is."""
    if not isinstance(statement, If):
        return None
    then, other, behind = statement.then, statement.other, 0
    if not other and len(then) == 2 and then[1] == Return() and len(rest) == 2 and rest[1] == Return():
        then, other, behind = then[:1], rest[:1], 1
    if len(then) == len(other) == 1 and isinstance(then[0], Assign) and isinstance(other[0], Assign) and then[0].place == other[0].place:
        place, values = then[0].place, (then[0].value, other[0].value)
        if isinstance(place.base, int) and not place.steps and function.types[place.base] == U64 \
                and not any(reads_memory(value, function.in_memory) for value in values):
            return place, values, behind
    return None


def wrap(function):
    def treat(body):
        out, skip = [], 0
        for i, statement in enumerate(body):
            if skip:
                skip -= 1
                continue
            statement = with_bodies(statement, treat)
            found = branches(function, statement, body[i + 1:])
            value = joined(*found[1]) if found else None
            if value is not None:
                statement, skip = Assign(found[0], value), found[2]
            out.append(statement)
        return tuple(out)
    function.body = treat(function.body)
