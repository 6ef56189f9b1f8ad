"""Terms of both sides: numbers as bit vectors, memory as one opaque value, states of a run and how they join.

Nothing here knows the program's forms or C's. Memory is of a sort with no axioms; reading, writing and filling it and calling a function
are functions of it that are not interpreted. So two memories are equal only where both sides did the same writes, fills and calls
in the same order: README.md says why that is enough.
"""
import z3

Mem = z3.DeclareSort('Mem')
BV = z3.BitVecSort
BOOL = z3.BoolSort()
TRUE, FALSE = z3.BoolVal(True), z3.BoolVal(False)
FUNCTIONS = {}


class Refused(Exception):
    """Not shown equal, or a form that is not known. `variable`: a loop's variable that is not equal at its head; `loop`: one that
    writes memory on one side only; `behind`: a loop and a local that is written there behind its address."""

    variable = loop = behind = None


def function(name, *sorts):
    """A function that is not interpreted; the last sort is its result's."""
    key = name, tuple(map(str, sorts))
    if key not in FUNCTIONS:
        FUNCTIONS[key] = z3.Function(name + ' ' + ' '.join(map(str, sorts)), *sorts)
    return FUNCTIONS[key]


def number(value, width=64):
    return z3.BitVecVal(value, width)


def simple(term):
    return z3.simplify(term)


def conjunction(parts):
    return TRUE if not parts else parts[0] if len(parts) == 1 else z3.And(*parts)


def negation(test):
    return simple(z3.Not(test))


def choice(test, a, b):
    if a is b or type(a) is type(b) and a.eq(b):
        return a
    if not z3.is_expr(a) or not z3.is_expr(b):
        raise Refused('two addresses of values meet')
    return z3.If(test, a, b)


def bits_of(test, width):
    return z3.If(test, number(1, width), number(0, width))


def literal_of(term):
    """The number that a term is, or None."""
    term = simple(term) if z3.is_bv(term) else term
    return term.as_long() if z3.is_bv_value(term) else None


def segments(term):
    """A term as parts side by side, highest first: (width, part), or (width, None) for zeros."""
    if z3.is_app_of(term, z3.Z3_OP_CONCAT):
        return [segment for part in term.children() for segment in segments(part)]
    return [(term.size(), None if literal_of(term) == 0 else term)]


def either(x, y):
    """x | y; where one side has zeros wherever the other has not, the parts side by side: so bytes that are put together have one form."""
    ours, theirs, out = segments(simple(x)), segments(simple(y)), []
    while ours:
        (width, a), (other, b) = ours[0], theirs[0]
        least = min(width, other)
        if a is not None and b is not None:
            return x | y
        part, whole = (a, width) if b is None else (b, other)
        if part is not None and whole != least:
            return x | y
        out.append(part if part is not None else number(0, least))
        for side, size, segment in ((ours, width, a), (theirs, other, b)):
            side[:1] = [(size - least, segment)] if size > least else []
    return simple(z3.Concat(*out)) if len(out) > 1 else out[0]


# ---- memory

def read(memory, pointer, width):
    return function(f'read{width}', Mem, BV(64), BV(width))(memory, simple(pointer))


def written(memory, pointer, value):
    return function(f'write{value.size()}', Mem, BV(64), value.sort(), Mem)(memory, simple(pointer), value)


def filled(memory, pointer, count, item):
    """So many items of one value from a pointer on."""
    return function(f'fill{item.size()}', Mem, BV(64), BV(64), item.sort(), Mem)(memory, simple(pointer), number(count), simple(item))


def read_array(memory, pointer, sort):
    return function('read array', Mem, BV(64), sort)(memory, simple(pointer))


def written_array(memory, pointer, value):
    return function('write array', Mem, BV(64), value.sort(), Mem)(memory, simple(pointer), value)


def called(name, leaves, memory, sorts):
    """Results of a call, leaf by leaf, and the memory after it."""
    head = [Mem] + [leaf.sort() for leaf in leaves]
    results = [known(function(f'{name} result {i}', *head, sort)(memory, *leaves)) for i, sort in enumerate(sorts)]
    return results, function(f'{name} memory', *head, Mem)(memory, *leaves)


# ---- arithmetic that neither side takes apart

def count_ones(x):
    return function('count ones', BV(64), BV(32))(x)


def trailing_zeros(x):
    return function('trailing zeros', BV(64), BV(32))(x)


def leading_zeros(x):
    return function('leading zeros', BV(64), BV(32))(x)


def signed_quotient(x, y):
    """Towards zero, at 64 bits; narrower numbers are widened by their sign first."""
    return function('signed quotient', BV(64), BV(64), BV(64))(x, y)


def signed_remainder(x, y):
    return function('signed remainder', BV(64), BV(64), BV(64))(x, y)


def widened(x, width, signed):
    return x if x.size() == width else (z3.SignExt if signed else z3.ZeroExt)(width - x.size(), x)


def resized(x, width, signed=False):
    return low_bits(simple(x), width) if x.size() > width else widened(x, width, signed)


LOW_BITS = {z3.Z3_OP_BADD: lambda a, b: a + b, z3.Z3_OP_BMUL: lambda a, b: a * b, z3.Z3_OP_BAND: lambda a, b: a & b,
            z3.Z3_OP_BXOR: lambda a, b: a ^ b}


def low_bits(x, width):
    """The low bits of a term; of a sum, a product and so on those of the parts, on which alone they depend: so narrow numbers that C
    computes in wider ones have the form that they have in the program."""
    of = LOW_BITS.get(x.decl().kind())
    if of is None:
        return z3.Extract(width - 1, 0, x)
    parts = [low_bits(part, width) for part in x.children()]
    out = parts[0]
    for part in parts[1:]:
        out = of(out, part)
    return simple(out)


def sign_extended(x, width):
    """A signed number in more bits, in the form that C text has it: the sign bit flipped, and taken off again. helpers_check.py proves
    it to be the extension."""
    half = number(1 << x.size() - 1, width)
    return x if x.size() == width else (z3.ZeroExt(width - x.size(), x) ^ half) - half


def signed_order(op, x, y):
    """Signed numbers compare as naturals with the sign bit flipped."""
    flip = number(1 << 63)
    return op(sign_extended(x, 64) ^ flip, sign_extended(y, 64) ^ flip)


# ---- values: a leaf is (term, whether it is written), or None if never written; a struct is a list of values

def known(term):
    return term, TRUE


def joined(test, a, b):
    """The value that is a where the test holds, else b."""
    if a is b:
        return a
    if isinstance(a, list) or isinstance(b, list):
        count = len(a if isinstance(a, list) else b)
        return [joined(test, x, y) for x, y in zip(a or [None] * count, b or [None] * count)]
    if a is None:
        return b[0], z3.And(z3.Not(test), b[1])
    if b is None:
        return a[0], z3.And(test, a[1])
    return choice(test, a[0], b[0]), choice(test, a[1], b[1])


def leaves_of(value):
    if isinstance(value, list):
        return [leaf for part in value for leaf in leaves_of(part)]
    return [value]


# ---- shapes: a sort, a list of shapes, an Enum, or ('array', sort of an item, count)

class Enum(list):
    """An enum: its tag and a place for each field. `uses`: for each field the tags of the variants that have it; under others it holds nothing."""

    def __init__(self, shapes, uses):
        super().__init__(shapes)
        self.uses = uses


def same_shape(a, b):
    """Sorts may only be compared with sorts."""
    if isinstance(a, list) or isinstance(b, list):
        return isinstance(a, list) and isinstance(b, list) and len(a) == len(b) and all(same_shape(x, y) for x, y in zip(a, b))
    if isinstance(a, tuple) or isinstance(b, tuple):
        return isinstance(a, tuple) and isinstance(b, tuple) and a[2:] == b[2:] and same_shape(a[1], b[1])
    return a == b


def fits(value, shape):
    """Whether a value, or the parts of it that were written, has this shape."""
    if value is None:
        return True
    if isinstance(shape, list):
        return isinstance(value, list) and len(value) == len(shape) and all(map(fits, value, shape))
    return not isinstance(value, list)


def counting(value, shape):
    """(leaf, test) of each leaf of a value: under which it counts. The place of an enum's field counts where the tag is that of a variant that has it."""
    if isinstance(shape, Enum):
        value = value or [None] * len(shape)
        out = [(value[0], TRUE)]
        for part, inner, tags in zip(value[1:], shape[1:], shape.uses):
            used = FALSE if value[0] is None else simple(z3.Or(*[value[0][0] == tag for tag in sorted(tags)]))
            out += [(leaf, simple(z3.And(used, test))) for leaf, test in counting(part, inner)]
        return out
    if isinstance(shape, list):
        return [pair for part, inner in zip(value or [None] * len(shape), shape) for pair in counting(part, inner)]
    return [(value, TRUE)]


def used_leaves(value, shape):
    """The leaves of a value, 0 where one does not count; written there."""
    out = []
    for (leaf, test), sort in zip(counting(value, shape), sorts_of(shape)):
        if z3.is_true(test):
            out.append(leaf)
        elif z3.is_false(test):
            out.append(known(nothing(sort)))
        elif leaf is None:
            out.append((nothing(sort), z3.Not(test)))
        else:
            out.append((choice(test, leaf[0], nothing(sort)), z3.Implies(test, leaf[1])))
    return out


def nothing(sort):
    if sort == BOOL:
        return FALSE
    return number(0, sort.size()) if isinstance(sort, z3.BitVecSortRef) else z3.Const(f'nothing {sort}', sort)


def sorts_of(shape):
    """The sorts of a shape's leaves."""
    if isinstance(shape, list):
        return [sort for part in shape for sort in sorts_of(part)]
    return [array_sort(shape)] if isinstance(shape, tuple) else [shape]


def array_sort(shape):
    """An array as one value that is only copied."""
    return z3.DeclareSort(f'Array of {shape[2]} x {shape[1].size()} bits')


def symbols(shape, name):
    """A value of which nothing is known but its shape."""
    if isinstance(shape, list):
        return [symbols(part, f'{name}.{i}') for i, part in enumerate(shape)]
    return known(z3.Const(name, array_sort(shape) if isinstance(shape, tuple) else shape))


def shaped(shape, leaves):
    """A value of a shape from its leaves, which are used up."""
    if isinstance(shape, list):
        return [shaped(part, leaves) for part in shape]
    return leaves.pop(0)


def bytes_of(shape):
    if isinstance(shape, list):
        return sum(map(bytes_of, shape))
    if isinstance(shape, tuple):
        return shape[2] * shape[1].size() // 8
    return 1 if same_shape(shape, BOOL) else shape.size() // 8


# ---- states

class State:
    """At one point of a run: the tests that led here, the locals' values, memory."""

    def __init__(self, guard, locals_, memory):
        self.guard, self.locals, self.memory = guard, locals_, memory

    def under(self, test):
        return State(self.guard + (test,), dict(self.locals), self.memory)

    def copy(self):
        return State(self.guard, dict(self.locals), self.memory)


def merge(states):
    """One state for several that no run can reach both of, or None. Their guards part at a test that one has and the other denies."""
    states = [state for state in states if state is not None]
    if not states:
        return None
    while len(states) > 1:
        b, a = states.pop(), states.pop()
        states.append(merged(a, b))
    return states[0]


def merged(a, b):
    shared = 0
    while shared < min(len(a.guard), len(b.guard)) and a.guard[shared].eq(b.guard[shared]):
        shared += 1
    first, second = a.guard[shared:], b.guard[shared:]
    if not first or not second:
        raise Refused('two ways to one point that are not told apart')
    test, guard = conjunction(first), a.guard[:shared]
    if not (len(first) == len(second) == 1 and negation(first[0]).eq(second[0])):
        guard += (simple(z3.Or(test, conjunction(second))),)
    values = {name: joined(test, a.locals.get(name), b.locals.get(name)) for name in {**a.locals, **b.locals}}
    return State(guard, values, choice(test, a.memory, b.memory))


class Run:
    """What one side's run leaves to compare. Every entry begins with the guard under which it counts."""

    def __init__(self):
        self.returns = []           # states
        self.heads = []             # of loops, in the order of the text
        self.accesses = []          # (guard, 'read' or 'write', width or sort, pointer)
        self.calls = []             # (guard, name, leaves, memory)
        self.duties = []            # (guard, what, test): to be proved
        self.facts = []             # (guard, test): holds in every run that gets there
        self.formed = []            # (guard, pointer): C computes it
        self.blocks = []            # (guard, pointer, bytes): memory that the program has in one block from there on

    def access(self, state, kind, width, pointer):
        self.accesses.append((state.guard, kind, width, simple(pointer)))

    def duty(self, state, what, test):
        test = simple(test)
        if not z3.is_true(test):
            self.duties.append((state.guard, what, test))

    def fact(self, state, test):
        test = simple(test)
        if not z3.is_true(test):
            self.facts.append((state.guard, test))

    def write_leaf(self, state, pointer, term):
        """Writes a leaf of a value to memory; gives the address after it."""
        if z3.is_bool(term):
            raise Refused('a bool in memory')
        if z3.is_bv(term):
            self.access(state, 'write', term.size(), pointer)
            state.memory = written(state.memory, pointer, term)
            return pointer + number(term.size() // 8)
        self.access(state, 'write', str(term.sort()), pointer)
        state.memory = written_array(state.memory, pointer, term)
        return pointer


class Head:
    """A loop's head: what is taken anew there, and the states that arrive."""

    def __init__(self, entry, changed, memory):
        self.entry, self.changed, self.memory, self.back = entry, changed, memory, None
