"""Places and values as C text, each with its type. README.md says form by form why the text has no undefined behaviour."""
import re

from c_types import item_of
from forms import (BOOL, U32, U64, UNIT, Address, Aggregate, Array, Binary, Bool, Cast, Choice, Copy, Deref, Field, Int, IntType, Load,
                   Named, Offset, Place, Ref, Slice, Stop, Unary, Variant)

SIGNS = {'Add': '+', 'Sub': '-', 'Mul': '*', 'Div': '/', 'Rem': '%', 'And': '&', 'Or': '|', 'Xor': '^', 'Shl': '<<', 'Shr': '>>',
         'Eq': '==', 'Ne': '!=', 'Lt': '<', 'Le': '<='}
COMPARISONS = ('Eq', 'Ne', 'Lt', 'Le')
# what leaves the range of naturals wraps round
SAME_BITS = {'SignedAdd': 'Add', 'SignedSub': 'Sub', 'SignedMul': 'Mul', 'WrapAdd': 'Add', 'WrapSub': 'Sub', 'WrapMul': 'Mul'}
SIGNED_HELPERS = {'SignedDiv': 'divide_signed', 'SignedRem': 'remainder_signed', 'SignedShr': 'shift_signed'}
OF_BOOLS = ('And', 'Or', 'Xor', 'Eq', 'Ne')
COUNTS = {'CountOnes': 'count_ones', 'TrailingZeros': 'trailing_zeros', 'LeadingZeros': 'leading_zeros'}


def bare(text):
    """The text without parentheses around the whole of it."""
    depth = 0
    for i, letter in enumerate(text):
        depth += (letter == '(') - (letter == ')')
        if depth == 0:
            return text[1:-1] if i and i == len(text) - 1 and letter == ')' else text
    return text


def is_literal(value):
    """A number written in digits, whose C type is as wide as the digits need; a cast to its own width changes nothing of that."""
    while isinstance(value, Cast) and isinstance(value.operand, (Int, Cast)) and value.operand.width == value.width:
        value = value.operand
    return isinstance(value, Int)


class Values:
    def __init__(self, types):
        self.types, self.helpers = types, set()

    # ---- places

    def place(self, f, place):
        if isinstance(place.base, int):
            text, t, steps = f.names[place.base], f.types[place.base], place.steps
        elif isinstance(place.base, Offset) and isinstance(place.steps[0], Deref):
            text, t = self.item(f, place.base)
            steps = place.steps[1:]
            if t != place.steps[0].target:
                raise Stop(f'memory of {t} read at {place.steps[0].target}')
        else:
            (text, t), steps = self.value(f, place.base), place.steps
        for step in steps:
            text, t = self.step(text, t, step)
        return text, t

    def step(self, text, t, step):
        if isinstance(step, Deref) and isinstance(t, Ref) and t.target == step.target and not isinstance(t.target, Array):
            return f'(*{text})', t.target
        if isinstance(step, Variant) and isinstance(t, Named) and self.types.is_enum(t):
            return text, (t, step.index)                            # the same place, seen as one variant; reads nothing
        if isinstance(step, Field):
            name, u = self.fields(t)[step.index]
            if isinstance(t, Slice) and name == 'len':
                return f'(uint64_t){text}.len', u                   # a size_t in memory; 64 bits in every sum
            arrow = re.fullmatch(r'\(\*(\w+)\)', text)
            return (f'{arrow[1]}->{name}' if arrow else f'{text}.{name}'), u
        raise Stop(f'step {step} at {t}')

    def fields(self, t):
        if isinstance(t, tuple):
            return self.types.variant_fields(*t)
        if isinstance(t, Slice):
            return self.types.slice_fields(t)
        if isinstance(t, Named) and self.types.is_struct(t):
            return self.types.members(t)
        raise Stop(f'a field of {t}')

    # ---- values

    def value(self, f, value, want=None):
        """Text and type; `want` is the type of the place that it goes to, for forms that do not tell theirs."""
        if isinstance(value, Copy):
            return self.place(f, value.place)
        if isinstance(value, Int):
            return self.literal(value), IntType(value.width)
        if isinstance(value, Bool):
            return 'true' if value.value else 'false', BOOL
        if isinstance(value, Binary):
            return self.binary(f, value)
        if isinstance(value, Cast):
            return self.cast(f, value)
        if isinstance(value, Unary):
            return self.unary(f, value)
        if isinstance(value, Choice):
            return self.choice(f, value)
        if isinstance(value, Address):
            return self.address(f, value.place)
        if isinstance(value, Offset):
            return self.moved(f, value)
        if isinstance(value, Load):
            self.helpers.add(f'load_{value.size}')
            return f'load_{value.size}({self.as_type(f, value.pointer, Ref(False, IntType(8)))})', U64
        if isinstance(value, Aggregate) and want is not None:
            return self.aggregate(f, value, want), want
        raise Stop(f'value {value}')

    def as_type(self, f, value, want):
        """The text of a value for a place of the wanted type. A writable pointer or slice may go where a constant one is meant."""
        text, t = self.value(f, value, want)
        if t == want:
            return bare(text)
        if isinstance(t, Ref) and isinstance(want, Ref) and item_of(t.target) == item_of(want.target) and (t.mutable or not want.mutable):
            return bare(text)
        if isinstance(t, Slice) and isinstance(want, Slice) and t.item == want.item and t.mutable and re.fullmatch(r'\w+', text):
            return f'({self.types.c(want)}){{{text}.ptr, {text}.len}}'
        raise Stop(f'a value of {t} where {want} is meant')

    def literal(self, value):
        return f'{value.value}u' if value.value < 1 << 16 else f'UINT64_C(0x{value.value:x})'

    def cast(self, f, value):
        """Proved: the number fits the new width. A signed number that gets wider has its sign bit repeated."""
        text, t = self.value(f, value.operand)
        if t == IntType(value.width):
            return text, t
        if isinstance(t, IntType) and value.signed and t.width < value.width:
            return f'(uint{value.width}_t){self.extended(text, t)}', IntType(value.width)
        if isinstance(t, IntType) or t == BOOL:
            return f'(uint{value.width}_t){text}', IntType(value.width)
        raise Stop(f'cast of {t}')

    def extended(self, text, t):
        """The bits of a signed number in 64 bits: with the sign bit flipped and then taken off again."""
        if t.width == 64:
            return text
        return f'(((uint64_t){text} ^ {1 << t.width - 1}u) - {1 << t.width - 1}u)'

    def unary(self, f, value):
        text, t = self.value(f, value.operand)
        if value.op == 'Not' and t == BOOL:
            return f'!{text}', t
        if value.op == 'Not' and isinstance(t, IntType):
            wide = f'(uint64_t){text}' if is_literal(value.operand) else text      # of a literal all bits are meant
            return f'({self.types.c(t)})~{wide}', t
        if value.op in COUNTS and t == U64:
            self.helpers.add(COUNTS[value.op])
            return f'{COUNTS[value.op]}({bare(text)})', U32
        raise Stop(f'{value.op} of {t}')

    def choice(self, f, value):
        """One of two values; of booleans a literal on one side makes it C's `and` or `or`. A narrow number comes out as wide as int, so it is cast back."""
        test, (x, t), (y, u) = self.value(f, value.test)[0], self.value(f, value.then), self.value(f, value.other)
        if t != u or not isinstance(t, IntType) and t != BOOL:
            raise Stop(f'a choice of {t} and {u}')
        if value.other == Bool(False):
            return f'({test} && {x})', t
        if value.then == Bool(True):
            return f'({test} || {y})', t
        if isinstance(t, IntType) and t.width < 64:
            return f'({self.types.c(t)})({test} ? {x} : {y})', t
        wide = '(uint64_t)' if isinstance(t, IntType) and is_literal(value.then) and is_literal(value.other) else ''
        return f'({test} ? {wide}{x} : {y})', t

    def binary(self, f, value):
        """Both operands have one width. Narrow ones are computed in 32 bits and cast back; of two literals one is widened, so that
        no sum is made in the width of int."""
        op, (x, t), (y, u) = SAME_BITS.get(value.op, value.op), self.value(f, value.left), self.value(f, value.right)
        if op.startswith('Signed') and t == u and isinstance(t, IntType):
            return self.signed(op, x, y, t)
        if op not in SIGNS or t != u or not isinstance(t, IntType) and not (t == BOOL and op in OF_BOOLS):
            raise Stop(f'{op} of {t} and {u}')
        if op in COMPARISONS or t == BOOL:
            return f'({x} {SIGNS[op]} {y})', BOOL
        if op in ('Shl', 'Shr') and not is_literal(value.right):
            y = f'({y} & {t.width - 1}u)'                           # proved: below the width; the mask changes nothing
        if t.width < 64:
            return f'({self.types.c(t)})((uint32_t){x} {SIGNS[op]} {y})', t
        if is_literal(value.left) and (is_literal(value.right) or op in ('Shl', 'Shr')):
            x = f'(uint64_t){x}'
        return f'({x} {SIGNS[op]} {y})', t

    def signed(self, op, x, y, t):
        """On the bits alone, since C leaves open what signed overflow and conversions give. Signed numbers compare as naturals with
        the sign bit flipped."""
        x, y = (self.extended(text, t) for text in (x, y))
        if op in ('SignedLt', 'SignedLe'):
            flip = 'UINT64_C(0x8000000000000000)'
            return f'(({x} ^ {flip}) {SIGNS[op[6:]]} ({y} ^ {flip}))', BOOL
        if op not in SIGNED_HELPERS:
            raise Stop(f'{op} of {t}')
        self.helpers.add(SIGNED_HELPERS[op])
        text = f'{SIGNED_HELPERS[op]}({bare(x)}, {bare(y)})'
        return (text if t == U64 else f'({self.types.c(t)}){text}'), t

    # ---- pointers

    def unit_of(self, f, value):
        """The pointer's text and type, the count as text, and the size of what it counts: 1 for items, or else bytes. The count fits
        size_t, since what is reached lies in memory."""
        base, t = self.value(f, value.pointer)
        if not isinstance(t, Ref) or not isinstance(item_of(t.target), IntType):
            raise Stop(f'a pointer to {t} moved')
        size, count = item_of(t.target).width // 8, value.count
        if isinstance(count, Binary) and count.op == 'Mul' and count.right == Int(64, size):
            count, size = count.left, 1                             # proved: the product does not overflow
        elif isinstance(count, Int) and count.value % size == 0:
            count, size = Int(64, count.value // size), 1
        text = self.value(f, count)[0]
        return base, t, text if isinstance(count, Int) else f'(size_t){text}', size

    def moved(self, f, value):
        base, t, count, size = self.unit_of(f, value)
        to = Ref(t.mutable, item_of(t.target))
        if size == 1:
            return (base if count == '0u' else f'({base} + {count})'), to
        const = '' if t.mutable else 'const '
        return f'(({self.types.c(to)})({const}void *)(({const}uint8_t *){base} + {count}))', to

    def item(self, f, value):
        """The item at a moved pointer."""
        base, t, count, size = self.unit_of(f, value)
        if size == 1:
            return f'{base}[{count}]', item_of(t.target)
        return f'(*{self.moved(f, value)[0]})', item_of(t.target)

    def address(self, f, place):
        """The address of a place: within what a pointer points to, or of a local that has one."""
        text, t = self.place(f, place)
        last = max((k for k, step in enumerate(place.steps) if isinstance(step, Deref)), default=None)
        if last is None:
            if place.base not in f.in_memory:
                raise Stop(f'the address of value local {place.base}')
            mutable = True
        else:
            before = Copy(Place(place.base, place.steps[:last])) if isinstance(place.base, int) or last else place.base
            pointer, r = self.value(f, before)
            if last == len(place.steps) - 1:
                return pointer, r
            mutable = r.mutable
        return (f'{text}.at', Ref(mutable, t.item)) if isinstance(t, Array) else (f'&{text}', Ref(mutable, t))

    # ---- structs, arrays, slices, enums: all parts are read before the place is written, as in C

    def aggregate(self, f, value, want):
        name = self.types.c(want)
        if isinstance(want, Slice):
            return f'({name}){{{self.slice_parts(f, value.parts, want)}}}'
        if isinstance(want, Array) and len(value.parts) == want.count:
            return f'({name}){{{{{", ".join(self.as_type(f, p, want.item) for p in value.parts)}}}}}'
        if isinstance(want, Named) and self.types.is_struct(want):
            members = self.types.members(want)
        elif isinstance(want, Named) and isinstance(value.parts[0], Int):
            members = self.types.variant_fields(want, value.parts[0].value)
        else:
            raise Stop(f'aggregate of {want}')
        if len(members) != len(value.parts):
            raise Stop('an aggregate of a wrong count')
        return f'({name}){{{", ".join(f".{n} = {self.as_type(f, p, t)}" for p, (n, t) in zip(value.parts, members) if t != UNIT)}}}'

    def slice_parts(self, f, parts, want):
        """Pointer and length. Proved: the slice lies in memory, so its length fits size_t."""
        pointer, length = parts
        text = self.as_type(f, length, U64)
        short = re.fullmatch(r'\(uint64_t\)(\w+\.len)', text)
        size = short[1] if short else text if isinstance(length, Int) else f'(size_t)({text})'
        return f'{self.as_type(f, pointer, Ref(want.mutable, want.item))}, {size}'
