"""Random programs with enums, `?`, instances of generic functions, and functions of the toolchain's library, as the prover's front end writes them."""
import random

from programs import BYTES, EXPORTED, U8, U64, Writer, copy, number, place, write_crate

SIZES = (3, 5)          # at which the generic function is called


def named(name, *types):
    return {'Named': [{'name': name, 'lifetimes': []}, list(types)]}


REFUSAL, ITEM = named('random::Refusal'), named('random::Item')
ANSWER = named('core::result::Result', U64, REFUSAL)
RESIDUAL = named('core::result::ErrResidual', REFUSAL)
FLOW = named('core::ops::ControlFlow', RESIDUAL, U64)
SHAPES = {'random::Refusal': {'Variants': [[], [], []]}, 'random::Item': {'Variants': [[], [U64], [U64, U8]]},
          'core::result::Result': {'Variants': [[{'Param': 0}], [{'Param': 1}]]}, 'core::result::ErrResidual': {'Fields': [{'Param': 0}]},
          'core::ops::ControlFlow': {'Variants': [[{'Param': 1}], [{'Param': 0}]]}}
ANY_FROM = {'name': 'core::convert::AnyFrom', 'methods': ['core::convert::AnyFrom::from']}
TAG = ({'Variant': 0}, {'Field': 0})


def field(variant, index):
    return {'Variant': variant}, {'Field': index}


class EnumWriter(Writer):
    """A function's locals and statements; types and impls that it may name are declared."""

    def form(self, parameters=0):
        generics = {'types': [{'const_bits': 64}] * parameters, 'bounds': [], 'impls': [ANY_FROM]}
        return {**super().form(), 'generics': generics, 'types': [{'name': name, 'shape': shape} for name, shape in SHAPES.items()]}

    def run(self, name, args, t=U64, types=(), dicts=()):
        """A call of a function at types and impls; its result's local."""
        local = self.local(t)
        self.out.append(('Call', {'Fn': [name, {'types': list(types), 'dicts': list(dicts)}]}, args, place(local)))
        return local

    def give_variant(self, tag, *parts):
        self.out += [('Assign', place(0), {'Aggregate': [number(tag, 8), *parts]}), ('Return',)]

    def switch(self, local, *arms):
        """A switch on the tag of an enum, with an arm for each variant in a random order."""
        arms = [([k], self.within(arm)) for k, arm in enumerate(arms)]
        self.rng.shuffle(arms)
        self.out.append(('Switch', copy(local, *TAG), arms))

    def refusal(self, k):
        return self.let(REFUSAL, {'Aggregate': [number(k, 8)]})

    def less(self, x, y):
        return self.binary({'Lt': 'Unsigned'}, x, y, 'Bool')

    def tried(self, local):
        """`?` on an answer: its number, or the function ends with its refusal."""
        flow, out = self.run('core::result::ResultTry::branch', [copy(local)], FLOW, (U64, REFUSAL)), self.local(U64)

        def refused():
            rest = self.local(RESIDUAL)
            self.out.append(('Assign', place(rest), {'Opd': copy(flow, *field(1, 1))}))
            self.out.append(('Call', {'Fn': ['core::result::ResultFromResidualErrResidual::from_residual', {
                'types': [U64, REFUSAL, REFUSAL], 'dicts': [{'Impl': ['core::convert::AnyFrom', [REFUSAL], []]}]}]}, [copy(rest)], place(0)))
            self.out.append(('Return',))
        self.switch(flow, lambda: self.out.append(('Assign', place(out), {'Opd': copy(flow, *field(0, 1))})), refused)
        return copy(out)


def asked(rng):
    """A number, or one of two refusals."""
    w = EnumWriter(rng, ANSWER, [U64, U64])
    for k, bits in rng.sample([(0, 3), (1, 7), (2, 1)], 2):
        test = w.binary('Eq', w.masked(copy(rng.choice([1, 2])), bits), number(rng.randrange(bits + 1)), 'Bool')
        w.out.append(('If', test, w.within(lambda k=k: w.give_variant(1, w.refusal(k))), []))
    w.give_variant(0, w.binary(rng.choice(['Xor', 'WrapAdd', 'WrapMul']), copy(1), copy(2) if rng.random() < 0.5 else number(rng.getrandbits(20))))
    return w.form()


def passed_on(rng):
    w = EnumWriter(rng, ANSWER, [U64, U64])
    first = w.tried(w.run('random::asked', [copy(1), copy(2)], ANSWER))
    second = w.tried(w.run('random::asked', [w.binary('Xor', first, number(rng.getrandbits(9))), copy(1)], ANSWER))
    w.give_variant(0, w.binary(rng.choice(['WrapSub', 'WrapAdd', 'Xor']), first, second))
    return w.form()


def answered(rng):
    w = EnumWriter(rng, U64, [U64, U64])
    local = w.run('random::passed_on', [copy(1), copy(2)], ANSWER)

    def refused():
        w.give(copy(w.run('random::number_of', [copy(local, *field(1, 1))])))
    w.switch(local, lambda: w.give(copy(local, *field(0, 1))), refused)
    return w.form()


def number_of(rng):
    w = EnumWriter(rng, U64, [REFUSAL])
    w.switch(1, *[lambda k=k: w.give(number(k)) for k in rng.sample(range(1, 300), 3)])
    return w.form()


def make_item(rng):
    w = EnumWriter(rng, ITEM, [U64, U64])
    kind = w.masked(copy(1), 3)
    for k, parts in rng.sample([(0, []), (1, [copy(2)]), (2, [copy(2), w.cast(w.masked(copy(1), 255), 'Unsigned', 'Unsigned', 8)])], 2):
        test = w.binary('Eq', kind, number(rng.randrange(4)), 'Bool')
        w.out.append(('If', test, w.within(lambda k=k, parts=parts: w.give_variant(k, *parts)), []))
    w.give_variant(1, kind)
    return w.form()


def held(rng):
    """An enum with fields as a parameter."""
    w = EnumWriter(rng, U64, [ITEM, U64])

    def both():
        w.give(w.binary('Xor', copy(1, *field(2, 1)), w.cast(copy(1, *field(2, 2)), 'Unsigned', 'Unsigned', 64)))
    w.switch(1, lambda: w.give(copy(2)), lambda: w.give(w.binary('WrapAdd', copy(1, *field(1, 1)), copy(2))), both)
    return w.form()


def equal(rng):
    """What a derive writes: the tags of two enums compared behind references."""
    w = EnumWriter(rng, 'Bool', [{'Ref': [{'Named': 0}, 'Imm', REFUSAL]}] * 2)
    tags = [w.let(U8, {'Opd': copy(i, {'Deref': REFUSAL}, *TAG)}) for i in (1, 2)]
    test = w.binary('Ne', *tags, 'Bool')
    inner = [('If', test, w.within(lambda: w.give('False')), [])]
    w.out.append(('Block', inner))
    w.give('True')
    return w.form()


def compared(rng):
    """Two enums in memory, or one and a constant, handed to `equal`."""
    w = EnumWriter(rng, U64, [U64, U64])
    local, out = w.run('random::passed_on', [copy(1), copy(2)], ANSWER), w.local(U64)

    def refused():
        slots = [w.local(REFUSAL, 'MemorySlot') for _ in range(2)]
        refs = [w.local({'Ref': ['Erased', 'Imm', REFUSAL]}) for _ in range(2)]
        w.out += [('Assign', place(slots[0]), {'Opd': copy(local, *field(1, 1))}), ('Assign', place(refs[0]), {'AddrOf': place(slots[0])})]
        w.out.append(('LendStatic', place(refs[1]), REFUSAL, {'Parts': [{'Int': {'width': 8, 'value': rng.randrange(3)}}]}))
        same = w.run('random::equal', list(map(copy, refs)), 'Bool')
        w.out.append(('Assign', place(out), {'Op1': [{'Cast': ['Unsigned', 'Unsigned', 64]}, copy(same)]}))
    w.switch(local, lambda: w.out.append(('Assign', place(out), {'Opd': copy(local, *field(0, 1))})), refused)
    w.give(copy(out))
    return w.form()


def condition(rng):
    """`if a && b { .. } else { .. }`, and `if a || b || c { return .. }`, as blocks that an exit leaves."""
    w = EnumWriter(rng, U64, [U64, U64])
    test, out = w.local('Bool'), w.local(U64)

    def ask(x, bits):
        w.out.append(('Assign', place(test), {'Op2': [rng.choice(['Eq', 'Ne', {'Lt': 'Unsigned'}]), w.masked(x, bits), number(rng.randrange(1, bits + 1))]}))

    def both():
        ask(copy(1), 3)

        def second():
            ask(w.binary('Xor', copy(2), number(1)), 7)
            chosen = w.within(lambda: w.out.extend([('Assign', place(out), {'Opd': w.binary('WrapAdd', copy(1), number(9))}), ('Exit', 0)]))
            w.out.append(('If', copy(test), chosen, []))
        w.out.append(('If', copy(test), w.within(second), []))
        w.out.append(('Assign', place(out), {'Opd': copy(2)}))
    w.out.append(('Block', w.within(both)))

    def asked_of(xs):
        ask(xs[0], 3)
        w.out.append(('If', copy(test), [], w.within(lambda: asked_of(xs[1:])) if xs[1:] else [('Exit', 0)]))

    def inner():
        asked_of([copy(1), copy(out), w.binary('Xor', copy(2), copy(out))])
        w.give(w.binary('Xor', copy(out), number(77)))
    w.out.append(('Block', [('Block', w.within(inner)), ('Block', [])]))
    w.give(copy(out))
    return w.form()


def sized(rng):
    """A loop of as many turns as the function's parameter says."""
    w = EnumWriter(rng, U64, [U64])
    sum_, turns = w.local(U64), w.local(U64)
    w.out += [('Assign', place(sum_), {'Opd': copy(1)}), ('Assign', place(turns), {'Opd': number(0)})]

    def turn():
        w.out.append(('If', w.less(copy(turns), {'NumOf': [64, {'Param': 0}]}), [], [('Exit', 1)]))
        w.out.append(('Assign', place(sum_), {'Op2': ['WrapMul', copy(sum_), number(rng.randrange(3, 99))]}))
        w.out.append(('Assign', place(sum_), {'Op2': ['WrapAdd', copy(sum_), copy(w.run('core::int::u64::max', [copy(turns), number(2)]))]}))
        w.out.append(('Assign', place(turns), {'Op2': [{'Add': 'Unsigned'}, copy(turns), number(1)]}))
    w.out.append(('Block', [('Loop', w.within(turn))]))
    w.give(w.binary('Xor', copy(sum_), {'NumOf': [64, {'Param': 0}]}))
    return w.form(1)


def bounded(rng):
    """Functions of the library that choose between two sums; and a local that is written again after it was copied."""
    w = EnumWriter(rng, U64, [U64, U64])
    again, before = w.local(U64), w.local(U64)
    w.out += [('Assign', place(again), {'Op2': ['Xor', copy(1), number(5)]}), ('Assign', place(before), {'Opd': copy(again)}),
              ('Assign', place(again), {'Op2': ['WrapAdd', copy(2), number(9)]})]
    x, y = copy(before), copy(again)
    for name in rng.sample(['min', 'max', 'saturating_sub', 'saturating_add', 'abs_diff'], 3):
        x = copy(w.run(f'core::int::u64::{name}', [x, y] if rng.random() < 0.5 else [y, x]))
        y = w.binary(rng.choice(['Xor', 'WrapAdd', 'WrapSub']), y, number(rng.getrandbits(30)))
    w.give(w.binary('Xor', x, y))
    return w.form()


def first_of(rng):
    """The item of a slice that an index chooses, or another number where it has none."""
    w = EnumWriter(rng, U64, [BYTES, U64])
    byte = {'Ref': [{'Named': 0}, 'Imm', U8]}
    slice_ = w.let({'Struct': ['&[]', [byte, U64]]}, {'Aggregate': [w.let(byte, {'AddrOf': place(1, {'Field': 0}, {'Deref': U8})}), copy(1, {'Field': 1})]})
    found = w.run('core::slice::index::UsizeSliceIndexRefSlice::pick', [copy(2), slice_], named('core::option::Option', byte), [U8])

    def there():
        pointer = w.let(byte, {'Opd': copy(found, *field(1, 1))})['Copy']['local']
        w.give(w.cast(copy(pointer, {'Deref': U8}), 'Unsigned', 'Unsigned', 64))
    w.switch(found, lambda: w.give(number(rng.randrange(256, 999))), there)
    return w.form()


def exported(rng):
    w = EnumWriter(rng, U64, [U64, U64, BYTES])
    x, y = copy(1), copy(2)
    for _ in range(5):
        kind = rng.randrange(6)
        if kind == 0:
            x = w.binary('Xor', copy(w.run(f'random::{rng.choice(["answered", "compared"])}', [x, y])), y)
        elif kind == 1:
            item = w.run('random::make_item', [w.binary('Xor', x, number(rng.randrange(4))), y], ITEM)
            x = copy(w.run('random::held', [copy(item), x]))
        elif kind == 2:
            x, y = copy(w.run('random::sized', [y], U64, [{'Const': rng.choice(SIZES)}])), x
        elif kind == 3:
            x = copy(w.run('random::bounded', [x, y]))
        elif kind == 4:
            y = w.binary('Xor', y, copy(w.run('random::first_of', [copy(3), w.masked(x, 31)])))
        else:
            x, y = w.binary('WrapAdd', x, w.binary({'Shr': 'Unsigned'}, y, number(7))), x
    x = w.binary('Xor', x, copy(w.run('random::compared', [y, x])))
    x = w.binary('WrapAdd', x, copy(w.run('random::condition', [x, y])))
    for size in SIZES:
        x = w.binary('Xor', x, copy(w.run('random::sized', [y], U64, [{'Const': size}])))
    w.give(w.binary('Xor', x, w.binary('WrapMul', y, number(3))))
    return w.form()


def same_address(op):
    """Whether two addresses of one local are equal, or differ. No other function calls it."""
    w = EnumWriter(random.Random(1), 'Bool', [U64])
    held_, one, other = w.local(REFUSAL, 'MemorySlot'), *(w.local({'Ref': ['Erased', 'Imm', REFUSAL]}) for _ in range(2))
    w.out += [('Assign', place(held_), {'Aggregate': [number(0, 8)]}), *(('Assign', place(p), {'AddrOf': place(held_)}) for p in (one, other))]
    w.give(w.binary(op, copy(one), copy(other), 'Bool'))
    return w.form()


def write_enums(folder, seed, *more):
    """A crate as write_program has it, and these functions."""
    rng = random.Random(seed)
    functions = (asked, passed_on, answered, number_of, make_item, held, equal, compared, condition, sized, bounded, first_of)
    forms = [[f'random::{of.__name__}', of(rng)] for of in functions]
    return write_crate(folder, forms + [[f'random::call_{k}', exported(rng)] for k in range(EXPORTED)] + list(more))
