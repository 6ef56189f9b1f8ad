"""Random programs in the proved program's forms. Every operation's condition holds by how its operands are made, as a proof would have it:
so each is a program that the generator must translate rightly and the validator must accept."""
import json
import os
import random

U8, U16, U64 = {'Int': 8}, {'Int': 16}, {'Int': 64}
BYTE = {'Ref': [{'Named': 0}, 'Mut', U8]}
BYTES = {'Struct': ['&[]', [BYTE, U64]]}
LEAST = 16              # bytes of a lent slice that an exported function works on
EXPORTED = 3            # functions of one program that C calls


def place(local, *steps):
    return {'local': local, 'steps': list(steps)}


def copy(local, *steps):
    return {'Copy': place(local, *steps)}


def number(value, width=64):
    return {'Int': {'width': width, 'value': value}}


def tokens(body):
    """A body in prefix order."""
    if not body:
        return ['Skip']
    if len(body) > 1:
        return ['Seq'] + tokens(body[:1]) + tokens(body[1:])
    kind, *parts = body[0]
    if kind == 'If':
        return [{'If': parts[0]}] + tokens(parts[1]) + tokens(parts[2])
    if kind == 'Switch':
        return [{'Switch': [parts[0], [keys for keys, _ in parts[1] if keys], parts[1][-1][0] is None]}] + [
            token for _, arm in parts[1] for token in tokens(arm)]
    if kind in ('Block', 'Loop'):
        return [kind] + tokens(parts[0])
    return [kind if kind == 'Return' else {kind: parts[0] if len(parts) == 1 else parts}]


class Writer:
    """One function: its locals, and statements that go to the list in `out`."""

    def __init__(self, rng, result, params):
        self.rng, self.types, self.homes, self.params = rng, [result] + params, ['ValueLocal'] * (len(params) + 1), len(params)
        self.out, self.variables, self.slice, self.array, self.others = [], [], None, None, []

    def local(self, t, home='ValueLocal'):
        self.types.append(t)
        self.homes.append(home)
        return len(self.types) - 1

    def let(self, t, value):
        local = self.local(t)
        self.out.append(('Assign', place(local), value))
        return copy(local)

    def form(self):
        return {'lifetimes': 0, 'outlives': [], 'params': self.params, 'types': [],
                'locals': [{'ty': t, 'home': home} for t, home in zip(self.types, self.homes)], 'body': tokens(self.out)}

    def within(self, write):
        """The statements that `write` makes, as a body."""
        kept, self.out = self.out, []
        write()
        body, self.out = self.out, kept
        return body

    # ---- numbers of 64 bits

    def operand(self):
        rng = self.rng
        if rng.random() < 0.25:
            return number(rng.choice([0, 1, 2, 7, 255, 256, 65535, 65536, 1 << 32, 1 << 63, (1 << 64) - 1, rng.getrandbits(64)]))
        return copy(rng.choice(self.variables))

    def masked(self, x, mask):
        return self.let(U64, {'Op2': ['And', x, number(mask)]})

    def binary(self, op, x, y, t=U64):
        return self.let(t, {'Op2': [op, x, y]})

    def value(self, depth=0):
        rng = self.rng
        x = self.value(depth + 1) if depth < 2 and rng.random() < 0.5 else self.operand()
        y = self.operand()
        return rng.choice([self.sums, self.products, self.shifts, self.bits, self.narrow, self.signed, self.counted, self.memory])(x, y)

    def sums(self, x, y):
        if self.rng.random() < 0.5:
            return self.binary({'Add': 'Unsigned'}, self.masked(x, (1 << 62) - 1), self.masked(y, (1 << 62) - 1))
        large = self.binary('Or', x, number(1 << 40))
        return self.binary({'Sub': 'Unsigned'}, large, self.masked(y, (1 << 40) - 1))

    def products(self, x, y):
        """By literals: with two unknown factors solvers take minutes where an operand's form differs."""
        by = number(self.rng.choice([2, 3, 7, 10, 256]))
        if self.rng.random() < 0.5:
            return self.binary({'Mul': 'Unsigned'}, self.masked(x, (1 << 50) - 1), by)
        return self.binary({self.rng.choice(['Div', 'Rem']): 'Unsigned'}, x, by)

    def shifts(self, x, y):
        count = number(self.rng.randrange(64)) if self.rng.random() < 0.5 else self.masked(y, 63)
        return self.binary(self.rng.choice(['Shl', {'Shr': 'Unsigned'}]), x, count)

    def bits(self, x, y):
        if self.rng.random() < 0.2:
            return self.let(U64, {'Op1': ['Not', x]})
        return self.binary(self.rng.choice(['And', 'Or', 'Xor']), x, y)

    def cast(self, x, source, to, width):
        return self.let({'Int': width}, {'Op1': [{'Cast': [source, to, width]}, x]})

    def narrow(self, x, y):
        width = self.rng.choice([8, 16, 32])
        x, y = (self.cast(self.masked(v, (1 << width - 1) - 1), 'Unsigned', 'Unsigned', width) for v in (x, y))
        op = self.rng.choice(['And', 'Or', 'Xor', {'Add': 'Unsigned'}, {'Shr': 'Unsigned'}, 'Shl', 'Not'])
        if op == 'Not':
            z = self.let({'Int': width}, {'Op1': ['Not', x]})
        else:
            z = self.binary(op, x, number(self.rng.randrange(width), width) if op in ('Shl', {'Shr': 'Unsigned'}) else y, {'Int': width})
        signed = self.rng.choice(['Unsigned', 'Signed'])
        return self.cast(z, signed, signed, 64)

    def signed(self, x, y):
        kind = self.rng.randrange(3)
        if kind == 0:
            return self.binary({self.rng.choice(['Div', 'Rem']): 'Signed'}, x, self.binary('Or', self.masked(y, 255), number(1)))
        if kind == 1:
            return self.binary({'Shr': 'Signed'}, x, self.masked(y, 63))
        small = [self.binary({'Shr': 'Signed'}, v, number(34)) for v in (x, y)]
        return self.binary({self.rng.choice(['Add', 'Sub']): 'Signed'}, *small)

    def counted(self, x, y):
        z = self.let({'Int': 32}, {'Op1': [self.rng.choice(['CountOnes', 'TrailingZeros', 'LeadingZeros']), x]})
        return self.cast(z, 'Unsigned', 'Unsigned', 64)

    # ---- memory and calls

    def byte_at(self, x):
        """A pointer to a byte of the slice, and to nothing else."""
        return self.let('Ptr', {'Op2': ['Offset', copy(self.slice, {'Field': 0}), self.masked(x, LEAST - 1)]})['Copy']['local']

    def item_at(self, x):
        """A pointer to an item of the array of 16-bit numbers."""
        base = self.let('Ptr', {'AddrOf': place(self.array)})
        at = self.binary({'Mul': 'Unsigned'}, self.masked(x, 7), number(2))
        return self.let('Ptr', {'Op2': ['Offset', base, at]})['Copy']['local']

    def memory(self, x, y):
        rng = self.rng
        if self.slice is None:
            return self.bits(x, y)
        kind = rng.randrange(5)
        if kind == 0:
            return self.cast(copy(self.byte_at(x), {'Deref': U8}), 'Unsigned', 'Unsigned', 64)
        if kind == 1 and self.array:
            return self.cast(copy(self.item_at(x), {'Deref': U16}), 'Unsigned', 'Unsigned', 64)
        if kind == 2:
            start = self.let(BYTE, {'Op2': ['Offset', copy(self.slice, {'Field': 0}), self.masked(x, 7)]})
            sub = self.let(BYTES, {'Aggregate': [start, number(8)]})
            return self.call(rng.choice(['get_2', 'get_4', 'get_8']), [sub, number(0)])
        if kind == 3:
            return self.call(rng.choice(['get_2', 'get_4', 'get_8']), [copy(self.slice), self.masked(x, 7)])
        return self.call(*rng.choice([('short', [x, y]), ('by_width', [number(rng.choice([1, 2, 4])), x, y]), ('by_width', [x, number(1), y])]))

    def call(self, name, args, t=U64):
        local = self.local(t)
        self.out.append(('Call', {'Fn': [f'random::{name}', {'types': [], 'dicts': []}]}, args, place(local)))
        return copy(local)

    # ---- statements

    def test(self):
        x, y = self.value(1), self.operand()
        test = self.binary(self.rng.choice(['Eq', 'Ne', {'Lt': 'Unsigned'}, {'Le': 'Unsigned'}, {'Lt': 'Signed'}, {'Le': 'Signed'}]), x, y, 'Bool')
        return self.let('Bool', {'Op1': ['Not', test]}) if self.rng.random() < 0.3 else test

    def statements(self, depth, count):
        for _ in range(count):
            self.statement(depth)

    def statement(self, depth):
        kind = self.rng.random()
        if depth < 2 and kind < 0.2:
            test = self.test()
            then = self.within(lambda: self.statements(depth + 1, 2))
            self.out.append(('If', test, then, self.within(lambda: self.statements(depth + 1, self.rng.randrange(3)))))
        elif depth < 2 and kind < 0.3:
            self.loop(depth)
        elif depth < 2 and kind < 0.36:
            key = self.masked(self.operand(), 3)
            arms = [[keys, self.within(lambda: self.statements(depth + 1, 1))] for keys in ([0], [1, 2], None)]
            self.out += [('Switch', key, arms), ('Assign', place(self.variables[-1]), {'Opd': key})]
        elif self.slice and kind < 0.55:
            self.write()
        else:
            value = self.value()
            self.out.append(('Assign', place(self.rng.choice(self.variables)), {'Opd': value}))

    def write(self):
        kind, x, y = self.rng.randrange(3), self.operand(), self.value(1)
        if kind == 0:
            byte = self.cast(self.binary({'Rem': 'Unsigned'}, y, number(256)), 'Unsigned', 'Unsigned', 8)
            self.out.append(('Assign', place(self.byte_at(x), {'Deref': U8}), {'Opd': byte}))
        elif kind == 1 and self.array:
            item = self.cast(self.masked(y, 65535), 'Unsigned', 'Unsigned', 16)
            self.out.append(('Assign', place(self.item_at(x), {'Deref': U16}), {'Opd': item}))
        else:
            self.call(self.rng.choice(['put_2', 'put_4', 'put_8']), [copy(self.slice), self.masked(x, 7), y], 'Unit')

    def loop(self, depth):
        """A few turns; one may be skipped or left early."""
        turns = self.local(U64)
        self.out.append(('Assign', place(turns), {'Op2': ['And', self.operand(), number(3)]}))

        def turn():
            test = self.binary({'Lt': 'Unsigned'}, number(0), copy(turns), 'Bool')
            self.out.append(('If', test, [], [('Exit', 1)]))
            self.out.append(('Assign', place(turns), {'Op2': [{'Sub': 'Unsigned'}, copy(turns), number(1)]}))
            self.statements(depth + 1, 1)
            if self.rng.random() < 0.5:
                self.out.append(('If', self.test(), [('Exit', self.rng.randrange(2))], []))
            self.statements(depth + 1, 1)
        self.out.append(('Block', [('Loop', self.within(turn))]))

    def give(self, value):
        self.out += [('Assign', place(0), {'Opd': value}), ('Return',)]


# ---- functions

def getter(rng, size):
    """The number that bytes make, as the sources write it: halves put together."""
    w = Writer(rng, U64, [BYTES, U64])
    if size == 1:
        pointer = w.let('Ptr', {'Op2': ['Offset', copy(1, {'Field': 0}), copy(2)]})
        w.give(w.cast(copy(pointer['Copy']['local'], {'Deref': U8}), 'Unsigned', 'Unsigned', 64))
        return w.form()
    low = w.call(f'get_{size // 2}', [copy(1), copy(2)])
    high = w.call(f'get_{size // 2}', [copy(1), w.binary({'Add': 'Unsigned'}, copy(2), number(size // 2))])
    w.give(w.binary('Or', low, w.binary('Shl', high, number(4 * size))))
    return w.form()


def putter(rng, size):
    w = Writer(rng, 'Unit', [BYTES, U64, U64])
    if size == 1:
        pointer = w.let('Ptr', {'Op2': ['Offset', copy(1, {'Field': 0}), copy(2)]})['Copy']['local']
        byte = w.cast(w.binary({'Rem': 'Unsigned'}, copy(3), number(256)), 'Unsigned', 'Unsigned', 8)
        w.out.append(('Assign', place(pointer, {'Deref': U8}), {'Opd': byte}))
    else:
        w.call(f'put_{size // 2}', [copy(1), copy(2), copy(3)], 'Unit')
        above = w.binary({'Div': 'Unsigned'}, copy(3), number(256 ** (size // 2)))
        w.call(f'put_{size // 2}', [copy(1), w.binary({'Add': 'Unsigned'}, copy(2), number(size // 2)), above], 'Unit')
    w.give('Unit')
    return w.form()


def short(rng):
    w = Writer(rng, U64, [U64, U64])
    w.give(w.binary(rng.choice(['And', 'Or', 'Xor']), w.binary('Xor', copy(1), number(rng.getrandbits(16))), copy(2)))
    return w.form()


def branch(rng):
    """A variable written before a branch, and written and read once inside it."""
    w = Writer(rng, U64, [U64])
    x, y = w.local(U64), w.local(U64)
    w.out += [('Assign', place(x), {'Opd': number(7)}), ('Assign', place(y), {'Opd': number(0)})]
    test = w.binary({'Lt': 'Unsigned'}, number(3), copy(1), 'Bool')
    inside = [('Assign', place(x), {'Op2': ['And', copy(1), number(15)]}), ('Assign', place(y), {'Op2': ['Xor', copy(x), number(1)]})]
    w.out.append(('If', test, inside, []))
    w.give(w.binary('Or', copy(x), w.binary('Shl', copy(y), number(8))))
    return w.form()


def crossed(rng):
    """Values that are computed before what they read is written, and used after it: of a variable, and of a byte."""
    w = Writer(rng, U64, [BYTES, U64, U64])
    x = w.local(U64)
    w.out.append(('Assign', place(x), {'Op2': ['And', copy(2), number(255)]}))
    before = w.binary('Xor', copy(x), number(1))
    w.out.append(('Assign', place(x), {'Op2': ['And', copy(3), number(255)]}))
    one, other = (w.let('Ptr', {'Op2': ['Offset', copy(1, {'Field': 0}), w.masked(copy(3), LEAST - 1)]})['Copy']['local'] for _ in range(2))
    byte = w.cast(copy(one, {'Deref': U8}), 'Unsigned', 'Unsigned', 64)
    w.out.append(('Assign', place(other, {'Deref': U8}), {'Opd': number(7, 8)}))
    w.give(w.binary('Or', w.binary('Or', before, w.binary('Shl', copy(x), number(8))), w.binary('Shl', byte, number(16))))
    return w.form()


def by_width(rng):
    """Compares two of its parameters with literals: copies are made for them."""
    w = Writer(rng, U64, [U64, U64, U64])
    w.variables = [1, 2, 3]
    for parameter, literal in ((1, 1), (1, 2), (2, 1), (1, 4)):
        test = w.binary('Eq', copy(parameter), number(literal), 'Bool')
        w.out.append(('If', test, w.within(lambda: w.give(w.value(1))), []))
    w.give(w.value(1))
    return w.form()


def lending(rng):
    """Constants that are lent, one in a branch: each is read at an item that the parameter chooses."""
    w = Writer(rng, U64, [U64])

    def item_of(constant, width, count):
        t = {'Array': [{'Int': width}, {'Lit': count}]}
        local = w.local({'Ref': ['Erased', 'Imm', t]})
        w.out.append(('LendStatic', place(local), t, constant))
        first = w.let({'Ref': ['Erased', 'Imm', {'Int': width}]}, {'AddrOf': place(local, {'Deref': {'Int': width}})})
        at = w.binary({'Mul': 'Unsigned'}, w.masked(copy(1), count - 1), number(width // 8))
        item = w.let('Ptr', {'Op2': ['Offset', first, at]})['Copy']['local']
        return w.cast(copy(item, {'Deref': {'Int': width}}), 'Unsigned', 'Unsigned', 64)

    def ints(width, count):
        return {'Ints': {'width': width, 'values': [rng.getrandbits(width) for _ in range(count)]}}, width, count
    test = w.binary({'Lt': 'Unsigned'}, w.masked(copy(1), 255), number(100), 'Bool')
    w.out.append(('If', test, w.within(lambda: w.give(w.binary('Xor', item_of(*ints(16, 2)), copy(1)))), []))
    same = {'Repeat': [number(rng.getrandbits(8), 8), 8]}, 8, 8
    w.give(w.binary('Or', item_of(*same), w.binary('Shl', item_of(*ints(8, 4)), number(8))))
    return w.form()


def exported(rng):
    w = Writer(rng, U64, [U64, U64, BYTES])
    w.variables = [w.let(U64, {'Opd': x})['Copy']['local'] for x in (copy(1), copy(2), number(rng.getrandbits(8)), number(1))]
    few = w.binary({'Lt': 'Unsigned'}, copy(3, {'Field': 1}), number(LEAST), 'Bool')
    w.out.append(('If', few, w.within(lambda: w.give(number(0))), []))
    w.slice = 3
    if rng.random() < 0.5:
        w.array = w.local({'Array': [U16, {'Lit': 8}]}, 'MemorySlot')
        w.out.append(('Assign', place(w.array), {'Repeat': [number(0, 16), {'Lit': 8}]}))
    w.statements(0, 8)
    w.out.append(('Assign', place(w.variables[2]), {'Opd': w.call('branch', [copy(w.variables[1])])}))
    w.out.append(('Assign', place(w.variables[3]), {'Opd': w.call('crossed', [copy(3), copy(1), copy(w.variables[0])])}))
    w.out.append(('Assign', place(w.variables[1]), {'Op2': ['Xor', copy(w.variables[1]), w.call('lending', [copy(w.variables[0])])]}))
    for local in w.variables[1:]:
        w.out.append(('Assign', place(w.variables[0]), {'Op2': ['Xor', copy(w.variables[0]), copy(local)]}))
    w.give(copy(w.variables[0]))
    return w.form()


def write_program(folder, seed):
    """A crate `random` as the prover would leave it, its source and its header. Gives the generator's words for it."""
    rng = random.Random(seed)
    forms = [[f'random::get_{size}', getter(rng, size)] for size in (1, 2, 4, 8)] + [[f'random::put_{size}', putter(rng, size)] for size in (1, 2, 4, 8)]
    forms += [['random::short', short(rng)], ['random::branch', branch(rng)], ['random::crossed', crossed(rng)], ['random::by_width', by_width(rng)],
              ['random::lending', lending(random.Random(seed))]]
    forms += [[f'random::call_{k}', exported(rng)] for k in range(EXPORTED)]
    return write_crate(folder, forms)


def write_crate(folder, forms):
    """The crate with these functions, its source and its header."""
    for part in ('crates/random/out/rlib/random.rlib/toolchain', 'crates/random/src'):
        os.makedirs(os.path.join(folder, part), exist_ok=True)
    with open(os.path.join(folder, 'crates/random/out/rlib/random.rlib/toolchain/mir.json'), 'w', encoding='utf-8') as handle:
        json.dump(forms, handle)
    with open(os.path.join(folder, 'crates/random/src/lib.rt'), 'w', encoding='utf-8') as source, \
            open(os.path.join(folder, 'random.h'), 'w', encoding='utf-8') as header:
        header.write('#include <stddef.h>\n#include <stdint.h>\n')
        for k in range(EXPORTED):
            source.write(f'#[unsafe(no_mangle)]\npub extern "C" fn call_{k}(a: u64, b: u64, s: &mut [u8]) -> u64\n{{\n}}\n')
            header.write(f'uint64_t call_{k}(uint64_t a, uint64_t b, uint8_t *s, size_t s_size);\n')
    return ['--rlib', f'{folder}/crates', '--source', f'{folder}/crates', '--export', 'random', '--header', 'random.h']
