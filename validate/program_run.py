"""Runs a function of the proved program on terms: what the kit's logic says each form means (Mir/Val.antt, Prog/Machine.antt).

What the prover has shown of each operation is a fact of every run that gets there: sums, differences and products stay in range, casts
fit, divisors are not 0, shift counts are below the width, a switch without a default has an arm, a slice and an offset that is reached
lie in one block of memory.
"""
import z3

from program import bodies, literal, only
from terms import (BOOL, FALSE, TRUE, Head, Refused, Run, State, bytes_of, called, count_ones, either, filled, array_sort, known, leading_zeros,
                   leaves_of, literal_of, merge, negation, number, read, read_array, resized, same_shape, shaped, sign_extended, signed_order,
                   signed_quotient, signed_remainder, simple, sorts_of, symbols, trailing_zeros, used_leaves, widened, Mem)

DEEPEST = 12        # functions put in place of their calls inside each other


class Borrow:
    """The address of a value that is held as one, not in memory: of a part of a local, in the run of a function in place of its call or of the whole. It is
    never a term: it can be passed on to functions in place and followed, no more."""

    def __init__(self, key, path):
        self.key, self.path = key, path

    def eq(self, other):
        return isinstance(other, Borrow) and (self.key, self.path) == (other.key, other.path)


class ProgramRun(Run):
    """`in_place(name, literals, guard, leaves)`: whether a call is run in place, since C has no such call; the last two are None where the
    run has not got there. `fixed`: parameters that are literals. `written`: loops at whose heads memory is anything in any case. `unused`:
    locals in memory that are only assigned, which C leaves out: nothing reaches a block whose address nobody has. `kept`: the locals that C has in memory too;
    the others are held as values, and their addresses are Borrows. `behind`: (loop, local) that is written there behind its address."""

    def __init__(self, program, name, in_place, fixed, size_bits, written=frozenset(), unused=frozenset(), kept=None, behind=frozenset()):
        super().__init__()
        self.behind = behind
        self.program, self.in_place, self.size_bits, self.written, self.unused, self.kept = program, in_place, size_bits, written, unused, kept
        self.f, self.depth, self.counts = program.get(name), 0, {}
        self.frame, self.functions, self.inside = 0, [self.f], []   # the run that goes on; the functions of all; each loop around, and how many there were
        self.result = self.f.types[0]
        values = {i: self.argument(i, fixed) for i in self.f.parameters()}
        state = State((), values, z3.Const('memory', Mem))
        for i in self.f.parameters():
            if self.f.in_memory(i):
                raise Refused('the program has a parameter in memory')
            if program.is_slice(self.f.types[i]):
                self.slice_there(state, values[i])
        self.lend(state)
        if self.body(self.f.body, state, []) is not None:
            raise Refused('the program ends without a return')

    def argument(self, i, fixed):
        shape = self.program.shape(self.f.types[i])
        return known(number(fixed[i], shape.size())) if i in fixed else symbols(shape, f'parameter {i}')

    def lend(self, state):
        """The constants that the function lends, each at its address from the start. C fills an array there; the program has it there in any case."""
        for i, (t, constant) in sorted(self.f.lent.items()):
            pointer, count = self.address(i), t['Array'][1]['Lit']
            state.locals[i] = known(pointer)
            if isinstance(constant, tuple):
                state.memory = filled(state.memory, pointer, count, self.operand(state, constant[1])[0])
            else:
                for part in constant:
                    pointer = self.write_leaf(state, pointer, self.operand(state, part)[0])

    def key(self, i):
        """Where a state has the local: those of functions in place beside those of the whole."""
        return (self.frame, i) if self.frame else i

    def is_held(self, i):
        """Whether a local in memory is held as a value: C has no such variable."""
        return self.f.in_memory(i) and not self.f.is_array(i) and self.kept is not None and (self.frame > 0 or i not in self.kept)

    def address(self, i):
        return z3.Const(f'address {self.depth} {i}', z3.BitVecSort(64))

    # ---- statements

    def body(self, body, state, around):
        for statement in body:
            if state is None:
                return None
            state = self.statement(statement, state, around)
        return state

    def statement(self, statement, state, around):
        """The state after it, or None if nothing comes after it. `around`: states that leave each block or loop around, outermost first."""
        kind = statement[0]
        if kind == 'Assign':
            return self.assign(state, statement[1], statement[2])
        if kind == 'Call':
            return self.call(state, *statement[1:])
        if kind == 'If':
            test = simple(self.operand(state, statement[1])[0])
            if z3.is_true(test) or z3.is_false(test):
                return self.body(statement[2 if z3.is_true(test) else 3], state, around)
            return merge([self.body(statement[2], state.under(test), around), self.body(statement[3], state.under(negation(test)), around)])
        if kind == 'Switch':
            return self.switch(state, statement[1], statement[2], around)
        if kind == 'Block':
            leaving = []
            end = self.body(statement[1], state, around + [leaving])
            return merge(leaving + [end])
        if kind == 'Loop':
            return self.loop(statement[1], state, around)
        if kind == 'Exit':
            around[-1 - statement[1]].append(state)
            return None
        if kind == 'Constant':
            self.lend_value(state, statement[1], statement[2])
            return state
        if kind == 'Unreachable':
            self.fact(state, FALSE)
            return None
        self.returns.append(state)
        return None

    def lend_value(self, state, local, constant):
        """A constant that is no array, held as a value: an address that leads there."""
        key = self.frame, 'constant', local
        state.locals[key] = self.constant(constant)
        self.store(state, {'local': local, 'steps': []}, known(Borrow(key, ())))

    def constant(self, constant):
        kind, content = only(constant)
        if kind == 'Bool':
            return known(z3.BoolVal(content))
        return list(map(self.constant, content)) if kind == 'Parts' else self.operand(None, constant)

    def switch(self, state, operand, arms, around):
        """Arm by arm as `if`s; an arm that the value decides is the last one, and one that it rules out is left out."""
        value, ends = self.operand(state, operand)[0], []
        for n, (keys, body) in enumerate(arms):
            test = simple(z3.Or(*[value == key for key in keys])) if keys is not None else TRUE
            if n == len(arms) - 1 or z3.is_true(test):
                self.fact(state, test)
                ends.append(self.body(body, state, around))
                break
            if not z3.is_false(test):
                ends.append(self.body(body, state.under(test), around))
                state = state.under(negation(test))
        return merge(ends)

    def loop(self, body, state, around):
        """Cut at its head: what it changes is anything there. It is left only through the blocks around it."""
        if self.depth:
            raise Refused('a loop in a function that C has in place')
        n = len(self.heads)
        changed, memory = self.changes(self.f, body)
        changed |= {key for m, key in self.behind if m == n and not isinstance(key, tuple)}
        memory = memory or n in self.written
        head = Head(state, changed, memory)
        self.heads.append(head)
        turn = state.copy()
        for i in changed:
            turn.locals[i] = symbols(self.program.shape(self.f.types[i]), f'loop {n} local {i}')
        if memory:
            turn.memory = z3.Const(f'loop {n} memory', Mem)
        again = []
        self.inside.append((n, len(self.functions)))
        end = self.body(body, turn, around + [again])
        self.inside.pop()
        head.back = merge(again + [end])
        return None

    def changes(self, f, body):
        """The value locals that a body may write, and whether it may write memory."""
        changed, memory = set(), False
        for statement in body:
            if statement[0] in ('Assign', 'Call'):
                place = statement[1] if statement[0] == 'Assign' else statement[3]
                held = f is self.f and self.is_held(place['local']) or f is not self.f and not f.is_array(place['local'])
                if f.in_memory(place['local']) and not held or any('Deref' in step for step in place['steps']):
                    memory = True
                else:
                    changed.add(place['local'])
                memory |= statement[0] == 'Call' and self.call_writes(statement[1], statement[2])
            for inner in bodies(statement):
                more, also = self.changes(f, inner)
                changed, memory = changed | more, memory or also
        return changed, memory

    def call_writes(self, name, args):
        if not self.in_place(name, [literal(a) for a in args], None, None):
            return True
        callee = self.program.get(name)
        return self.changes(callee, callee.body)[1]

    # ---- places: ('value', local, path) or ('memory', pointer), and the type

    def locate(self, state, place):
        i, variant = place['local'], None
        t = self.f.types[i]
        at = ('memory', self.address(i)) if self.f.in_memory(i) and not self.is_held(i) else ('value', self.key(i), ())
        for step in place['steps']:
            kind, content = only(step)
            if kind == 'Deref':
                pointer = self.fetch(state, at, t)[0]
                at, t = ('value', pointer.key, pointer.path) if isinstance(pointer, Borrow) else ('memory', pointer), content
            elif kind == 'Variant':
                variant = content
            elif kind == 'Field' and at[0] == 'value':
                index, t = self.program.field(t, variant, content)
                at = ('value', at[1], at[2] + (index,)) if index is not None else ('unit',)
            else:
                raise Refused(f'the program has a step {kind} in memory')
        return at, t

    def fetch(self, state, at, t):
        if at[0] == 'unit' or t == 'Unit':
            return []
        if at[0] == 'memory':
            return self.fetch_memory(state, at[1], self.program.shape(t))
        value = state.locals.get(at[1])
        for index in at[2]:
            value = None if value is None else value[index]
        if value is None:
            raise Refused('the program reads what it has not written')
        if self.program.is_slice(t):
            self.slice_there(state, value)
        return value

    def type_of(self, key):
        frame, i = key if isinstance(key, tuple) else (0, key)
        return self.functions[frame].types[i]

    def written_behind(self, key):
        """A value that was there before a loop began is what it is at the loop's head; so it is not written behind its address there, but where that is known."""
        for n, functions in self.inside:
            if (key[0] if isinstance(key, tuple) else 0) < functions and (n, key) not in self.behind:
                refused = Refused('a value is written behind its address in a loop')
                refused.behind = n, key
                raise refused

    def fetch_memory(self, state, pointer, shape):
        if isinstance(shape, list):
            out = []
            for part in shape:
                out.append(self.fetch_memory(state, pointer, part))
                pointer = pointer + number(bytes_of(part))
            return out
        if same_shape(shape, BOOL):
            raise Refused('the program has a bool in memory')
        self.reached(state, pointer)
        if isinstance(shape, tuple):
            self.access(state, 'read', str(array_sort(shape)), pointer)
            return known(read_array(state.memory, pointer, array_sort(shape)))
        self.access(state, 'read', shape.size(), pointer)
        return known(read(state.memory, pointer, shape.size()))

    def reached(self, state, pointer):
        """A pointer that was moved up and is then reached lies in its block, so what it was moved by is a size."""
        for count in self.counts.get(simple(pointer).get_id(), (None, ()))[1]:
            if self.size_bits < 64:
                self.fact(state, z3.ULT(count, number(1 << self.size_bits)))

    def slice_there(self, state, value):
        """A slice lies in one block."""
        if None in leaves_of(value):
            return
        pointer, length = value[0][0], value[1][0]
        self.reached(state, pointer)
        self.blocks.append((state.guard, simple(pointer), simple(length)))
        if self.size_bits < 64:
            self.fact(state, z3.ULT(length, number(1 << self.size_bits)))

    def store(self, state, place, value):
        at, t = self.locate(state, place)
        if at[0] == 'unit' or t == 'Unit':
            return
        if at[0] == 'memory':
            pointer = at[1]
            for leaf in leaves_of(value):
                self.reached(state, pointer)
                pointer = self.write_leaf(state, pointer, leaf[0])
        else:
            if any('Deref' in step for step in place['steps']):
                self.written_behind(at[1])
            state.locals[at[1]] = self.updated(state.locals.get(at[1]), at[2], value, self.program.shape(self.type_of(at[1])))

    def updated(self, old, path, value, shape):
        if not path:
            return value
        parts = list(old) if old else [None] * len(shape)
        parts[path[0]] = self.updated(parts[path[0]], path[1:], value, shape[path[0]])
        return parts

    # ---- values

    def assign(self, state, place, value):
        kind, content = only(value)
        if not self.depth and place['local'] in self.unused:
            return state
        t = self.locate(state, place)[1]
        if t == 'Unit':
            return state
        shape = self.program.shape(t)
        if isinstance(shape, tuple) and kind in ('Repeat', 'Aggregate'):
            self.assign_array(state, place, shape, kind, content)
        else:
            self.store(state, place, self.value(state, kind, content, t))
        return state

    def assign_array(self, state, place, shape, kind, content):
        (at, pointer), (_, _, count) = self.locate(state, place)[0][:2], shape
        if at != 'memory':
            raise Refused('the program has an array as a value')
        if kind == 'Repeat' and content[1] == {'Lit': count}:
            state.memory = filled(state.memory, pointer, count, self.operand(state, content[0])[0])
        elif kind == 'Aggregate' and len(content) == count:
            for value in [self.operand(state, part)[0] for part in content]:
                pointer = self.write_leaf(state, pointer, value)
        else:
            raise Refused('an array of another length')

    def operand(self, state, operand):
        if operand == 'Unit':
            return []
        if operand in ('True', 'False'):
            return known(z3.BoolVal(operand == 'True'))
        kind, content = only(operand)
        if kind == 'Int':
            return known(number(content['value'], content['width']))
        if kind == 'Copy':
            return self.fetch(state, *self.locate(state, content))
        raise Refused(f'operand {kind}')

    def value(self, state, kind, content, t):
        if kind == 'Opd':
            return self.operand(state, content)
        if kind == 'AddrOf':
            return known(self.address_of(state, content))
        if kind == 'Aggregate':
            return self.aggregate(state, [self.operand(state, part) for part in content], content, t)
        if kind == 'Op1':
            return known(self.unary(state, content[0], self.operand(state, content[1])[0]))
        if kind == 'Op2':
            return known(self.binary(state, content[0], self.operand(state, content[1])[0], self.operand(state, content[2])[0]))
        raise Refused(f'value {kind}')

    def address_of(self, state, place):
        """A term, or a Borrow of what is held as a value."""
        at, _ = self.locate(state, place)
        if at[0] == 'memory':
            return at[1]
        base = place['local']
        if at[0] != 'value' or not any('Deref' in step for step in place['steps']) and not self.is_held(base):
            raise Refused('the program takes the address of a value')
        return Borrow(at[1], at[2])

    def aggregate(self, state, parts, content, t):
        if self.program.is_slice(t):
            self.slice_there(state, parts)
        if not self.program.is_enum(t):
            types = only(self.program.declaration(t))[1] if 'Named' in t else [None] * len(parts)
            return [part for part, u in zip(parts, types) if u != 'Unit']
        tag, slots = literal(content[0]), self.program.slots(t)
        out = [known(number(tag, 8))] + [None] * len(slots)
        for slot, part in zip(enumerate(self.program.declaration(t)['Variants'][tag]), parts[1:]):
            if slot[1] != 'Unit':
                out[1 + slots.index(slot)] = part
        return out

    def unary(self, state, op, x):
        if op == 'Not':
            return z3.Not(x) if z3.is_bool(x) else ~x
        counts = {'TrailingZeros': trailing_zeros, 'CountOnes': count_ones, 'LeadingZeros': leading_zeros}
        if isinstance(op, str) and op in counts and x.size() == 64:
            return counts[op](x)
        kind, content = only(op)
        if kind != 'Cast':
            raise Refused(f'operation {op}')
        source, to, width = content
        if z3.is_bool(x):
            return z3.If(x, number(1, width), number(0, width))
        signed = source == to == 'Signed'
        if width < x.size():
            self.fact(state, widened(resized(x, width), x.size(), signed) == x)
        return sign_extended(x, width) if signed and width > x.size() else resized(x, width)

    def binary(self, state, op, x, y):
        name, sign = (op, None) if isinstance(op, str) else only(op)
        if name == 'Offset':
            moved = simple(x + y)
            self.counts[moved.get_id()] = moved, (y,) + self.counts.get(simple(x).get_id(), (None, ()))[1]
            return moved
        if isinstance(x, Borrow) or isinstance(y, Borrow):
            raise Refused('an address of a local compared')
        if name in ('Eq', 'Ne'):
            return x == y if name == 'Eq' else z3.Not(x == y)
        if z3.is_bool(x) and name in ('And', 'Or', 'Xor'):
            return {'And': z3.And, 'Or': z3.Or, 'Xor': z3.Xor}[name](x, y)
        if name in ('And', 'Or', 'Xor'):
            return either(x, y) if name == 'Or' else x & y if name == 'And' else x ^ y
        if name in ('Shl', 'Shr'):
            self.fact(state, z3.ULT(y, number(x.size(), x.size())))
            if sign == 'Signed':
                return resized(sign_extended(x, 64) >> (widened(y, 64, False) & number(63)), x.size())
            return x << y if name == 'Shl' else z3.LShR(x, y)
        if name in ('Lt', 'Le') and sign == 'Signed':
            return signed_order(z3.ULT if name == 'Lt' else z3.ULE, x, y)
        if name in ('Lt', 'Le'):
            return z3.ULT(x, y) if name == 'Lt' else z3.ULE(x, y)
        if name in ('Div', 'Rem'):
            return self.division(state, name, sign, x, y)
        if sign is None and name in ('WrapAdd', 'WrapSub', 'WrapMul'):
            return {'WrapAdd': x + y, 'WrapSub': x - y, 'WrapMul': x * y}[name]
        if name in ('Add', 'Sub', 'Mul'):
            return self.sum(state, name, sign, x, y)
        raise Refused(f'operation {op}')

    def division(self, state, name, sign, x, y):
        self.fact(state, y != 0)
        if sign == 'Signed':
            of = signed_quotient if name == 'Div' else signed_remainder
            return resized(of(sign_extended(x, 64), sign_extended(y, 64)), x.size())
        return z3.UDiv(x, y) if name == 'Div' else z3.URem(x, y)

    def sum(self, state, name, sign, x, y):
        if sign != 'Signed' and name == 'Mul':
            for a, b in ((x, literal_of(y)), (y, literal_of(x))):
                if b:
                    self.fact(state, z3.ULE(a, number(((1 << x.size()) - 1) // b, x.size())))
        elif sign != 'Signed':
            self.fact(state, z3.ULE(x, x + y) if name == 'Add' else z3.ULE(y, x))
        return {'Add': x + y, 'Sub': x - y, 'Mul': x * y}[name]

    # ---- calls

    def call(self, state, name, args, place):
        f, values = self.program.get(name), [self.operand(state, a) for a in args]
        leaves = self.leaves(state, f, values)
        if self.in_place(name, [literal_of(v[0]) if isinstance(v, tuple) and not isinstance(v[0], Borrow) else None for v in values], state.guard, leaves):
            result = self.run_in_place(state, f, values)
        else:
            if leaves is None:
                raise Refused('the program has an argument that is not written, or the address of a value')
            self.calls.append((state.guard, name, leaves, state.memory))
            shape = self.program.shape(f.types[0])
            results, state.memory = called(name, leaves, state.memory, sorts_of(shape))
            result = shaped(shape, results)
        if f.types[0] != 'Unit':
            self.store(state, place, result)
        return state

    def run_in_place(self, state, f, values):
        """The function's body, its locals beside those that there are."""
        if self.depth == DEEPEST:
            raise Refused('functions in place of their calls too deep')
        if f.lent:
            raise Refused('a constant lent in a function that C has in place')
        kept, self.f, self.returns, self.depth = (self.f, self.returns, self.frame), f, [], self.depth + 1
        self.functions.append(f)
        self.frame = frame = len(self.functions) - 1
        self.body(f.body, State(state.guard, {**state.locals, **{(frame, i): value for i, value in enumerate(values, 1)}}, state.memory), [])
        end = merge(self.returns)
        (self.f, self.returns, self.frame), self.depth = kept, self.depth - 1
        if end is None:
            raise Refused('a function in place that does not return')
        state.memory = end.memory
        state.locals.clear()
        state.locals.update({key: value for key, value in end.locals.items() if not isinstance(key, tuple) or key[0] != frame})
        return end.locals.get((frame, 0)) if f.types[0] != 'Unit' else []

    def leaves(self, state, f, values):
        """The leaves of a call's arguments, or None if one is never written, or is no term. What is read was written."""
        shapes = [self.program.shape(f.types[i]) for i in f.parameters()]
        leaves = [leaf for shape, value in zip(shapes, values) for leaf in used_leaves(value, shape)]
        if any(leaf is None or isinstance(leaf[0], Borrow) for leaf in leaves):
            return None
        for leaf in leaves:
            self.fact(state, leaf[1])
        return [simple(leaf[0]) for leaf in leaves]
