"""C expressions on terms: C99's conversions and operators for a target, and a duty for each thing that C leaves undefined or open."""
import re

import z3
from pycparser import c_ast

from c_text import C_BOOL, C_VOID, U64, U8, CArray, CInt, CPointer, CStruct, CVoid
from terms import (FALSE, Refused, Run, array_sort, bits_of, bytes_of, choice, either, known, negation, number, read, read_array,
                   resized, simple, symbols, widened)


class Value:
    """A value of a C type. `truth`: the test that a number 0 or 1 is; `wide`: the 64 bits that a size_t is in the program and fits;
    `item`: what lies in the memory that a pointer points to, whatever it was cast to since."""

    def __init__(self, t, term=None, truth=None, wide=None, item=None):
        self.t, self.inner, self.truth, self.wide = t, term, truth, wide
        self.item = item if item is not None else t.to if isinstance(t, CPointer) else None

    @property
    def term(self):
        if self.inner is None and self.truth is not None:
            self.inner = bits_of(self.truth, self.t.bits)
        return self.inner


class CValues(Run):
    """Expressions of one function. `c`: the file; `types`: of its variables; `memory`: those that lie in memory."""

    def __init__(self, c):
        super().__init__()
        self.c, self.types, self.memory = c, {}, {}
        self.int = CInt(c.target.int_bits, True)

    # ---- places: ('value', variable, path) or ('memory', pointer, const), and the type

    def place(self, state, e):
        if isinstance(e, c_ast.ID):
            if e.name not in self.types:
                raise Refused(f'C has no variable {e.name}')
            at = ('memory', self.memory[e.name], False) if e.name in self.memory else ('value', e.name, ())
            return at, self.types[e.name]
        if isinstance(e, c_ast.StructRef):
            return self.member(state, e)
        if isinstance(e, c_ast.UnaryOp) and e.op == '*':
            return self.pointed(self.expression(state, e.expr))
        if isinstance(e, c_ast.ArrayRef):
            return self.pointed(self.moved(state, self.expression(state, e.name), self.expression(state, e.subscript)))
        raise Refused(f'C place {type(e).__name__}')

    def pointed(self, v):
        if not isinstance(v.t, CPointer) or v.t.to != v.item:
            raise Refused('memory reached at another type than its own')
        return ('memory', v.term, v.t.const), v.t.to

    def member(self, state, e):
        at, t = self.pointed(self.expression(state, e.name)) if e.type == '->' else self.place(state, e.name)
        names = [name for name, _ in self.c.members[t.name]] if isinstance(t, CStruct) else []
        if e.field.name not in names:
            raise Refused(f'no member {e.field.name}')
        index = names.index(e.field.name)
        u = self.c.members[t.name][index][1]
        if at[0] == 'value':
            return ('value', at[1], at[2] + (index,)), u
        before = 0 if self.c.is_array(t) else sum(bytes_of(self.c.shape(w)) for _, w in self.c.members[t.name][:index])
        return ('memory', at[1] + number(before), at[2]), u

    def fetch(self, state, at, t):
        if isinstance(t, CArray):
            if at[0] != 'memory':
                raise Refused('an array that is not in memory')
            return Value(CPointer(t.item, at[2]), at[1])
        if at[0] == 'memory':
            return self.fetch_memory(state, at[1], t)
        value, holder = state.locals.get(at[1]), self.types[at[1]]
        for index in at[2]:
            value = None if value is None else value[index]
            holder, last = self.c.members[holder.name][index][1], holder
        return self.of_variable(state, value, t, at[1], bool(at[2]) and self.c.is_slice(last))

    def of_variable(self, state, value, t, name, in_slice):
        """What a variable or a member of it holds; it must have been written. Of a struct the parts are asked when they are used."""
        if isinstance(t, CStruct) and not self.c.is_array(t):
            if value is None:
                raise Refused(f'{name} is read before it is written')
            return Value(t, value)
        self.duty(state, f'{name} is read before it is written', value[1] if value else FALSE)
        if value is None:
            value = symbols(self.c.shape(t), 'unset')
        if self.c.is_array(t):
            return Value(t, value)
        if t == C_BOOL:
            return Value(t, truth=value[0])
        if in_slice and isinstance(t, CInt):
            return Value(t, resized(value[0], t.bits), wide=value[0])
        return Value(t, value[0])

    def fetch_memory(self, state, pointer, t):
        if self.c.is_array(t):
            sort = array_sort(self.c.shape(t))
            self.access(state, 'read', str(sort), pointer)
            return Value(t, known(read_array(state.memory, pointer, sort)))
        if isinstance(t, CStruct) and not self.c.is_slice(t):
            parts = []
            for _, u in self.c.members[t.name]:
                parts.append(self.stored(state, self.fetch_memory(state, pointer, u), u))
                pointer = pointer + number(bytes_of(self.c.shape(u)))
            return Value(t, parts)
        if not isinstance(t, CInt):
            raise Refused('C has this type in memory')
        self.access(state, 'read', t.bits, pointer)
        return Value(t, read(state.memory, pointer, t.bits))

    # ---- conversions

    def stored(self, state, v, t):
        """A value as what a place of this type holds."""
        if isinstance(t, CStruct):
            if v.t != t:
                raise Refused('a struct of another type')
            return v.inner
        if t == C_BOOL:
            return known(self.truth_of(v))
        if isinstance(t, CPointer):
            if not isinstance(v.t, CPointer) or v.t.to != t.to or v.item != t.to or v.t.const and not t.const:
                raise Refused('a pointer of another type')
            return known(v.term)
        if t == C_VOID:
            return []
        return known(self.converted(state, v, t).term)

    def truth_of(self, v):
        if v.truth is not None:
            return v.truth
        if not isinstance(v.t, CInt):
            raise Refused('the truth of no number')
        return v.term != 0

    def truth(self, state, e):
        return self.truth_of(self.expression(state, e))

    def converted(self, state, v, t):
        """A number as one of another type. A size_t keeps the 64 bits that it stands for; what C leaves to the compiler is a duty."""
        if t == C_BOOL:
            return Value(t, truth=self.truth_of(v))
        if not isinstance(t, CInt) or not (isinstance(v.t, CInt) or v.t == C_BOOL):
            raise Refused(f'a conversion from {v.t} to {t}')
        if v.truth is not None:
            return Value(t, truth=v.truth)
        if v.t == t:
            return v
        if v.wide is not None and t == U64:
            return Value(t, v.wide)
        if v.t == U64 and t.is_size:
            self.duty(state, 'a number that does not fit size_t', z3.ULT(v.term, number(1 << t.bits)))
            return Value(t, resized(v.term, t.bits), wide=v.term)
        x = resized(v.term, t.bits, v.t.signed)
        if t.signed and (t.bits < v.t.bits or t.bits == v.t.bits and not v.t.signed):
            fits = widened(x, v.t.bits + 1, True) == widened(v.term, v.t.bits + 1, v.t.signed)
            self.duty(state, 'a conversion that C leaves to the compiler', fits)
        return Value(t, x)

    def promoted(self, state, v):
        if v.t == C_BOOL or isinstance(v.t, CInt) and v.t.bits < self.int.bits:
            return self.converted(state, v, self.int)
        if not isinstance(v.t, CInt):
            raise Refused('a sum of no number')
        return v

    def usual(self, state, a, b):
        """Both operands at their common type: the wider one, unsigned if one as wide is."""
        a, b = self.promoted(state, a), self.promoted(state, b)
        bits = max(a.t.bits, b.t.bits)
        t = CInt(bits, all(v.t.signed for v in (a, b) if v.t.bits == bits))
        return self.converted(state, a, t), self.converted(state, b, t), t

    # ---- expressions: none has an effect; calls of functions that may have one stand alone (c_run.py)

    def expression(self, state, e):
        if isinstance(e, c_ast.Constant):
            return self.constant(e.value)
        if isinstance(e, (c_ast.ID, c_ast.StructRef, c_ast.ArrayRef)) or isinstance(e, c_ast.UnaryOp) and e.op == '*':
            return self.fetch(state, *self.place(state, e))
        if isinstance(e, c_ast.Cast):
            return self.cast(state, self.c.type(e.to_type), self.expression(state, e.expr))
        if isinstance(e, c_ast.UnaryOp):
            return self.unary(state, e)
        if isinstance(e, c_ast.BinaryOp):
            return self.binary(state, e)
        if isinstance(e, c_ast.TernaryOp):
            test = simple(self.truth(state, e.cond))
            a, b = self.expression(state.under(test), e.iftrue), self.expression(state.under(negation(test)), e.iffalse)
            a, b, t = self.usual(state, a, b)
            if a.truth is not None and b.truth is not None:
                return Value(t, truth=choice(test, a.truth, b.truth))
            return Value(t, choice(test, a.term, b.term))
        if isinstance(e, c_ast.CompoundLiteral):
            return self.compound(state, e)
        if isinstance(e, c_ast.FuncCall):
            return self.pure_call(state, e)
        raise Refused(f'C expression {type(e).__name__}')

    def cast(self, state, t, v):
        if isinstance(t, CPointer) and isinstance(v.t, CPointer):
            if v.t.const and not t.const or t.to not in (v.item, U8) and not isinstance(t.to, CVoid):
                raise Refused('a pointer cast to another type')
            return Value(t, v.term, item=v.item)
        return self.converted(state, v, t)

    def constant(self, text):
        """The first type of C99's list that holds it (6.4.4.1)."""
        digits, suffix = re.fullmatch(r'(0[xX][0-9a-fA-F]+|0[0-7]*|[1-9][0-9]*)([uUlL]*)', text).groups()
        octal = digits.startswith('0') and len(digits) > 1 and digits[1] not in 'xX'
        value, suffix = int(digits, 8 if octal else 0), suffix.lower()
        if suffix not in ('', 'u', 'll', 'ull', 'llu'):
            raise Refused(f'constant {text}, whose width the target does not tell')
        widths = (64,) if 'll' in suffix else (self.int.bits, 32, 64)
        for bits in widths:
            if 'u' not in suffix and value < 1 << bits - 1:
                return Value(CInt(bits, True), number(value, bits))
            if value < 1 << bits and ('u' in suffix or digits.startswith('0')):
                return Value(CInt(bits, False), number(value, bits))
        raise Refused(f'constant {text}')

    def unary(self, state, e):
        if e.op == '&':
            at, t = self.place(state, e.expr)
            if at[0] != 'memory' or not isinstance(e.expr, c_ast.ID):
                raise Refused('the address of no variable in memory')
            return Value(CPointer(t, at[2]), at[1])
        if e.op == '!':
            return Value(self.int, truth=z3.Not(self.truth(state, e.expr)))
        if e.op not in ('~', '-'):
            raise Refused(f'C operator {e.op}')
        v = self.promoted(state, self.expression(state, e.expr))
        if e.op == '~':
            return Value(v.t, ~v.term)
        if v.t.signed:
            self.duty(state, 'signed overflow', v.term != number(1 << v.t.bits - 1, v.t.bits))
        return Value(v.t, -v.term)

    def moved(self, state, p, i):
        """A pointer moved up by a number of items. One to a struct stays where it is, whatever it is cast to."""
        if not isinstance(p.t, CPointer) or not isinstance(p.t.to, CInt) or not isinstance(p.item, CInt) or not isinstance(i.t, CInt):
            raise Refused('a sum of this pointer')
        by = i.wide if i.wide is not None else widened(i.term, 64, i.t.signed)
        pointer = simple(p.term + by * number(p.t.to.bits // 8))
        self.formed.append((state.guard, pointer))
        return Value(p.t, pointer, item=p.item)

    def binary(self, state, e):
        if e.op in ('&&', '||'):
            first = simple(self.truth(state, e.left))
            second = self.truth(state.under(first if e.op == '&&' else negation(first)), e.right)
            return Value(self.int, truth=(z3.And if e.op == '&&' else z3.Or)(first, second))
        a, b = self.expression(state, e.left), self.expression(state, e.right)
        if e.op == '+' and isinstance(a.t, CPointer):
            return self.moved(state, a, b)
        if a.truth is not None and b.truth is not None and e.op in ('&', '|', '^', '==', '!='):
            x, y, t = a.truth, b.truth, self.int if e.op in ('==', '!=') else self.usual(state, a, b)[2]
            return Value(t, truth={'&': z3.And(x, y), '|': z3.Or(x, y), '^': z3.Xor(x, y), '==': x == y, '!=': z3.Not(x == y)}[e.op])
        if e.op in ('<<', '>>'):
            return self.shifted(state, e.op, self.promoted(state, a), self.promoted(state, b))
        a, b, t = self.usual(state, a, b)
        if e.op in ('==', '!=', '<', '<=', '>', '>='):
            return Value(self.int, truth=self.comparison(e.op, a.term, b.term, t.signed))
        return Value(t, self.arithmetic(state, e.op, a.term, b.term, t))

    def comparison(self, op, x, y, signed):
        if op in ('==', '!='):
            return x == y if op == '==' else z3.Not(x == y)
        if signed:
            return {'<': x < y, '<=': x <= y, '>': x > y, '>=': x >= y}[op]
        return {'<': z3.ULT(x, y), '<=': z3.ULE(x, y), '>': z3.UGT(x, y), '>=': z3.UGE(x, y)}[op]

    def shifted(self, state, op, a, b):
        if a.t.signed:
            raise Refused('a signed number shifted')
        bits = max(a.t.bits, b.t.bits) + 1
        self.duty(state, 'a shift by the width or more', z3.ULT(widened(b.term, bits, b.t.signed), number(a.t.bits, bits)))
        count = resized(b.term, a.t.bits, b.t.signed)
        return Value(a.t, a.term << count if op == '<<' else z3.LShR(a.term, count))

    def arithmetic(self, state, op, x, y, t):
        if op in ('/', '%'):
            if t.signed:
                raise Refused('signed division')
            self.duty(state, 'a division by 0', y != 0)
            return z3.UDiv(x, y) if op == '/' else z3.URem(x, y)
        if op in ('&', '|', '^'):
            return either(x, y) if op == '|' else x & y if op == '&' else x ^ y
        if op not in ('+', '-', '*'):
            raise Refused(f'C operator {op}')
        of = {'+': lambda a, b: a + b, '-': lambda a, b: a - b, '*': lambda a, b: a * b}[op]
        if t.signed:
            exact = of(widened(x, 2 * t.bits, True), widened(y, 2 * t.bits, True))
            self.duty(state, 'signed overflow', exact == widened(resized(exact, t.bits), 2 * t.bits, True))
        return of(x, y)

    def compound(self, state, e):
        """A struct from its members; those that are left out are 0."""
        t = self.c.type(e.type)
        if not isinstance(t, CStruct) or self.c.is_array(t) or t.name not in self.c.members:
            raise Refused('a compound literal of this type')
        members = self.c.members[t.name]
        names, out = [name for name, _ in members], [None] * len(members)
        named = {isinstance(part, c_ast.NamedInitializer) for part in e.init.exprs}
        for k, part in enumerate(e.init.exprs):
            if len(named) > 1 or True in named and len(part.name) > 1:
                raise Refused('members with names and without')
            index = names.index(part.name[0].name) if True in named else k
            part = part.expr if True in named else part
            if out[index] is not None:
                raise Refused('a member given twice')
            out[index] = self.part(state, t, members[index][1], self.expression(state, part))
        return Value(t, [self.zero(u) if part is None else part for part, (_, u) in zip(out, members)])

    def part(self, state, t, u, v):
        if self.c.is_slice(t) and isinstance(u, CInt):
            v = self.converted(state, v, u)
            return known(v.wide if v.wide is not None else widened(v.term, 64, False))
        return self.stored(state, v, u)

    def zero(self, t):
        if t == C_BOOL:
            return known(FALSE)
        if self.c.is_slice(t):
            return [known(number(0)), known(number(0))]
        if isinstance(t, CStruct) and t.name in self.c.members and not self.c.is_array(t):
            return [self.zero(u) for _, u in self.c.members[t.name]]
        if not isinstance(t, (CInt, CPointer)):
            raise Refused('a part left out')
        return known(number(0, t.bits if isinstance(t, CInt) else 64))
