"""Statements and functions as C text."""
import re
import textwrap

from c_types import c_name
from c_values import Values, bare
from fold import read_locals
from forms import (BOOL, U64, U8, UNIT, Array, Assign, Binary, Block, Call, Choice, Copy, Exit, If, Int, IntType, Loop, Named, Place, Ref,
                   Repeat, Return, Slice, Stop, Store, Switch, Unary, derefs)

WIDTH = 130         # columns of a line
LARGE = 512         # bytes of a table that is kept out of the frames of callers


def is_copying(body):
    """A straight run that writes whole words: worth several turns at once."""
    return all(isinstance(s, (Assign, Store)) for s in body) and any(isinstance(s, Store) for s in body)


class Around:
    """A block or loop around a statement. `c_loop`: it is a C loop, or a block that ends where its one C loop ends."""

    def __init__(self, is_loop, label, c_loop):
        self.is_loop, self.label, self.c_loop, self.used = is_loop, label, c_loop, False


class FunctionText(Values):
    """The text of one function after another."""

    def __init__(self, types, program):
        super().__init__(types)
        self.program, self.out = program, []

    def line(self, depth, text):
        """One statement; a long one goes on in the next line, after a comma or before an operator."""
        first, *rest = re.split(r'(?<=,) | (?=(?:\|\||\||&&|\+) )', text)
        line = '    ' * depth + first
        for piece in rest:
            if len(line) + 1 + len(piece) > WIDTH:
                self.out.append(line)
                line = '    ' * (depth + 2) + piece
            else:
                line += ' ' + piece
        self.out.append(line)

    # ---- statements

    def body(self, f, body, depth, around, last):
        """`around`: blocks and loops, outermost first. `last`: the function ends after this body."""
        for n, statement in enumerate(body):
            returned = body[n + 1:n + 2] == (Return(),) and f.types[0] != UNIT and self.returned(f, statement)
            if returned:
                self.line(depth, f'return {returned};')
                return
            self.statement(f, statement, depth, around, last and n == len(body) - 1)
            if isinstance(statement, (Return, Exit)):
                return

    def returned(self, f, statement):
        """The result that the statement before a `return` gives, where it needs no name."""
        if isinstance(statement, Assign) and statement.place == Place(0) and not isinstance(statement.value, Repeat):
            return self.as_type(f, statement.value, f.types[0])
        if isinstance(statement, Call) and statement.place == Place(0):
            return self.call_text(f, statement)
        return None

    def statement(self, f, statement, depth, around, last):
        if isinstance(statement, Return):
            if f.types[0] != UNIT:
                self.line(depth, f'return {f.names[0]};')
            elif not last:
                self.line(depth, 'return;')
        elif isinstance(statement, Assign):
            self.assign(f, statement, depth)
        elif isinstance(statement, Store):
            self.store(f, statement, depth)
        elif isinstance(statement, Call):
            self.call(f, statement, depth)
        elif isinstance(statement, If):
            self.branch(f, statement, depth, around, last)
        elif isinstance(statement, Switch):
            self.switch(f, statement, depth, around, last)
        elif isinstance(statement, Block):
            self.block(f, statement, depth, around)
        elif isinstance(statement, Loop):
            self.loop(f, statement, depth, around)
        elif isinstance(statement, Exit):
            self.leave(statement, depth, around)
        else:
            raise Stop(f'statement {statement}')

    def is_read(self, f, place):
        return bool(place.steps) or place.base in f.read

    def assign(self, f, statement, depth):
        text, t = self.place(f, statement.place)
        value = statement.value
        if t == UNIT or not self.is_read(f, statement.place):
            return
        if isinstance(value, Repeat):
            self.line(depth, f'memset(&{text}, {self.repeated(f, value, t)}, sizeof {text});')
        else:
            self.line(depth, f'{text} = {self.as_type(f, value, t)};')

    def repeated(self, f, value, t):
        """The byte that fills an array: any for bytes, zero for other numbers."""
        if isinstance(t, Array) and value.count == t.count and t.item == U8:
            return self.as_type(f, value.item, U8)
        if isinstance(t, Array) and value.count == t.count and isinstance(t.item, IntType) and value.item == Int(t.item.width, 0):
            return '0'
        raise Stop(f'repeat {value} into {t}')

    def store(self, f, statement, depth):
        self.helpers.add(f'store_{statement.size}')
        pointer = self.as_type(f, statement.pointer, Ref(True, U8))
        self.line(depth, f'store_{statement.size}({pointer}, {self.as_type(f, statement.value, U64)});')

    def call_text(self, f, call):
        callee = self.program.function(call.name)
        if len(call.args) != callee.params or self.place(f, call.place)[1] != callee.types[0]:
            raise Stop(f'a call of {call.name} at another type')
        args = [self.as_type(f, arg, callee.types[i + 1]) for i, arg in enumerate(call.args) if callee.types[i + 1] != UNIT]
        return f'{c_name(call.name)}({", ".join(args)})'

    def call(self, f, call, depth):
        """The place is found after the call; C leaves the order open, so it must not depend on memory."""
        if not isinstance(call.place.base, int) or derefs(call.place.steps):
            raise Stop('a call whose result goes behind a pointer')
        text, (to, t) = self.call_text(f, call), self.place(f, call.place)
        if t != UNIT:
            text = f'{to} = {text}' if self.is_read(f, call.place) else f'(void){text}'
        self.line(depth, text + ';')

    def branch(self, f, statement, depth, around, last):
        test, then, other = self.as_type(f, statement.test, BOOL), statement.then, statement.other
        if not then:
            test, then, other = self.negated(statement.test, test), other, ()
        self.line(depth, f'if ({test}) {{')
        self.body(f, then, depth + 1, around, last and not other)
        if other:
            self.line(depth, '} else {')
            self.body(f, other, depth + 1, around, last)
        self.line(depth, '}')

    def negated(self, test, text):
        if isinstance(test, Unary):
            return text[1:]
        return f'!({text})' if isinstance(test, (Binary, Choice)) else f'!{text}'

    def switch(self, f, statement, depth, around, last):
        """A chain of `if`, so that `break` keeps its meaning. Without a default no other number can occur, so the last arm is `else`."""
        text, t = self.value(f, statement.value)
        if not isinstance(t, IntType) or not isinstance(statement.value, Copy):
            raise Stop(f'switch on {t}')
        if statement.arms[0][0] is None:
            self.body(f, statement.arms[0][1], depth, around, last)
            return
        for k, (keys, body) in enumerate(statement.arms):
            final = k == len(statement.arms) - 1
            test = ' || '.join(f'{text} == {key}u' for key in keys or ())
            self.line(depth, ('} else ' if k else '') + ('{' if final and k else f'if ({test}) {{'))
            self.body(f, body, depth + 1, around, last and final)
        self.line(depth, '}')

    def block(self, f, statement, depth, around):
        is_loop = len(statement.body) == 1 and isinstance(statement.body[0], Loop)
        mark = Around(False, self.label('after'), is_loop)
        self.body(f, statement.body, depth, around + [mark], False)
        if mark.used:
            self.line(depth, f'{mark.label}:;')

    def loop(self, f, statement, depth, around):
        """Turns for ever by itself; a test at its head that leaves the block around it makes it a `while`."""
        mark, where, body = Around(True, self.label('again'), True), len(self.out), statement.body
        first = body[0] if body else None
        in_block = around and around[-1].c_loop and not around[-1].is_loop
        if in_block and isinstance(first, If) and not first.then and first.other == (Exit(1),):
            body = body[1:]
            if is_copying(body):
                self.helpers.add('UNROLL')
                self.line(depth, 'UNROLL')
            self.line(depth, f'while ({self.as_type(f, first.test, BOOL)}) {{')
        else:
            self.line(depth, 'for (;;) {')
        self.body(f, body, depth + 1, around + [mark], False)
        self.line(depth, '}')
        if mark.used:
            self.out.insert(where, '    ' * depth + f'{mark.label}:;')

    def leave(self, statement, depth, around):
        """`exit n` counts the blocks and loops around it: at a block it goes on after it, at a loop it begins the next turn."""
        mark = around[-1 - statement.depth]
        loops = [a for a in around if a.is_loop]
        if loops and mark is loops[-1]:
            self.line(depth, 'continue;')
        elif loops and not mark.is_loop and mark.c_loop and around[around.index(mark) + 1] is loops[-1]:
            self.line(depth, 'break;')
        else:
            mark.used = True
            self.line(depth, f'goto {mark.label};')

    def label(self, word):
        self.labels += 1
        return f'{word}_{self.labels}'

    # ---- functions

    def parameters(self, f):
        return [(f.types[i], f.names[i]) for i in f.parameters() if f.types[i] != UNIT]

    def function(self, f):
        """`inline` is a hint that most are short; the compiler weighs each, but for those with large tables."""
        f.read, self.labels = read_locals(f), 0
        start = len(self.out)
        self.body(f, f.body, 1, [], True)
        code = self.out[start:]
        del self.out[start:]
        used = set(re.findall(r'\w+', ' '.join(code)))
        self.comment(f.comment)
        signature = ', '.join(self.types.declare(t, n) for t, n in self.parameters(f)) or 'void'
        self.line(0, self.kind(f) + self.types.declare(f.types[0], f'{c_name(f.name)}({signature})'))
        self.out.append('{')
        self.declarations(f, used)
        self.out += code + ['}', '']

    def kind(self, f):
        if any(isinstance(t, Array) and isinstance(t.item, IntType) and t.count * t.item.width // 8 >= LARGE for t in f.types):
            self.helpers.add('APART')
            return 'static APART '
        return 'static inline '

    def comment(self, text):
        if text:
            self.out += textwrap.wrap(f'/* {text} */', WIDTH, subsequent_indent='   ')

    def declarations(self, f, used):
        groups = {}
        for i, t in enumerate(f.types):
            if i not in f.parameters() and t != UNIT and f.names[i] in used:
                groups.setdefault(self.types.c(t), []).append(f.names[i])
        for c, names in groups.items():
            self.line(1, (c + ', *'.join(names) if c.endswith('*') else f'{c} {", ".join(names)}') + ';')
        unused = [n for _, n in self.parameters(f) if n not in used]
        for name in unused:
            self.line(1, f'(void){name};')
        if groups or unused:
            self.out.append('')

    def exported(self, f, export, results, signed_fields):
        """The function that C calls: a slice arrives as a pointer and a size, a declared result is the header's struct."""
        params, args = [], []
        for i in f.parameters():
            t, n = f.types[i], f.names[i]
            if isinstance(t, Slice):
                params += [self.types.declare(Ref(t.mutable, t.item), n), f'size_t {n}_size']
                args.append(f'({self.types.c(t)}){{{n}, {n}_size}}')
            elif isinstance(t, IntType) or t == BOOL:
                c = self.exported_number(t, export.types[i - 1])
                params.append(f'{c} {n}')
                args.append(n if c == self.types.c(t) else f'({self.types.c(t)}){n}')
            else:
                raise Stop(f'exported with a parameter of {t}')
        result, lines = self.exported_result(f, export, f'{c_name(f.name)}({", ".join(args)})', results, signed_fields)
        self.line(0, f'{result} {export.name}({", ".join(params) or "void"})')
        self.out.append('{')
        self.ask_buffers(f, export, results)
        for line in lines:
            self.line(1 if line else 0, line)
        self.out += ['}', '']

    def ask_buffers(self, f, export, results):
        """In builds with KAGUTIN_CHECK_BUFFERS: an answer for lent buffers that overlap or are null."""
        lent = [f'{{{f.names[i]}, {self.size_in_bytes(f.names[i], f.types[i])}}}' for i in f.parameters() if isinstance(f.types[i], Slice)]
        if not lent:
            return
        t = f.types[0]
        first = self.types.members(t)[0] if isinstance(t, Named) and self.types.is_struct(t) else None
        if first in (('code', U64), ('kind', U64)):
            self.helpers.add('ASK_BUFFERS')
            self.line(1, f'ASK_BUFFERS({results[t.name]}, {first[0]}, {", ".join(lent)})')
        else:
            self.out += ['#ifdef KAGUTIN_CHECK_BUFFERS', f'#error "{export.name} has no code or kind to answer with"', '#endif']

    def size_in_bytes(self, name, t):
        return f'{name}_size' if t.item == U8 else f'{name}_size * sizeof *{name}'

    def exported_number(self, t, source):
        """The header's type of a number, by the type that the source writes."""
        if source == 'usize':
            return 'size_t'
        return self.types.c(t)[1:] if re.fullmatch(r'i(8|16|32|64)', source) else self.types.c(t)

    def number_out(self, text, t, source):
        """A number as the header has it: the signed number of its bits, a size where 64 bits fit one, or the same."""
        if re.fullmatch(r'i(8|16|32|64)', source):
            self.helpers.add('to_signed')
            return f'(int{t.width}_t)to_signed({bare(self.extended(text, t))})' if t.width < 64 else f'to_signed({text})'
        if source == 'usize':
            self.helpers.add('WIDE_SIZE')
            return f'(size_t){text}'
        return text

    def exported_result(self, f, export, call, results, signed_fields):
        """Type and lines of the exported function."""
        t = f.types[0]
        if t == UNIT:
            return 'void', [f'{call};']
        if isinstance(t, IntType) or t == BOOL:
            return self.exported_number(t, export.result), [f'return {self.number_out(call, t, export.result)};']
        if not isinstance(t, Named) or not self.types.is_struct(t) or t.name not in results:
            raise Stop(f'exported with the result {getattr(t, "name", t)}, for which no struct of the header is named')
        struct, parts = 'struct ' + results[t.name], []
        for n, u in self.types.members(t):
            if not isinstance(u, IntType) and u != BOOL:
                raise Stop(f'exported with a field of {u}')
            source = f'i{u.width}' if (t.name, n) in signed_fields else ''
            parts.append(f'.{n} = {self.number_out(f"r.{n}", u, source)}')
        return struct, [f'{self.types.c(t)} r = {call};', '', f'return ({struct}){{{", ".join(parts)}}};']

    def imported(self, f, export, results):
        """A function of another C file, as this program calls it: the opposite of `exported`."""
        args = []
        for i in f.parameters():
            t, n = f.types[i], f.names[i]
            if isinstance(t, Slice):
                args += [f'{n}.ptr', f'{n}.len']
            elif isinstance(t, IntType) or t == BOOL:
                args.append(self.number_out(n, t, export.types[i - 1]))
            else:
                raise Stop(f'imported with a parameter of {t}')
        signature = ', '.join(self.types.declare(t, n) for t, n in self.parameters(f)) or 'void'
        self.line(0, 'static inline ' + self.types.declare(f.types[0], f'{c_name(f.name)}({signature})'))
        self.out.append('{')
        for line in self.imported_result(f, f'{export.name}({", ".join(args)})', results):
            self.line(1 if line else 0, line)
        self.out += ['}', '']

    def imported_result(self, f, call, results):
        """Lines of the function: a declared result is taken out of the header's struct, signed numbers as their bits."""
        t = f.types[0]
        if t == UNIT:
            return [f'{call};']
        if isinstance(t, IntType) or t == BOOL:
            return [f'return ({self.types.c(t)}){call};']
        if not isinstance(t, Named) or not self.types.is_struct(t) or t.name not in results:
            raise Stop(f'imported with the result {getattr(t, "name", t)}, for which no struct of the header is named')
        parts = []
        for n, u in self.types.members(t):
            if not isinstance(u, IntType) and u != BOOL:
                raise Stop(f'imported with a field of {u}')
            parts.append(f'.{n} = ({self.types.c(u)})r.{n}')
        return [f'struct {results[t.name]} r = {call};', '', f'return ({self.types.c(t)}){{{", ".join(parts)}}};']
