"""Reads the program of each proved crate: crates/NAME/out/rlib/NAME.rlib/toolchain/mir.json, as the prover's build leaves it, and that of the
toolchain's library, rlibs/NAME.rlib/toolchain/mir.json beside the prover's command.

A function with parameters for types, numbers or impls is read once for each choice of them that is called: an instance, a function of its own. So is
a type. Lifetimes are not read, as the machine does not read them. Bytes that stand in the program (`b"GW"`) are lent by
`LendStatic`, in memory that is there from the start and that nothing writes: here a local array, filled where they are lent."""
import json
import marshal
import os
import shutil
from dataclasses import replace

from forms import (BOOL, UNIT, Address, Aggregate, Array, Assign, Binary, Block, Bool, Call, Cast, Copy, Deref, Exit, Field,
                   Fields, Function, If, Int, IntType, Lend, Loop, Named, Offset, Place, RawPointer, Ref, Repeat, Return, Slice, Stop, Switch,
                   Unary, Unit, Unreachable, Variant, Variants, derefs, statements, target_of, with_bodies, with_operands, with_values)

WITH_SIGN = ('Add', 'Sub', 'Mul', 'Div', 'Rem', 'Shr', 'Lt', 'Le')
SIGNLESS = ('And', 'Or', 'Xor', 'Shl', 'Eq', 'Ne', 'WrapAdd', 'WrapSub', 'WrapMul')
UNARY = ('Not', 'CountOnes', 'TrailingZeros', 'LeadingZeros')
PIECE = 1 << 18     # bytes of a large file that are read at once
HEAD = b'",{"lifetimes":'                # behind a function's name, before its form; a call goes on with its types there
LONGEST = 1 << 12   # bytes of a name


def unknown(what, form):
    return Stop(f'{what} {json.dumps(form)[:100]}')


def tagged(form):
    """A form with one key, as key and content; a bare word has no content."""
    if isinstance(form, str):
        return form, None
    if isinstance(form, dict) and len(form) == 1:
        return next(iter(form.items()))
    raise unknown('form', form)


class Reading:
    """Reads one function or type at types (or numbers) and impls for its parameters."""

    def __init__(self, program, types=(), impls=()):
        self.program, self.types, self.impls = program, types, impls

    # ---- types, and what is given for parameters

    def type(self, form):
        kind, content = tagged(form)
        if content is None and kind in ('Bool', 'Unit', 'Ptr'):
            return {'Bool': BOOL, 'Unit': UNIT, 'Ptr': RawPointer()}[kind]
        if kind == 'Int' and content in (8, 16, 32, 64):
            return IntType(content)
        if kind == 'Ref' and content[1] in ('Imm', 'Mut'):          # the machine reads no lifetime
            return Ref(content[1] == 'Mut', self.type(content[2]))
        if kind == 'Array':
            return Array(self.type(content[0]), self.length(content[1]))
        if kind == 'Named':
            return Named(self.program.type_instance(content[0]['name'], tuple(map(self.argument, content[1]))))
        if kind == 'Struct' and content[0] == '&[]':
            pointer, length = map(self.type, content[1])
            if isinstance(pointer, Ref) and length == IntType(64):
                return Slice(pointer.mutable, pointer.target)
        if kind == 'Param' and not isinstance(self.parameter(content), int):
            return self.parameter(content)
        raise unknown('type', form)

    def parameter(self, i):
        if i >= len(self.types):
            raise Stop(f'type {{"Param": {i}}}, for which nothing is given')
        return self.types[i]

    def argument(self, form):
        """What is given for a parameter: a type, or a number."""
        kind, content = tagged(form)
        if kind == 'Const':
            return content
        return self.parameter(content) if kind == 'Param' else self.type(form)

    def length(self, form):
        kind, content = tagged(form)
        count = content if kind == 'Lit' else self.parameter(content) if kind == 'Param' else None
        if not isinstance(count, int):
            raise unknown('length', form)
        return count

    def shape(self, form):
        kind, content = tagged(form)
        if kind == 'Fields':
            return Fields(tuple(map(self.type, content)))
        if kind == 'Variants':
            return Variants(tuple(tuple(map(self.type, variant)) for variant in content))
        raise unknown('shape', form)

    def impl(self, form):
        """An impl as its name, and what it is given itself."""
        kind, content = tagged(form)
        if kind == 'Given' and content < len(self.impls):
            return self.impls[content]
        if kind == 'Impl':
            return content[0], tuple(map(self.argument, content[1])), tuple(map(self.impl, content[2]))
        raise unknown('impl', form)

    def callee(self, form):
        """The name of the instance that a call runs. A method gets what its impl is given, and then its own."""
        kind, content = tagged(form)
        if kind == 'Fn':
            name, types, impls, own = content[0], (), (), content[1]
        elif kind == 'Method':
            name, types, impls = self.impl(content[0])
            name, own = self.program.method(name, content[1]), content[2]
        else:
            raise unknown('statement', {'Call': form})
        return self.program.instance(name, types + tuple(map(self.argument, own['types'])), impls + tuple(map(self.impl, own['dicts'])))

    # ---- places and values

    def step(self, form):
        kind, content = tagged(form)
        if kind == 'Deref':
            return Deref(self.type(content))
        if kind in ('Field', 'Variant') and isinstance(content, int):
            return {'Field': Field, 'Variant': Variant}[kind](content)
        raise unknown('step', form)

    def place(self, form):
        return Place(form['local'], tuple(map(self.step, form['steps'])))

    def operand(self, form):
        kind, content = tagged(form)
        if content is None and kind in ('True', 'False', 'Unit'):
            return Unit() if kind == 'Unit' else Bool(kind == 'True')
        if kind == 'Copy':
            return Copy(self.place(content))
        if kind == 'Int' and content['width'] in (8, 16, 32, 64) and 0 <= content['value'] < 1 << content['width']:
            return Int(content['width'], content['value'])
        if kind == 'NumOf' and content[0] in (8, 16, 32, 64):
            return self.number(content[0], self.argument(content[1]), form)
        if kind == 'SizeOf':
            return self.number(64, self.size(self.type(content)), form)
        raise unknown('operand', form)

    def number(self, width, value, form):
        if not isinstance(value, int) or not 0 <= value < 1 << width:
            raise unknown('operand', form)
        return Int(width, value)

    def size(self, t):
        """How many bytes a value takes, where that is the same in C."""
        return t.width // 8 if isinstance(t, IntType) else None

    def operation(self, form):
        """An operation on one operand or two."""
        (kind, (op, *parts)) = tagged(form)
        name, sign = tagged(op)
        parts = list(map(self.operand, parts))
        if kind == 'Op1' and name in UNARY and sign is None:
            return Unary(name, *parts)
        if kind == 'Op1' and name == 'Cast' and set(sign[:2]) <= {'Unsigned', 'Signed'} and sign[2] in (8, 16, 32, 64):
            return Cast(sign[2], *parts, signed=sign[:2] == ['Signed', 'Signed'])
        if kind == 'Op2' and name == 'Offset' and sign is None:
            return Offset(*parts)
        if kind == 'Op2' and (name in SIGNLESS and sign is None or name in WITH_SIGN and sign == 'Unsigned'):
            return Binary(name, *parts)
        if kind == 'Op2' and name in WITH_SIGN and sign == 'Signed':
            return Binary('Signed' + name, *parts)
        raise unknown('operation', form)

    def value(self, form):
        kind, content = tagged(form)
        if kind == 'Opd':
            return self.operand(content)
        if kind in ('Op1', 'Op2'):
            return self.operation(form)
        if kind == 'AddrOf':
            return Address(self.place(content))
        if kind == 'Aggregate':
            return Aggregate(tuple(map(self.operand, content)))
        if kind == 'Repeat':
            return Repeat(self.operand(content[0]), self.length(content[1]))
        raise unknown('value', form)

    # ---- statements

    def body(self, tokens):
        """The next body of a list in prefix order: after `Seq` come two bodies, after `Block` and `Loop` one, after `If` two, after
        `Switch` one for each arm. Sequences are made flat, and `Skip` vanishes."""
        kind, content = tagged(next(tokens))
        if kind == 'Seq':
            first = self.body(tokens)
            return first + self.body(tokens)
        if kind == 'Skip':
            return ()
        if kind in ('Return', 'Unreachable'):
            return (Return() if kind == 'Return' else Unreachable(),)
        if kind in ('Block', 'Loop'):
            return ({'Block': Block, 'Loop': Loop}[kind](self.body(tokens)),)
        if kind == 'Assign':
            return (Assign(self.place(content[0]), self.value(content[1])),)
        if kind == 'Call':
            return (Call(self.callee(content[0]), tuple(map(self.operand, content[1])), self.place(content[2])),)
        if kind == 'LendStatic':
            return (self.lent(*content),)
        if kind == 'If':
            then = self.body(tokens)
            return reached(If(self.operand(content), then, self.body(tokens)))
        if kind == 'Exit':
            return (Exit(content),)
        if kind == 'Switch':
            arms = [(tuple(keys), self.body(tokens)) for keys in content[1]]
            if content[2]:
                arms.append((None, self.body(tokens)))
            return reached(Switch(self.operand(content[0]), tuple(arms)))
        raise unknown('statement', {kind: content})

    def lent(self, place, t, constant):
        """A constant lent: bytes as the array that holds them, which `with_arrays` gives a local, or another value."""
        t, (kind, content) = self.type(t), tagged(constant)
        if place['steps']:
            raise unknown('constant', constant)
        if not isinstance(t, Array):
            return Lend(place['local'], t, self.constant(constant))
        if kind == 'Ints':
            value = Aggregate(tuple(Int(content['width'], number) for number in content['values']))
            width, count = content['width'], len(value.parts)
        elif kind == 'Repeat' and tagged(content[0])[0] == 'Int':
            value = Repeat(self.operand(content[0]), content[1])
            width, count = value.item.width, value.count
        else:
            raise unknown('constant', constant)
        if t != Array(IntType(width), count):
            raise Stop(f'a constant of {width} bits, {count} times, lent as {t}')
        return Lend(place['local'], t, value)

    def constant(self, form):
        """A number, or a struct or variant of such."""
        kind, content = tagged(form)
        if kind == 'Parts':
            return Aggregate(tuple(map(self.constant, content)))
        if kind == 'Bool':
            return Bool(content)
        if kind in ('Int', 'Unit'):
            return self.operand(form)
        raise unknown('constant', form)

    def function(self, name, form):
        tokens = iter(form['body'])
        body = self.body(tokens)
        if next(tokens, None) is not None:
            raise Stop('more than one body')
        homes = [local['home'] for local in form['locals']]
        if set(homes) - {'ValueLocal', 'MemorySlot'}:
            raise unknown('homes', sorted(set(homes)))
        in_memory, types = {i for i, home in enumerate(homes) if home == 'MemorySlot'}, [self.type(local['ty']) for local in form['locals']]
        types, in_memory, body = with_constants(form['params'], types, in_memory, body)
        if any(isinstance(s, Lend) for s in statements(body)) and holds_pointer(types[0], self.program.shapes):
            raise Stop('a constant lent in a function whose result may point to it')
        types, in_memory, body = with_arrays(form['params'], types, in_memory, body)
        for statement in statements(body):
            if isinstance(statement, Unreachable):
                raise Stop('a place that is not reached, other than an arm')
            if isinstance(statement, Assign) and isinstance(statement.value, Address):
                place = statement.value.place
                if place.base not in in_memory and not derefs(place.steps):
                    raise Stop(f'the address of value local {place.base}')
        return Function(name, form['params'], types, in_memory, body)


def reached(statement):
    """A branch without the arms that the proof has shown not to be reached, as a body; a switch on a number that is given is its arm."""
    def lost(body):
        return body and isinstance(body[-1], Unreachable)
    if isinstance(statement, If):
        if lost(statement.then) or lost(statement.other):
            return statement.other if lost(statement.then) else statement.then
        return (statement,)
    if isinstance(statement.value, Int):
        return next((body for keys, body in statement.arms if keys is None or statement.value.value in keys), ())
    arms = tuple((keys, body) for keys, body in statement.arms if not lost(body))
    return arms[0][1] if len(arms) == 1 != len(statement.arms) else (Switch(statement.value, arms),)


def with_constants(params, types, in_memory, body):
    """Constants other than arrays, each as a local of its own in memory that the reference points to. Where such a local is still in memory after
    library.py, the generator stops: its block would end with the call."""
    types, in_memory = list(types), set(in_memory)

    def treat(body):
        out = []
        for statement in body:
            if isinstance(statement, Lend) and not isinstance(statement.type, Array):
                if types[statement.local] != Ref(False, statement.type) or statement.local in in_memory or statement.local <= params:
                    raise Stop(f'a constant lent to local {statement.local}')
                types.append(statement.type)
                in_memory.add(len(types) - 1)
                out += [Assign(Place(len(types) - 1), statement.value), Assign(Place(statement.local), Address(Place(len(types) - 1)))]
            else:
                out.append(with_bodies(statement, treat))
        return tuple(out)
    body = treat(body)
    return types, in_memory, body


def with_arrays(params, types, in_memory, body):
    """The locals that a constant is lent to, as arrays in memory that are filled at the beginning of the body; a place behind such a pointer is in the
    array. They are numbered before the first local that is no number, as the constants of all calls were when these files were first made."""
    lent = {statement.local: statement for statement in statements(body) if isinstance(statement, Lend)}
    if not lent:
        return types, in_memory, body
    for local, statement in lent.items():
        if types[local] != Ref(False, statement.type) or local in in_memory or local <= params:
            raise Stop(f'a constant lent to local {local}')
    first = next(i for i, t in enumerate(types) if i > params and not isinstance(t, IntType))
    rest = [i for i in range(first, len(types)) if i not in lent]
    order = list(range(first)) + sorted(lent) + rest
    new = {old: i for i, old in enumerate(order)}

    def moved(place):
        return Place(new[place.base], place.steps)

    def change(value):
        if not isinstance(value, (Copy, Address)):
            return with_operands(value, change)
        if value.place.base not in lent:
            return type(value)(moved(value.place))
        if not isinstance(value, Address) or value.place.steps != (Deref(lent[value.place.base].type.item),):
            raise Stop(f'a constant in local {value.place.base} not reached by its first item')
        return Address(Place(new[value.place.base]))

    def treat(statement):
        to = target_of(statement)
        if to and to.base in lent:
            raise Stop(f'local {to.base}, which a constant is lent to, is written')
        if to and any(isinstance(step, Deref) and not isinstance(step.target, IntType) for step in to.steps):
            raise Stop('memory other than numbers written beside a lent constant')
        statement = with_bodies(with_values(statement, change), treat_all)
        return replace(statement, place=moved(to)) if to else statement

    def treat_all(body):
        return tuple(treat(statement) for statement in body if not isinstance(statement, Lend))
    filled = tuple(Assign(Place(new[local]), lent[local].value) for local in sorted(lent))
    types = [lent[old].type if old in lent else types[old] for old in order]
    return types, {new[i] for i in in_memory | set(lent)}, filled + treat_all(body)


def holds_pointer(t, shapes):
    """Whether a value of the type may hold a pointer."""
    if isinstance(t, Named):
        shape = shapes[t.name]
        variants = (shape.types,) if isinstance(shape, Fields) else shape.variants
        return any(holds_pointer(u, shapes) for variant in variants for u in variant)
    return holds_pointer(t.item, shapes) if isinstance(t, Array) else isinstance(t, (Ref, Slice, RawPointer))


def kit_folder():
    """The folder of the toolchain, which has the library's proved programs: that of the prover's command, rt, or where that is not on the path, the one
    that `make test` noted."""
    rt = shutil.which('rt')
    if rt:
        return os.path.dirname(os.path.dirname(os.path.realpath(rt)))
    noted = os.path.join(os.path.dirname(os.path.dirname(os.path.abspath(__file__))), 'target', 'test', 'kit')
    try:
        with open(noted, encoding='utf-8') as handle:
            kit = handle.read().strip()
    except (OSError, ValueError):
        return None
    return kit if os.path.isdir(os.path.join(kit, 'rlibs')) else None


def program_of(folder, crate):
    """Where a build leaves a crate's proved program."""
    return os.path.join(folder, crate, 'out', 'rlib', crate + '.rlib', 'toolchain', 'mir.json')


def listed(path):
    """Where each function stands in the file of a large program of which little is used."""
    places, at, before = {}, 0, b''
    with open(path, 'rb') as handle:
        while piece := handle.read(PIECE):
            text, at = before + piece, at + len(piece)
            done, k = 0, text.find(HEAD)
            while k >= 0:
                name = text.rfind(b'["', 0, k) + 2
                places.setdefault(text[name:k].decode(), []).append(at - len(text) + name - 2)
                done, k = k + 1, text.find(HEAD, k + 1)
            before = text[max(done, len(text) - LONGEST):]
    return places


def form_at(path, place):
    with open(path, 'rb') as handle:
        for size in [PIECE << k for k in range(64)]:
            handle.seek(place)
            text = handle.read(size)
            try:
                return json.JSONDecoder().raw_decode(text.decode('utf-8', 'ignore'))[0][1]
            except ValueError:
                if len(text) < size:
                    raise


class Shapes(dict):
    """Declared types by name; each is read when it is first asked for."""

    def __init__(self, read):
        super().__init__()
        self.read = read

    def __missing__(self, name):
        self[name] = self.read(name)
        return self[name]


class Program:
    """The functions and declared types of the crates that the exported ones reach, each read when it is first named. `describe`: gives names and
    a comment for the functions of a crate by their sources."""

    def __init__(self, folder, kit=None, describe=None):
        self.folder, self.kit, self.describe = folder, kit, describe
        self.crates, self.library = set(), {}           # crates that were asked for; file and functions' places of those that are the toolchain's
        self.forms, self.generics = {}, {}              # functions as they are in the file, packed; their parameters for types, numbers and impls
        self.impls, self.declared = {}, {}              # methods of each impl; shapes of types, with parameters
        self.functions, self.instances = {}, {}         # functions that were read; instance's name -> function, types, impls
        self.ready, self.put = {}, {}                   # functions made ready to be put in place of their calls, and which are (library.py)
        self.shapes, self.heads, self.texts = Shapes(self.read_shape), {}, {}

    # ---- crates

    def crate(self, name):
        """The crate's program read, if it was not before."""
        if name in self.crates:
            return
        self.crates.add(name)
        path = program_of(self.folder, name)
        kit = self.kit or kit_folder()
        of_kit = os.path.join(kit or '', 'rlibs', name + '.rlib', 'toolchain', 'mir.json')
        if not os.path.isfile(path) and kit and os.path.isfile(of_kit):
            self.library[name] = of_kit, listed(of_kit)
            return
        if not os.path.isfile(path):
            more = '' if kit else ', and none of the library: rt is not on the path, and --kit was not given'
            raise Stop(f'crate {name}: no proved program {path}{more}')
        try:
            with open(path, encoding='utf-8') as handle:
                for function, form in json.load(handle):
                    if function in self.forms:
                        raise Stop(f'{function}: two functions of this name')
                    self.keep(function, form)
        except (LookupError, TypeError, ValueError, AttributeError) as error:
            raise Stop(f'crate {name}: {path} is no proved program ({error!r})')
        if self.describe:
            self.texts.update(self.describe(name))

    def keep(self, name, form):
        self.forms[name], self.generics[name] = marshal.dumps(form), form.get('generics') or {'types': [], 'bounds': []}

    def is_function(self, name):
        """Whether a crate that was asked for has it; it is kept then."""
        crate = name.split('::')[0]
        if name not in self.forms and crate in self.library:
            path, places = self.library[crate]
            if len(places.get(name, ())) > 1:
                raise Stop(f'{name}: two functions of this name')
            for place in places.get(name, ()):
                self.keep(name, form_at(path, place))
        return name in self.forms

    def asked(self, name):
        self.crate(name.split('::')[0])
        if not self.is_function(name):
            raise Stop(f'{name}: no proved function of this name')
        return name

    def of_library(self, name):
        """Whether a function is the toolchain's."""
        return self.instances.get(name, (name,))[0].split('::')[0] in self.library

    # ---- instances

    def instance(self, name, types, impls):
        """The name of a function at what is given for its parameters."""
        generics = self.generics[self.asked(name)]
        if (len(types), len(impls)) != (len(generics['types']), len(generics['bounds'])):
            raise Stop(f'statement Call of {name} with another count of types or impls')
        for impl in generics.get('impls', ()):
            self.impls.setdefault(impl['name'], impl['methods'])
        return self.named_instance(self.instances, name, (name, types, impls)) if types or impls else name

    def named_instance(self, instances, head, key):
        name = '_'.join([head] + list(map(word, key[1])))
        if name not in instances and self.is_function(name) or instances.setdefault(name, key) != key:
            raise Stop(f'{name}: two instances of this name')
        return name

    def type_instance(self, head, arguments):
        """The name of a declared type at what is given for its parameters: without the path, if it is the toolchain's."""
        if not arguments:
            self.heads[head] = head, ()
            return head
        short = 'tuple' if head.startswith('(') else head.split('::')[-1] if self.is_library(head.split('::')[0]) else head
        return self.named_instance(self.heads, short, (head, arguments))

    def is_library(self, crate):
        return not os.path.isfile(program_of(self.folder, crate))

    def read_shape(self, name):
        head, arguments = self.heads.get(name, (name, ()))
        if head not in self.declared:
            raise Stop(f'no shape of {name}')
        return Reading(self, arguments).shape(self.declared[head])

    def method(self, impl, index):
        if index >= len(self.impls.get(impl, ())):
            raise Stop(f'impl {impl} has no method {index}')
        return self.impls[impl][index]

    # ---- functions

    def read(self, name):
        base, types, impls = self.instances.get(name, (name, (), ()))
        form = marshal.loads(self.forms[self.asked(base)])
        try:
            for declared in form['types']:
                if self.declared.setdefault(declared['name'], declared['shape']) != declared['shape']:
                    raise Stop(f'two shapes of {declared["name"]}')
            for impl in (form.get('generics') or {}).get('impls', ()):
                if self.impls.setdefault(impl['name'], impl['methods']) != impl['methods']:
                    raise Stop(f'two impls {impl["name"]}')
            function = Reading(self, types, impls).function(name, form)
        except Stop as stop:
            raise Stop(f'{name}: {stop}')
        except (LookupError, TypeError, ValueError, AttributeError, StopIteration) as error:
            raise Stop(f'{name}: a form of another shape than expected ({error!r})')
        names, function.comment = self.texts.get(base, ((), ''))
        if len(names) == function.params:
            function.names[1:function.params + 1] = names
        return function

    def function(self, name):
        if name not in self.functions:
            self.functions[name] = self.read(name)
        return self.functions[name]


def word(t):
    """A type or a number as a part of a name."""
    if isinstance(t, int):
        return str(t)
    if isinstance(t, IntType):
        return f'u{t.width}'
    if isinstance(t, Named):
        return t.name
    if isinstance(t, Array):
        return f'array_{word(t.item)}_{t.count}'
    if isinstance(t, (Ref, Slice)):
        return ('mut_' if t.mutable else '') + ('slice_' + word(t.item) if isinstance(t, Slice) else 'ref_' + word(t.target))
    return {BOOL: 'bool', UNIT: 'unit'}.get(t, 'ptr')
