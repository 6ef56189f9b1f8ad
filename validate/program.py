"""Reads the proved program: crates/NAME/out/rlib/NAME.rlib/toolchain/mir.json of every crate, and rlibs/NAME.rlib/toolchain/mir.json beside the command
rt of those of the toolchain's library. Uses nothing of port/.

A function with parameters for types, numbers or impls is one function for each choice of them, as the kit's logic has it (`put_in` of Mir/MapTy.antt): what is given
stands wherever the form names the parameter. Such an instance is read when something reaches it. Lifetimes are all made the same, as the machine reads none.

A body becomes a list of statements: ('Assign', place, value), ('Call', name, arguments, place), ('If', operand, body, body),
('Switch', operand, [(keys or None, body)]), ('Block', body), ('Loop', body), ('Exit', depth), ('Return',).

A constant array that the program lends (`LendStatic`) lies in memory that is there from the start and that nothing writes: `lent` has its local, which
holds its address in the whole run, and what the array holds. No statement stands for it. Another constant is ('Constant', local, constant).
"""
import json
import os
import shutil

from terms import BOOL, BV, Enum, Refused

WIDTHS = (8, 16, 32, 64)


class Function:
    """`resolve`: what a call names -> the name of the instance that it runs."""

    def __init__(self, name, form, resolve):
        self.name, self.params = name, form['params']
        self.types = [local['ty'] for local in form['locals']]
        self.homes = [local['home'] for local in form['locals']]
        self.lent = {local: constant for local, *constant in map(lent, form['body']) if local is not None}
        if any(self.types[local].get('Ref', [None])[1:] != ['Imm', t] or self.in_memory(local) for local, (t, _) in self.lent.items()):
            raise Refused(f'{name}: a constant lent to a local of another type')
        if set(self.homes) - {'ValueLocal', 'MemorySlot'}:
            raise Refused(f'{name}: homes {set(self.homes)}')
        tokens = iter(form['body'])
        self.body = read_body(tokens, resolve)
        if next(tokens, None) is not None:
            raise Refused(f'{name}: more than one body')

    def parameters(self):
        return range(1, self.params + 1)

    def in_memory(self, local):
        return self.homes[local] == 'MemorySlot'

    def is_array(self, local):
        return isinstance(self.types[local], dict) and 'Array' in self.types[local]

    def memory(self):
        """Local -> the type of what lies in memory for it: its own value, or the constant that it is lent."""
        return {i: self.lent[i][0] if i in self.lent else t for i, t in enumerate(self.types) if self.in_memory(i) or i in self.lent}


def lent(token):
    """(local, array type, its numbers as operands or ('Repeat', operand)) of a token that lends a constant array; (None,) of others."""
    if not isinstance(token, dict) or 'LendStatic' not in token or not is_array(token['LendStatic'][1]):
        return (None,)
    place, t, constant = token['LendStatic']
    kind, content = only(constant)
    item, length = t['Array'] if set(t) == {'Array'} else (None, None)
    if place['steps'] or length is None or set(length) != {'Lit'}:
        raise Refused(f'constant {json.dumps(token)[:80]}')
    if kind == 'Ints' and item == {'Int': content['width']} and length['Lit'] == len(content['values']):
        return place['local'], t, [{'Int': {'width': content['width'], 'value': value}} for value in content['values']]
    if kind == 'Repeat' and item == {'Int': content[0].get('Int', {}).get('width')} and length['Lit'] == content[1]:
        return place['local'], t, ('Repeat', content[0])
    raise Refused(f'constant {json.dumps(token)[:80]}')


def is_array(t):
    return isinstance(t, dict) and set(t) == {'Array'}


def read_body(tokens, resolve):
    """The next body of a list in prefix order."""
    token = next(tokens)
    kind, content = (token, None) if isinstance(token, str) else only(token)
    if kind == 'Seq':
        first = read_body(tokens, resolve)
        return first + read_body(tokens, resolve)
    if kind == 'LendStatic' and not is_array(content[1]) and not content[0]['steps']:
        return [('Constant', content[0]['local'], content[2])]
    if kind in ('Skip', 'LendStatic'):
        return []
    if kind in ('Return', 'Unreachable'):
        return [(kind,)]
    if kind in ('Block', 'Loop'):
        return [(kind, read_body(tokens, resolve))]
    if kind == 'If':
        then = read_body(tokens, resolve)
        return [('If', content, then, read_body(tokens, resolve))]
    if kind == 'Switch':
        arms = [(keys, read_body(tokens, resolve)) for keys in content[1]]
        return [('Switch', content[0], arms + ([(None, read_body(tokens, resolve))] if content[2] else []))]
    if kind == 'Assign':
        return [('Assign', content[0], content[1])]
    if kind == 'Call':
        return [('Call', resolve(content[0]), content[1], content[2])]
    if kind == 'Exit':
        return [('Exit', content)]
    raise Refused(f'statement {kind}')


def only(form):
    """Key and content of a form with one key."""
    if not isinstance(form, dict) or len(form) != 1:
        raise Refused(f'form {json.dumps(form)[:80]}')
    return next(iter(form.items()))


# ---- what is given for parameters

def put_in(form, types, dicts):
    """A form with what is given for its parameters: types[i], or {'Const': n}, for parameter i, dicts[i] for the i-th impl."""
    if isinstance(form, list):
        return [put_in(part, types, dicts) for part in form]
    if not isinstance(form, dict):
        return form
    kind, content = next(iter(form.items()), (None, None)) if len(form) == 1 else (None, None)
    if kind in ('Param', 'Given'):
        given = types if kind == 'Param' else dicts
        if content >= len(given):
            raise Refused(f'nothing is given for {kind} {content}')
        return given[content]
    if kind == 'Ref':
        return {'Ref': ['Erased', content[1], put_in(content[2], types, dicts)]}
    if kind == 'Named':
        return {'Named': [{'name': content[0]['name']}, put_in(content[1], types, dicts)]}
    parts = {key: put_in(part, types, dicts) for key, part in form.items()}
    if kind in ('Array', 'Repeat') and isinstance(parts[kind][1], dict) and 'Const' in parts[kind][1]:
        parts[kind][1] = {'Lit': parts[kind][1]['Const']}
    if kind == 'NumOf':
        return {'Int': {'width': content[0], 'value': only(parts[kind][1])[1]}}
    if kind == 'SizeOf':
        return {'Int': {'width': 64, 'value': size_of(parts[kind])}}
    return parts


def size_of(t):
    """The bytes of a number's type."""
    kind, content = only(t)
    if kind != 'Int' or content not in WIDTHS:
        raise Refused(f'the size of {json.dumps(t)[:80]}')
    return content // 8


def word(t):
    """A type or number as a part of an instance's name: a hint for where it stands in C."""
    if isinstance(t, str):
        return t.lower()
    kind, content = only(t)
    if kind in ('Int', 'Const'):
        return f'u{content}' if kind == 'Int' else str(content)
    if kind == 'Named':
        return '_'.join([short(content[0]['name'])] + list(map(word, content[1]))) if content[1] else content[0]['name']
    if kind == 'Array':
        return f'array_{word(content[0])}_{content[1]["Lit"]}'
    if kind == 'Ref':
        return ('mut_' if content[1] == 'Mut' else '') + 'ref_' + word(content[2])
    if kind == 'Struct' and content[0] == '&[]':
        return word(content[1][0]).replace('ref_', 'slice_', 1)
    raise Refused(f'a type given for a parameter: {json.dumps(t)[:80]}')


def short(head):
    return 'tuple' if head.startswith('(') else head.split('::')[-1] if head.startswith('core::') else head


def bodies(statement):
    """The bodies inside a statement."""
    if statement[0] in ('Block', 'Loop'):
        return [statement[1]]
    if statement[0] == 'If':
        return [statement[2], statement[3]]
    return [body for _, body in statement[2]] if statement[0] == 'Switch' else []


def mentioned(form):
    """The locals in a form, however deep."""
    if isinstance(form, dict):
        return {form['local']} if 'local' in form else set().union(*map(mentioned, form.values()))
    return set().union(*map(mentioned, form)) if isinstance(form, (list, tuple)) else set()


def used_locals(body):
    """The locals that a body does anything with but to assign them as a whole."""
    used = set()
    for statement in body:
        kind, *parts = statement
        whole = kind == 'Assign' and not parts[0]['steps']
        used |= mentioned(parts[1:] if whole else parts) if not bodies(statement) else mentioned(parts[0] if kind in ('If', 'Switch') else [])
        used = used.union(*map(used_locals, bodies(statement)))
    return used


def calls_in(body):
    """The functions that a body calls."""
    own = [statement[1] for statement in body if statement[0] == 'Call']
    return own + [name for statement in body for inner in bodies(statement) for name in calls_in(inner)]


def literal(operand):
    return operand['Int']['value'] if isinstance(operand, dict) and 'Int' in operand else None


def toolchain():
    """The folder that the command rt lies in the bin/ of; without it on the path, what scripts/proofs.sh wrote down, or None."""
    rt = shutil.which('rt')
    if rt is not None:
        return os.path.dirname(os.path.dirname(os.path.realpath(rt)))
    try:
        with open(os.path.join(os.path.dirname(os.path.dirname(os.path.abspath(__file__))), 'target', 'test', 'kit'), encoding='utf-8') as handle:
            folder = handle.readline().strip()
    except (OSError, UnicodeDecodeError):
        return None
    return folder if os.path.isdir(f'{folder}/rlibs') else None


def library_form(path, name):
    """A function's form in a library's file, or None. The file is large: it is gone through for the function's head, and the form is read from there."""
    head = ('[' + json.dumps(name) + ',{"lifetimes":').encode()
    found, kept, read_so_far = [], b'', 0
    with open(path, 'rb') as handle:
        for part in iter(lambda: handle.read(1 << 20), b''):
            window = kept + part
            start = window.find(head)
            while start >= 0:
                found.append(read_so_far - len(kept) + start)
                start = window.find(head, start + 1)
            read_so_far += len(part)
            kept = window[-(len(head) - 1):]
        if not found:
            return None
        if len(found) > 1:
            raise Refused(f'{name}: two functions of this name')
        length = 1 << 16
        while True:
            handle.seek(found[0])
            text = handle.read(length)
            try:
                return json.JSONDecoder().raw_decode(text.decode(errors='ignore'))[0][1]
            except ValueError:
                if len(text) < length:
                    raise Refused(f'{name}: cut off in {path}')
            length *= 4


class Program:
    """All functions and declared types of the proved crates in a folder, and of the library's in the toolchain's folder `kit`."""

    def __init__(self, folder, kit=None):
        self.kit = kit or toolchain()
        self.forms, self.functions, self.declared, self.impls, self.instances, self.crates = {}, {}, {}, {}, {}, set()
        crates = sorted(os.listdir(folder)) if os.path.isdir(folder) else []
        paths = {crate: os.path.join(folder, crate, 'out', 'rlib', crate + '.rlib', 'toolchain', 'mir.json') for crate in crates}
        paths = {crate: path for crate, path in paths.items() if os.path.isfile(path)}
        if not paths:
            raise SystemExit(f'validate: no proved crates in {folder}')
        for crate, path in paths.items():
            self.read(crate, path)
        self.own = list(self.forms)

    def read(self, crate, path):
        self.crates.add(crate)
        with open(path, encoding='utf-8') as handle:
            for name, form in json.load(handle):
                if name in self.forms:
                    raise Refused(f'{name}: two functions of this name')
                self.forms[name] = form

    def has(self, name):
        """Whether there is such a function, in a library's crate too; its form is known then."""
        crate = name.split('::')[0]
        if name not in self.forms and self.kit and crate not in self.crates:
            path = os.path.join(self.kit, 'rlibs', crate + '.rlib', 'toolchain', 'mir.json')
            form = library_form(path, name) if os.path.isfile(path) else None
            if form is not None:
                self.forms[name] = form
        return name in self.forms

    def form(self, name):
        """A function as it is in the file."""
        if not self.has(name):
            missing = '' if self.kit or name.split('::')[0] in self.crates else ': no rt on the path, beside which the library is (docs/USING.md, Toolchain)'
            raise Refused(f'no proved function {name}{missing}')
        return self.forms[name]

    def described(self, name):
        """A function's form, its types and impls known."""
        form = self.form(name)
        for declared in form['types']:
            shape = put_in(declared['shape'], [{'Param': i} for i in range(99)], [])        # one lifetime like the next
            if self.declared.setdefault(declared['name'], shape) != shape:
                raise Refused(f'{declared["name"]}: two shapes')
        for impl in (form.get('generics') or {}).get('impls', []):
            if self.impls.setdefault(impl['name'], impl['methods']) != impl['methods']:
                raise Refused(f'{impl["name"]}: two impls')
        return form

    def resolve(self, callee):
        """The name of the instance that a call runs: a function at its arguments, or an impl's method at the impl's and then its own."""
        kind, content = only(callee)
        if kind == 'Fn':
            return self.instance(content[0], content[1]['types'], content[1]['dicts'])
        if kind != 'Method' or set(content[0]) != {'Impl'}:
            raise Refused(f'call of {json.dumps(callee)[:80]}')
        name, types, dicts = content[0]['Impl']
        if content[1] >= len(self.impls.get(name, [])):
            raise Refused(f'{name}: no method {content[1]}')
        return self.instance(self.impls[name][content[1]], types + content[2]['types'], dicts + content[2]['dicts'])

    def instance(self, name, types, dicts):
        generics = self.form(name).get('generics') or {'types': [], 'bounds': []}
        if (len(types), len(dicts)) != (len(generics['types']), len(generics['bounds'])):
            raise Refused(f'{name}: called with another count of types or impls')
        if not types and not dicts:
            return name
        instance = '_'.join([name] + list(map(word, types)))
        if instance not in self.instances and self.has(instance) or self.instances.setdefault(instance, (name, types, dicts)) != (name, types, dicts):
            raise Refused(f'{instance}: two instances of this name')
        return instance

    def get(self, name):
        if name not in self.functions:
            try:
                base, types, dicts = self.instances.get(name, (name, [], []))
                form = self.described(base)
                parts = put_in({'locals': form['locals'], 'body': form['body']}, types, dicts)
                f = self.functions[name] = Function(name, {'params': form['params'], **parts}, self.resolve)
                if f.lent and self.may_point(f.types[0]):
                    raise Refused(f'{name}: a constant lent in a function whose result may point to it')
            except Refused as refused:
                self.functions[name] = refused
        if isinstance(self.functions[name], Refused):
            raise self.functions[name]
        return self.functions[name]

    def reach(self, names):
        """All functions that these call, themselves too; so the instances among them are known. What cannot be read is refused where it is asked for."""
        todo, seen = list(names), set()
        while todo:
            name = todo.pop()
            if name in seen:
                continue
            seen.add(name)
            try:
                todo += calls_in(self.get(name).body)
            except Refused:
                continue
        return sorted(seen)

    # ---- types

    def may_point(self, t):
        """Whether a value of this type may hold a pointer."""
        if isinstance(t, str):
            return t == 'Ptr'
        kind, content = only(t)
        if kind == 'Named':
            shape, parts = only(self.declaration(t))
            return any(map(self.may_point, parts if shape == 'Fields' else [u for variant in parts for u in variant]))
        return kind != 'Int' and (kind != 'Array' or self.may_point(content[0]))

    def declaration(self, t):
        """The shape of a declared type, with what is given for its parameters."""
        head, parts = t['Named']
        if head['name'] not in self.declared:
            raise Refused(f'no shape of {head["name"]}')
        return put_in(self.declared[head['name']], parts, [])

    @staticmethod
    def named(t):
        """The name of a declared type without parameters."""
        head, parts = t['Named']
        if parts:
            raise Refused(f'type {json.dumps(t)[:80]}')
        return head['name']

    def shape(self, t):
        """A type as a shape of terms. A pointer is its address; an enum its tag and a place for each field of each variant."""
        if t == 'Unit':
            return []
        if t == 'Bool':
            return BOOL
        if t == 'Ptr':
            return BV(64)
        kind, content = only(t)
        if kind == 'Int' and content in WIDTHS:
            return BV(content)
        if kind == 'Ref':
            return BV(64)
        if self.is_slice(t):
            return [BV(64), BV(64)]
        if kind == 'Named' and self.is_enum(t):
            variants, slots = self.declaration(t)['Variants'], self.slots(t)
            return Enum([BV(8)] + [self.shape(u) for _, u in slots], [{k for k, variant in enumerate(variants) if slot in enumerate(variant)} for slot in slots])
        if kind == 'Named':
            return [self.shape(u) for u in only(self.declaration(t))[1] if u != 'Unit']
        if kind == 'Array' and set(content[1]) == {'Lit'} and 'Int' in content[0]:
            return 'array', self.shape(content[0]), content[1]['Lit']
        raise Refused(f'type {t}')

    def is_slice(self, t):
        return isinstance(t, dict) and 'Struct' in t and t['Struct'][0] == '&[]' and t['Struct'][1][1] == {'Int': 64}

    def is_enum(self, t):
        return isinstance(t, dict) and 'Named' in t and 'Variants' in self.declaration(t)

    def slots(self, t):
        """An enum's fields but `()`: (position, type), each once, in the order of the variants."""
        out = []
        for variant in self.declaration(t)['Variants']:
            out += [slot for slot in enumerate(variant) if slot not in out and slot[1] != 'Unit']
        return out

    def field(self, t, variant, index):
        """(index among the leaves' places, type) of a field; `()` has no place."""
        if self.is_slice(t):
            return index, t['Struct'][1][index]
        if not self.is_enum(t):
            types = only(self.declaration(t))[1]
            return sum(u != 'Unit' for u in types[:index]), types[index]
        if index == 0:
            return 0, {'Int': 8}
        u = self.declaration(t)['Variants'][variant][index - 1]
        return 1 + self.slots(t).index((index - 1, u)) if u != 'Unit' else None, u
