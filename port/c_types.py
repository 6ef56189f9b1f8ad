"""The C types of a program: each struct is declared when it is first met, after those that it holds."""
from forms import BOOL, U64, UNIT, Array, Fields, IntType, Named, Ref, Slice, Stop, U8

OWN_NAMES = {'core::result::Result': ('ok', 'err'), 'core::option::Option': ('none', 'some')}


def c_name(name):
    """A path of the program as one C name; the literals of a specialised copy stand after it."""
    return name.replace('::', '__').replace('@', '_').replace('+', '_')


def item_of(t):
    """What a pointer to this points to in C: a pointer to an array points to its first item."""
    return t.item if isinstance(t, Array) else t


class Types:
    def __init__(self, shapes, field_names, heads=None):
        self.shapes, self.field_names, self.heads = shapes, field_names, heads or {}
        self.structs = {}                               # C name -> declarations of its members
        self.named = {}                                 # C name -> the type that has it

    def short(self, t):
        if isinstance(t, IntType):
            return f'u{t.width}'
        return c_name(t.name) if isinstance(t, Named) else type(t).__name__.lower().replace('type', '')

    def c(self, t):
        """The type's name in C."""
        if isinstance(t, IntType):
            return f'uint{t.width}_t'
        if t in (BOOL, UNIT):
            return 'bool' if t == BOOL else 'void'
        if isinstance(t, Ref):
            return ('' if t.mutable else 'const ') + self.c(item_of(t.target)) + ' *'
        if isinstance(t, Slice):
            name = 'struct slice_' + ('mut_' if t.mutable else '') + self.short(t.item)
            members = lambda: [self.declare(Ref(t.mutable, t.item), 'ptr'), 'size_t len']
        elif isinstance(t, Array):
            name = f'struct array_{self.short(t.item)}_{t.count}'
            members = lambda: [f'{self.c(t.item)} at[{t.count}]']
        elif isinstance(t, Named):
            name = 'struct ' + c_name(t.name)
            members = lambda: self.declared_members(t)
        else:
            raise Stop(f'type {t}')
        if self.named.setdefault(name, t) != t:
            raise Stop(f'{name} in C is also the name of {self.named[name]}')
        if name not in self.structs:
            self.structs[name] = members()
        return name

    def declare(self, t, name):
        c = self.c(t)
        return c + name if c.endswith('*') else f'{c} {name}'

    def declared_members(self, t):
        names = [n for n, u in self.members(t) if u != UNIT]
        if not names or len(set(names)) != len(names):
            raise Stop(f'the type {t.name}, which has no value but one or two members of one name')
        return [self.declare(u, n) for n, u in self.members(t) if u != UNIT]

    def shape(self, t):
        try:
            return self.shapes[t.name]
        except KeyError:
            raise Stop(f'no shape of {t.name}') from None

    def is_struct(self, t):
        return isinstance(t, Named) and isinstance(self.shape(t), Fields)

    def is_enum(self, t):
        return isinstance(t, Named) and not self.is_struct(t)

    def members(self, t):
        """Names and types of a declared type's members. An enum is its tag and then the fields of its variants, where fields of
        one type at one position share a member: only those of the variant that the tag names are ever read."""
        shape = self.shape(t)
        if isinstance(shape, Fields):
            names = self.field_names.get(self.head(t), [])
            if len(names) != len(shape.types):
                names = [f'f{i}' for i in range(len(shape.types))]
            return list(zip(names, shape.types))
        out = [('tag', U8)]
        for k in range(len(shape.variants)):
            out += [m for m in self.variant_fields(t, k)[1:] if m not in out]
        return out

    def head(self, t):
        """The declared type's name without what is given for its parameters."""
        return self.heads.get(t.name, (t.name,))[0]

    def variant_member(self, index, t):
        return f'{self.short(t)}_{index}'

    def variant_fields(self, t, index):
        """Names and types of the tag and the fields of one variant. Those of Option and Result have names of their own."""
        types, variants = self.shape(t).variants[index], self.shape(t).variants
        names = OWN_NAMES.get(self.head(t)) if len(set(variants)) == len(variants) else None
        return [('tag', U8)] + [(names[index] if names else self.variant_member(i, u), u) for i, u in enumerate(types)]

    def slice_fields(self, t):
        return [('ptr', Ref(t.mutable, t.item)), ('len', U64)]

    def text(self):
        return ''.join(f'{name} {{\n' + ''.join(f'    {m};\n' for m in members) + '};\n\n' for name, members in self.structs.items())
