"""Reads a C file: preprocessed for a target (preprocess.py), parsed by pycparser, its types as the target has them.

A target gives the widths of int and size_t, the byte order, and the macros that a compiler for it defines. The standard headers are
those in `c_headers`: the types and names that C99 demands, and no more.
"""
import functools
import os
import re
from dataclasses import dataclass, field

from pycparser import c_ast, c_generator, c_parser
from pycparser.plyparser import ParseError

from terms import BOOL, BV, Refused


@dataclass(frozen=True)
class Target:
    name: str
    int_bits: int
    size_bits: int
    order: str              # 'little' or 'big'
    defines: tuple          # macros of the compiler, beyond those of the order and the widths


@dataclass(frozen=True)
class CInt:
    bits: int
    signed: bool
    is_size: bool = field(default=False, compare=False)     # written as size_t; the same type as the number of its width


@dataclass(frozen=True)
class CBool:
    pass


@dataclass(frozen=True)
class CVoid:
    pass


@dataclass(frozen=True)
class CPointer:
    to: object
    const: bool


@dataclass(frozen=True)
class CStruct:
    name: str


@dataclass(frozen=True)
class CArray:
    item: object
    count: int


C_BOOL, C_VOID, U8, U32, U64 = CBool(), CVoid(), CInt(8, False), CInt(32, False), CInt(64, False)


written = c_generator.CGenerator().visit


@functools.lru_cache(maxsize=8)
def parsed(text):
    """What a text declares and defines. Nothing changes it: the targets that have the same text share it."""
    try:
        return c_parser.CParser().parse(text).ext
    except ParseError as error:
        raise Refused(f'pycparser: {error}') from error


class CFile:
    """Structs and functions of a file. `own`: defined in the file itself; the rest is what its headers have, read by themselves."""

    def __init__(self, text, path, target, headers=''):
        self.target, self.path = target, path
        self.structs, self.functions, self.own, self.declared = {}, {}, [], {}
        self.declared_in = {}                                   # declared function -> the header
        others = {written(item): item for item in parsed(headers)}
        names = {item.decl.name for item in others.values() if isinstance(item, c_ast.FuncDef)}
        for item in parsed(text):
            own = isinstance(item, c_ast.FuncDef) and item.decl.name not in names
            self.add(item, not own and others.pop(written(item), None) is not None)
        if others:
            raise Refused(f'the file does not see what its headers have: {sorted(others)[0][:80]}')
        self.members = {name: [(m.name, self.type(m.type)) for m in members] for name, members in self.structs.items()}

    def add(self, item, of_header):
        if isinstance(item, c_ast.FuncDef):
            if item.decl.name in self.functions:
                raise Refused(f'{item.decl.name}: defined twice')
            if item.param_decls or set(item.decl.funcspec) - {'inline'} or set(item.decl.storage) - {'static'}:
                raise Refused(f'{item.decl.name}: defined in another way')
            self.functions[item.decl.name] = item
            if not of_header:
                self.own.append(item.decl.name)
        elif isinstance(item, c_ast.Decl) and isinstance(item.type, c_ast.Struct) and item.type.decls:
            if item.type.name in self.structs or any(member.bitsize or member.align for member in item.type.decls):
                raise Refused(f'struct {item.type.name}: declared twice, or with bit-fields')
            self.structs[item.type.name] = item.type.decls
        elif not of_header:
            raise Refused(f'{type(item).__name__} outside a function')
        elif isinstance(item, c_ast.Decl) and isinstance(item.type, c_ast.FuncDecl):
            self.declared[item.name] = item
            self.declared_in[item.name] = os.path.basename(item.coord.file)

    # ---- types

    def type(self, node):
        if set(getattr(node, 'quals', None) or []) - {'const'}:
            raise Refused(f'C type with {node.quals}')
        if isinstance(node, (c_ast.TypeDecl, c_ast.Typename)) and not getattr(node, 'align', None):
            return self.type(node.type)
        if isinstance(node, c_ast.PtrDecl):
            return CPointer(self.type(node.type), 'const' in getattr(node.type, 'quals', []))
        if isinstance(node, c_ast.ArrayDecl) and isinstance(node.dim, c_ast.Constant) and re.fullmatch('[1-9][0-9]*', node.dim.value):
            return CArray(self.type(node.type), int(node.dim.value))
        if isinstance(node, c_ast.Struct) and not node.decls:
            return CStruct(node.name)
        if isinstance(node, c_ast.IdentifierType):
            return self.named_type(' '.join(node.names))
        raise Refused(f'C type {type(node).__name__}')

    def named_type(self, name):
        known = {'void': C_VOID, '_Bool': C_BOOL, 'size_t': CInt(self.target.size_bits, False, True),
                 'int': CInt(self.target.int_bits, True), 'unsigned int': CInt(self.target.int_bits, False)}
        exact = re.fullmatch(r'(u?)int(8|16|32|64)_t', name)
        if exact:
            return CInt(int(exact[2]), not exact[1])
        if name not in known:
            raise Refused(f'C type {name}')
        return known[name]

    def is_slice(self, t):
        """A pointer and a size: what the program's slices are in C."""
        if not isinstance(t, CStruct):
            return False
        members = [u for _, u in self.members.get(t.name, [])]
        return len(members) == 2 and isinstance(members[0], CPointer) and getattr(members[1], 'is_size', False) and t.name.startswith('slice_')

    def is_array(self, t):
        """A struct around an array."""
        return isinstance(t, CStruct) and [type(u) for _, u in self.members.get(t.name, [])] == [CArray]

    def shape(self, t):
        """A type as a shape of terms, in the terms' widths; a slice's length is the 64 bits that it is in the program."""
        if isinstance(t, CInt):
            return BV(t.bits)
        if t == C_BOOL:
            return BOOL
        if isinstance(t, CPointer):
            return BV(64)
        if self.is_slice(t):
            return [BV(64), BV(64)]
        if self.is_array(t):
            array = self.members[t.name][0][1]
            return 'array', self.shape(array.item), array.count
        if isinstance(t, CStruct) and t.name in self.members:
            return [self.shape(u) for _, u in self.members[t.name]]
        if t == C_VOID:
            return []
        raise Refused(f'C type {t}')

    # ---- functions

    def parameters(self, f):
        """(name, type) of each parameter of a definition or declaration."""
        declared = f.decl if isinstance(f, c_ast.FuncDef) else f
        args = declared.type.args.params if declared.type.args else []
        if any(isinstance(p, c_ast.EllipsisParam) for p in args):
            raise Refused('a function of any number of arguments')
        return [(p.name, self.type(p.type)) for p in args if not isinstance(p, c_ast.Typename)]

    def result(self, f):
        declared = f.decl if isinstance(f, c_ast.FuncDef) else f
        return self.type(declared.type.type)

    def text(self, name):
        """A function as text: two functions of one text mean the same on one target."""
        return written(self.functions[name])

    def is_static(self, name):
        return 'static' in self.functions[name].decl.storage
