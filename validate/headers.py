"""The exported functions against the headers and the sources: the same names, parameters, types and struct members, in the same order."""
from pycparser import c_ast

from c_text import CPointer, CStruct
from sources import NUMBERS, c_parameters, fields
from terms import Refused

KEPT_BY_CPP = ('class', 'delete', 'export', 'friend', 'new', 'operator', 'private', 'protected', 'public', 'template', 'this', 'using', 'virtual')


def same_name(name, source):
    """A header names a parameter as the source does; a word that C++ keeps gets another in front of it."""
    return name == source or source in KEPT_BY_CPP and name.endswith('_' + source)


class Headers:
    """The exported functions of one C file. `exports` and `imports`: C name -> what the sources say."""

    def __init__(self, program, c, folder, exports, imports):
        self.program, self.c, self.folder, self.exports, self.imports = program, c, folder, exports, imports

    def check(self, own):
        """`own`: the functions that the file defines for others to call."""
        if set(own) != set(self.exports):
            raise Refused(f'exported functions: {sorted(set(own) ^ set(self.exports))} only in the sources or only in C')
        for export in self.exports.values():
            self.same_function(export, self.c.functions[export.name].decl, 'C')
        for export in {**self.exports, **self.imports}.values():
            if export.name in self.c.declared:
                self.same_function(export, self.c.declared[export.name], 'the header')
            elif export.name in self.exports:
                raise Refused(f'{export.name}: no header declares it')

    def same_function(self, export, declared, where):
        if declared.storage or declared.funcspec:
            raise Refused(f'{export.name}: {declared.storage} {declared.funcspec} in {where}')
        given, demanded = self.c.parameters(declared), [(name, self.type(t)) for name, t in c_parameters(export)]
        if [t for _, t in given] != [t for _, t in demanded] or not all(same_name(a, b) for (a, _), (b, _) in zip(given, demanded)):
            raise Refused(f'{export.name}: other parameters in {where}')
        self.same_result(export, self.c.result(declared), where)

    def type(self, text):
        """A type that the sources demand, as C has it."""
        if text.endswith('*'):
            return CPointer(self.c.named_type('uint8_t'), text.startswith('const'))
        return self.c.named_type(text)

    def same_result(self, export, result, where):
        t = self.program.get(export.path).types[0]
        if not export.result:
            if t != 'Unit' or result != self.c.named_type('void'):
                raise Refused(f'{export.name}: another result in {where}')
        elif export.result in NUMBERS:
            if result != self.type(NUMBERS[export.result]):
                raise Refused(f'{export.name}: another result in {where}')
        elif not isinstance(result, CStruct) or not isinstance(t, dict) or 'Named' not in t:
            raise Refused(f'{export.name}: another result in {where}')
        else:
            self.same_members(export, self.program.named(t), result, where)

    def same_members(self, export, path, result, where):
        if path.split('::')[-1] != export.result.split('::')[-1]:
            raise Refused(f'{export.name}: the sources say {export.result}, the program {path}')
        demanded = [(name, self.type(NUMBERS.get(t, 'no number'))) for name, t in fields(self.folder, path)]
        if self.c.members[result.name] != demanded:
            raise Refused(f'{export.name}: the members of struct {result.name} in {where} are not those of {path}')


def declared_calls(c, headers):
    """The functions that these headers declare."""
    return {name for name, header in c.declared_in.items() if header in headers and isinstance(c.declared[name], c_ast.Decl)}
