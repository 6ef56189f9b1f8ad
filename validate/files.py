"""One C file of dist/ on one target: every function of it, none left over."""
from c_text import CFile
from functions import validate_copy
from headers import Headers, declared_calls
from helpers_check import check_helper
from match import Matcher, c_name
from preprocess import included, includes, preprocessed
from sources import exported
from wrappers import validate_export, validate_import


class Words:
    """What the makefiles say of a file: its path and the generator's words for it."""

    def __init__(self, path, words):
        self.path, self.given = path, list(zip(words[::2], words[1::2]))

    def all(self, word):
        return [value for name, value in self.given if name == word]

    def one(self, word):
        return self.all(word)[-1]


def read_c(path, include, target):
    """A C file as a compiler for the target sees it. Other headers are refused, and what compilers may read in two ways."""
    included(path, include)
    return CFile(preprocessed(path, include, target), path, target, preprocessed(includes(path), include, target))


class File:
    def __init__(self, program, words, include, target):
        self.words, self.program, self.target = words, program, target
        source = words.one('--source')
        self.c = read_c(words.path, include, target)
        exports = {name: export for crate in words.all('--export') for name, export in exported(source, crate).items()}
        self.imports = {export.path: export for crate in words.all('--import') for export in exported(source, crate).values()}
        reached = program.reach([export.path for export in exports.values()] + list(self.imports))
        self.matcher = Matcher(program, self.c, source, reached)
        self.headers = Headers(program, self.c, source, exports, {export.name: export for export in self.imports.values()})
        self.exports = exports

    def functions(self):
        """The names of all functions but helpers, in the order of the file."""
        return list(self.matcher.copies) + self.matcher.exported

    def text(self):
        """All that the functions' validation depends on, but for the widths."""
        return repr(self.c.members) + ''.join(self.c.text(name) for name in self.functions())

    def check_border(self):
        self.headers.check(self.matcher.exported)

    def declared(self):
        return declared_calls(self.c, self.words.all('--header'))

    def validate(self, solver, name):
        """How many goals held by form, and how many the solver decided. Refused if one did not hold."""
        if name in self.matcher.exported:
            export = self.exports[name]
            compare = validate_export(self.matcher, solver, export, c_name(export.path))
        elif self.matcher.copies[name].name in self.imports:
            compare = validate_import(self.matcher, solver, name, self.imports[self.matcher.copies[name].name].name)
        else:
            compare = validate_copy(self.matcher, solver, name)
        return compare.by_form, compare.by_solver

    def check_helper(self, solver, name):
        check_helper(solver, self.c, name)

    def helper_text(self, name):
        """All that a helper's check depends on."""
        text = self.c.text(name)
        order = self.target.order if 'memcpy' in text else ''
        return text, self.target.int_bits, self.target.size_bits, order
