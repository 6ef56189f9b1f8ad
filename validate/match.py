"""Which function of the program each function of the C file came from: by names, a hint that the comparison then proves or refuses."""
import itertools
import re

from helpers import HELPERS
from sources import parameter_names
from terms import Refused, number, same_shape, sorts_of


class Match:
    """A C function as a copy of the program's, with literals for some parameters."""

    def __init__(self, name, fixed, parameters):
        self.name, self.fixed, self.parameters = name, fixed, parameters


def c_name(name):
    return name.replace('::', '__').replace('+', '_')


class Matcher:
    """Names of the C file's own functions: `copies` of the program's, `exported` ones, and `helpers`."""

    def __init__(self, program, c, source, reached=()):
        self.program, self.c, self.source = program, c, source
        self.by_name, self.copies, self.exported, self.helpers = {}, {}, [], []
        for name in {**dict.fromkeys(program.own), **dict.fromkeys(reached)}:
            if self.by_name.setdefault(c_name(name), name) != name:
                raise Refused(f'{name}: two functions of this name in C')
        if any(name in HELPERS and not (name in c.own and c.is_static(name)) for name in c.functions):
            raise Refused('a helper that is defined in a header, or is not static')
        for name in c.own:
            if name in HELPERS:
                self.helpers.append(name)
            elif not c.is_static(name):
                self.exported.append(name)
            else:
                self.copies[name] = self.copied(name)

    def copied(self, name):
        """The program's function of that name, or of the name without literals at its end, which some parameters then are."""
        base, numbers = name, []
        while base not in self.by_name:
            if not re.fullmatch(r'.+_\d+', base):
                raise Refused(f'{name}: no function of the program has this name')
            base, numbers = self.cut(base, numbers)
        f = self.program.get(self.by_name[base])
        ways = list(self.with_literals(f, name, numbers))
        if len(ways) > 1:
            ways = [way for way in ways if self.same_names(f, name, way)]
        if len(ways) != 1:
            raise Refused(f'{name}: which parameters of {f.name} it has is not clear')
        return ways[0]

    def same_names(self, f, name, way):
        """Whether the parameters that are left have the names of the source, or p3 for the third."""
        given = [variable for variable, _ in self.c.parameters(self.c.functions[name])]
        names = parameter_names(self.source, f.name) or []
        return given in ([f'p{i}' for i in way.parameters], [names[i - 1] for i in way.parameters if i <= len(names)])

    def cut(self, base, numbers):
        """Takes the last literal off a name: `_7`, or `_p2_7` for one of parameter 2."""
        head, last = base.rsplit('_', 1)
        parameter = re.fullmatch(r'(.*)_p(\d+)', head)
        if parameter:
            return parameter[1], [(int(parameter[2]), int(last))] + numbers
        return head, [(None, int(last))] + numbers

    def with_literals(self, f, name, numbers):
        """Each choice of parameters for the literals that leaves what C's function takes, by shapes."""
        given = [self.c.shape(t) for _, t in self.c.parameters(self.c.functions[name])]
        real = [i for i in f.parameters() if f.types[i] != 'Unit']
        for chosen in itertools.combinations(real, len(numbers)):
            if any(at not in (None, i) for i, (at, _) in zip(chosen, numbers)):
                continue
            rest = [i for i in real if i not in chosen]
            shapes = [self.program.shape(f.types[i]) for i in rest]
            if same_shape(shapes, given) and all(isinstance(f.types[i], dict) and 'Int' in f.types[i] for i in chosen):
                yield Match(f.name, {i: value for i, (_, value) in zip(chosen, numbers)}, rest)

    def callees(self, called):
        """C name -> (the program's function, the literal leaves by their place, the shapes of the other arguments), of those that are called."""
        return {name: (self.copies[name].name, self.literal_leaves(self.copies[name]), self.shapes(self.copies[name])) for name in called if name in self.copies}

    def shapes(self, match):
        f = self.program.get(match.name)
        return [self.program.shape(f.types[i]) for i in f.parameters() if i not in match.fixed and f.types[i] != 'Unit']

    def literal_leaves(self, match):
        f, at, out = self.program.get(match.name), 0, {}
        for i in f.parameters():
            if i in match.fixed:
                out[at] = number(match.fixed[i], f.types[i]['Int'])
            at += len(sorts_of(self.program.shape(f.types[i])))
        return out

    def locals_of(self, name, match):
        """C variable -> the program's local, a hint: parameters in order, t7 the local 7, where those that a constant is lent to come before the
        first that is no number."""
        f = self.program.get(match.name)
        given = [variable for variable, _ in self.c.parameters(self.c.functions[name])]
        out, order = dict(zip(given, match.parameters)), list(range(len(f.types)))
        if f.lent:
            first = next(i for i in order if i > f.params and not (isinstance(f.types[i], dict) and 'Int' in f.types[i]))
            order = order[:first] + sorted(f.lent) + [i for i in order[first:] if i not in f.lent]
        for i, local in enumerate(order):
            if i == 0 or i > f.params:
                out.setdefault(f't{i}', local)
        return out

    def has_call(self, called, name, literals):
        """Whether C has a copy of the function among those that it calls that fits these literal arguments."""
        return any(self.copies[c].name == name and all(literals[i - 1] == value for i, value in self.copies[c].fixed.items())
                   for c in called if c in self.copies)
