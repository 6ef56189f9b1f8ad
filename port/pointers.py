"""Gives each raw pointer a type.

The prover's raw pointer says nothing of what it points to. In C each gets the one type at which memory is read or written through it,
`const` unless something is written. A pointer used at two types stops the generator: so no memory is reached at another type than its
own, and neither aliasing nor byte order can come in.
"""
from forms import (Address, Array, Assign, Copy, Offset, RawPointer, Ref, Stop, places_in, statements, target_of,
                   values_of)


def all_places(body):
    for statement in statements(body):
        for value in values_of(statement):
            for place, _ in places_in(value):
                yield place
        if target_of(statement):
            yield target_of(statement)


def flows(body):
    """(source place, target place) of each assignment that passes a pointer on, moved or not."""
    for statement in statements(body):
        if not isinstance(statement, Assign):
            continue
        value = statement.value
        if isinstance(value, Offset):
            value = value.pointer
        if isinstance(value, (Copy, Address)):
            yield value.place, statement.place, isinstance(value, Address)


class Inference:
    def __init__(self, function):
        self.types = function.types
        self.raw = {i for i, t in enumerate(function.types) if isinstance(t, RawPointer)}
        self.target, self.written = {}, set()
        self.flows = list(flows(function.body))

    def note(self, local, target):
        """True if this is new."""
        if local in self.target:
            if self.target[local] != target:
                raise Stop(f'pointer local {local} is used at two types')
            return False
        self.target[local] = target
        return True

    def source_type(self, place, address):
        """What a passed-on pointer points to, where that is known."""
        if not address and not place.steps and place.base in self.target:
            return self.target[place.base]
        if address and place.base in self.target and len(place.steps) == 1:
            return self.target[place.base]
        t = self.types[place.base] if not place.steps else getattr(place.steps[-1], 'target', None)
        return t.item if address and isinstance(t, Array) else None

    def is_written(self, place):
        """Whether memory is written through a pointer that lies in this place."""
        t = self.types[place.base]
        return not place.steps and (place.base in self.written or isinstance(t, Ref) and t.mutable)

    def step(self):
        """One round over all passed-on pointers; True if something new came out."""
        new = False
        for source, to, address in self.flows:
            known = self.source_type(source, address)
            if to.base in self.raw and not to.steps and known is not None and to.base not in self.target:
                new |= self.note(to.base, known)
            if source.base in self.raw and self.is_written(to) and source.base not in self.written:
                self.written.add(source.base)
                new = True
        return new


def infer_pointers(function):
    inference = Inference(function)
    if not inference.raw:
        return
    for place in all_places(function.body):
        if place.base in inference.raw and place.steps:
            inference.note(place.base, place.steps[0].target)
    for statement in statements(function.body):
        to = target_of(statement)
        if to and to.base in inference.raw and to.steps:
            inference.written.add(to.base)
    while inference.step():
        pass
    mentioned = {place.base for place in all_places(function.body)}
    for local in sorted(inference.raw & mentioned):
        if local not in inference.target:
            raise Stop(f'pointer local {local} has no type')
        function.types[local] = Ref(local in inference.written, inference.target[local])
