"""Holds a C function's run to the run of the program's function: at each loop's head and at the return both arrive under the same
tests with the same memory and equal values, and each duty, access and call of C is one that the program answers for."""
import z3

from solver import abstracted
from terms import FALSE, Refused, conjunction, counting, fits, merge, number, same_shape, simple


class Compare:
    def __init__(self, solver, program_run, c_run):
        self.solver, self.p, self.c = solver, program_run, c_run
        self.by_form, self.by_solver, self.done = 0, 0, {}
        self.facts, self.blocks, self.fact_guards = None, self.known_blocks(), {}
        for guard, test in program_run.facts:
            self.fact_guards.setdefault(test.get_id(), []).append(guard)

    def known_blocks(self):
        """(guard, pointer, bytes) of memory that lies in one block: what the program reaches, and its slices; each once."""
        reached = [(guard, pointer, number(width // 8 if isinstance(width, int) else 0)) for guard, _, width, pointer in self.p.accesses]
        seen = {(tuple(test.get_id() for test in guard), at.get_id(), size.get_id()): (guard, at, size) for guard, at, size in reached + self.p.blocks}
        return list(seen.values())

    # ---- one goal

    def prove(self, guard, what, goal):
        goal = simple(goal)
        if z3.is_true(goal) or self.is_fact(guard, goal):
            self.by_form += 1
            return
        key = tuple(test.get_id() for test in guard), goal.get_id()
        if key in self.done:
            self.by_form += 1
            return
        self.by_solver += 1
        said = self.decide(guard, goal)
        if said != 'unsat':
            raise Refused(f'{what}: {"differs" if said == "sat" else "not decided"}')
        self.done[key] = guard, goal                                # kept, so that no other term gets the same number

    def is_fact(self, guard, goal):
        tests = {test.get_id() for test in guard}
        return any(all(test.get_id() in tests for test in needed) for needed in self.fact_guards.get(goal.get_id(), []))

    def decide(self, guard, goal):
        """First without the program's facts, then with them; products and quotients are taken apart only at last."""
        question = [*guard, z3.Not(goal)]
        if self.facts is None:
            self.facts = [z3.Implies(conjunction(needed), test) for needed, test in self.p.facts]
        for assertions in ([abstracted(a) for a in question], [abstracted(a) for a in question + self.facts]):
            if self.solver.contradict(assertions) == 'unsat':
                return 'unsat'
        return self.solver.contradict(question + self.facts)

    # ---- two states

    def same_guard(self, what, a, b):
        if len(a) == len(b) and all(x.eq(y) for x, y in zip(a, b)):
            self.by_form += 1
        else:
            self.prove((), f'{what}: reached under other tests', conjunction(a) == conjunction(b))

    def same_value(self, guard, what, value, other, shape, written=False):
        """What the program has written, C has too, and it is equal. `written`: C has it in any case. Of an enum the fields of its variant count."""
        if not fits(value, shape) or not fits(other, shape):
            raise Refused(f'{what}: another shape')
        for (x, counts), (y, _) in zip(counting(value, shape), counting(other, shape)):
            if written:
                self.prove(guard, f'{what}: not written in C', y[1] if y else FALSE)
            if x is None:
                continue
            there = simple(z3.And(counts, x[1]))
            if y is None:
                self.prove(guard, f'{what}: not written in C', z3.Not(there))
            elif not z3.is_expr(x[0]) or x[0].sort() != y[0].sort():
                raise Refused(f'{what}: another width')
            else:
                self.prove(guard, what, z3.Implies(there, z3.And(y[1], x[0] == y[0])))

    def same_arrival(self, what, a, b):
        if (a is None) != (b is None):
            raise Refused(f'{what}: on one side only')
        if a is None:
            return False
        self.same_guard(what, a.guard, b.guard)
        self.prove(a.guard, f'{what}: memory', a.memory == b.memory)
        return True

    # ---- the whole

    def run(self):
        if len(self.p.heads) != len(self.c.heads):
            raise Refused(f'{len(self.p.heads)} loops, in C {len(self.c.heads)}')
        for n, (ours, theirs) in enumerate(zip(self.p.heads, self.c.heads)):
            self.same_head(n, ours, theirs)
        ours, theirs = merge(self.p.returns), merge(self.c.returns)
        shape = self.p.program.shape(self.p.result)
        if self.same_arrival('return', ours, theirs) and not same_shape(shape, []):
            if self.p.f.in_memory(0):
                raise Refused('the result is in memory')
            self.same_value(ours.guard, 'result', ours.locals.get(0), theirs.locals.get('return'), shape)
        self.answered_for()
        self.not_empty(ours)

    def not_empty(self, end):
        """The program's facts leave a run to its end, as far as a second tells: from facts that contradict each other all would follow."""
        facts = [z3.Implies(conjunction(needed), test) for needed, test in self.p.facts]
        if end is not None and self.solver.contradict([abstracted(a) for a in [*end.guard, *facts]], 1) == 'unsat':
            raise Refused('the facts of the program contradict each other')

    def same_head(self, n, ours, theirs):
        if ours.memory != theirs.memory:
            refused = Refused(f'loop {n}: memory is written on one side only')
            refused.loop = n
            raise refused
        for when in ('entry', 'back'):
            a, b = getattr(ours, when), getattr(theirs, when)
            if not self.same_arrival(f'loop {n}, {when}', a, b):
                continue
            for variable in sorted(theirs.changed):
                local = self.c.locals_of[variable]
                shape = self.p.program.shape(self.p.f.types[local])
                try:
                    self.same_value(a.guard, f'loop {n}, {when}: {variable}', a.locals.get(local), b.locals.get(variable), shape, written=True)
                except Refused as refused:
                    refused.variable = n, variable
                    raise

    def answered_for(self):
        for guard, what, test in self.c.duties:
            self.prove(guard, what, test)
        accesses = [(guard, (kind, width), [pointer]) for guard, kind, width, pointer in self.p.accesses]
        self.within('access', accesses, [(guard, (kind, width), [pointer]) for guard, kind, width, pointer in self.c.accesses])
        calls = [(guard, (name, len(leaves)), leaves + [memory]) for guard, name, leaves, memory in self.p.calls]
        self.within('call', calls, [(guard, (name, len(leaves)), leaves + [memory]) for guard, name, leaves, memory in self.c.calls])
        for guard, pointer in self.c.formed:
            self.in_block(guard, pointer)

    def within(self, what, ours, theirs):
        """Each of C's is one of the program's."""
        index = {}
        for guard, key, terms in ours:
            index.setdefault((key, tuple(term.get_id() for term in terms)), []).append(guard)
        for guard, key, terms in theirs:
            tests = {test.get_id() for test in guard}
            same = index.get((key, tuple(term.get_id() for term in terms)), [])
            if any(all(test.get_id() in tests for test in needed) for needed in same):
                self.by_form += 1
                continue
            alike = [conjunction(needed) for needed in same] or [
                z3.And(*needed, *[x == y for x, y in zip(our, terms)]) for needed, other, our in ours
                if other == key and all(x.sort() == y.sort() for x, y in zip(our, terms))]
            self.prove(guard, f'{what} {key[0]} {key[1]} that the program has not', z3.Or(*alike) if alike else FALSE)

    def in_block(self, guard, pointer):
        """C computes no pointer but into a block of the program or just behind it: where the program reaches memory, or in a slice."""
        tests = {test.get_id() for test in guard}
        same = [needed for needed, at, _ in self.blocks if at.eq(pointer)]
        if any(all(test.get_id() in tests for test in needed) for needed in same):
            self.by_form += 1
            return
        inside = [conjunction(needed) for needed in same] or [z3.And(*needed, z3.ULE(pointer - at, size)) for needed, at, size in self.blocks]
        self.prove(guard, 'a pointer out of its block', z3.Or(*inside) if inside else FALSE)
