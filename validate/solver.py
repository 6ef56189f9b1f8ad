"""Asks a solver whether assertions contradict each other: z3 in this process, or cvc5 by SMT-LIB. 'unknown' counts as no."""
import os
import subprocess
import tempfile
import time

import z3

from terms import function

SECONDS = 240       # for one question, by the clock: the machine may be busy


class Solver:
    def __init__(self, name='z3'):
        self.name, self.asked, self.seconds = name, 0, 0.0

    def contradict(self, assertions, seconds=SECONDS):
        """'unsat', 'sat' or 'unknown'."""
        start, self.asked = time.time(), self.asked + 1
        solver = z3.SolverFor('QF_UFBV')
        solver.set('timeout', 1000 * seconds)
        solver.add(*assertions)
        said = str(solver.check()) if self.name == 'z3' else self.by_text(solver, seconds)
        self.seconds += time.time() - start
        return said

    def by_text(self, solver, seconds):
        """cvc5's answer to the same question in SMT-LIB. Names are numbered anew: SMT-LIB has no quotes inside quotes."""
        text = '(set-logic QF_UFBV)\n' + solver.to_smt2().replace('(set-info :status unknown)', '')
        with tempfile.NamedTemporaryFile('w', suffix='.smt2', delete=False) as handle:
            handle.write(text)
        try:
            run = subprocess.run(['cvc5', '--lang=smt2', f'--tlimit={1000 * seconds}', handle.name], capture_output=True, text=True)
        finally:
            os.unlink(handle.name)
        said = run.stdout.strip().split('\n')[0]
        if said not in ('sat', 'unsat', 'unknown') and 'timeout' not in run.stdout + run.stderr:
            raise SystemExit(f'validate: cvc5: {(run.stderr or run.stdout)[:300]}')
        return said if said in ('sat', 'unsat') else 'unknown'


# ---- products and quotients as functions that are not interpreted: what holds of all such functions holds of these

ABSTRACT = {}


def power_of_two(term):
    return z3.is_bv_value(term) and term.as_long() & (term.as_long() - 1) == 0


def abstracted(term):
    """The term with products of unknowns, and quotients and remainders by no power of two, replaced."""
    key = term.get_id()
    if key not in ABSTRACT:
        ABSTRACT[key] = term, abstracted_anew(term)
    return ABSTRACT[key][1]


def abstracted_anew(term):
    parts = [abstracted(part) for part in term.children()]
    if not parts:
        return term
    kind = term.decl().kind()
    if kind == z3.Z3_OP_BMUL and sum(not z3.is_bv_value(part) for part in parts) > 1:
        return product(parts)
    if kind in (z3.Z3_OP_BUDIV, z3.Z3_OP_BUDIV_I) and not power_of_two(parts[1]):
        return uninterpreted('quotient', parts)
    if kind in (z3.Z3_OP_BUREM, z3.Z3_OP_BUREM_I) and not power_of_two(parts[1]):
        return uninterpreted('remainder', parts)
    return term if all(a.eq(b) for a, b in zip(parts, term.children())) else rebuilt(term, parts)


def uninterpreted(name, parts):
    sorts = [part.sort() for part in parts]
    return function(name, *sorts, sorts[0])(*parts)


def product(parts):
    """Of the lesser and the greater factor, so that their order does not matter."""
    out = parts[0]
    for part in parts[1:]:
        swapped = z3.ULT(part, out)
        out = uninterpreted('product', [z3.If(swapped, part, out), z3.If(swapped, out, part)])
    return out


def rebuilt(term, parts):
    if z3.is_and(term):
        return z3.And(*parts)
    if z3.is_or(term):
        return z3.Or(*parts)
    return z3.substitute(term, *[pair for pair in zip(term.children(), parts) if not pair[0].eq(pair[1])])
