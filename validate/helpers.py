"""What the C file's helpers are taken for in its functions. helpers_check.py proves that their text does just this, in every form."""
import z3

from c_text import C_VOID, U32, U64, CInt
from c_values import Value
from terms import (count_ones, leading_zeros, number, read, signed_quotient, signed_remainder, simple, trailing_zeros,
                   widened, written)


class Helper:
    """`pure`: it writes no memory."""

    def __init__(self, pure, value):
        self.pure, self.value = pure, value


def load(size):
    """The number that so many bytes at a pointer make, lowest first."""
    def value(run, state, args):
        pointer, parts = args[0][0], []
        for i in range(size):
            run.access(state, 'read', 8, pointer + number(i))
            parts.insert(0, read(state.memory, pointer + number(i), 8))
        return Value(U64, widened(z3.Concat(*parts), 64, False))
    return Helper(True, value)


def store(size):
    """Writes so many low bytes of a number at a pointer, lowest first."""
    def value(run, state, args):
        pointer, x = args[0][0], args[1][0]
        for i in range(size):
            run.access(state, 'write', 8, pointer + number(i))
            state.memory = written(state.memory, pointer + number(i), simple(z3.Extract(8 * i + 7, 8 * i, x)))
        return Value(C_VOID, [])
    return Helper(False, value)


def count(of):
    return Helper(True, lambda run, state, args: Value(U32, of(args[0][0])))


def divide(of):
    def value(run, state, args):
        run.duty(state, 'a division by 0', args[1][0] != 0)
        return Value(U64, of(args[0][0], args[1][0]))
    return Helper(True, value)


def shift_signed(run, state, args):
    """Arithmetic shift by the low six bits of the count."""
    return Value(U64, args[0][0] >> (args[1][0] & number(63)))


def to_signed(run, state, args):
    """The signed number of the same bits."""
    return Value(CInt(64, True), args[0][0])


HELPERS = {**{f'load_{size}': load(size) for size in (2, 4, 8)}, **{f'store_{size}': store(size) for size in (2, 4, 8)},
           'count_ones': count(count_ones), 'trailing_zeros': count(trailing_zeros), 'leading_zeros': count(leading_zeros),
           'divide_signed': divide(signed_quotient), 'remainder_signed': divide(signed_remainder),
           'shift_signed': Helper(True, shift_signed), 'to_signed': Helper(True, to_signed)}
