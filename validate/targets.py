"""The machines that a C file is validated for: both of its preprocessor forms, each width and byte order."""
from c_text import Target

WIDTHS = ((32, 64), (32, 32), (16, 32))             # of int and size_t
ORDERS = ('little', 'big')
QUICK = ('__GNUC__=12',)
# A compiler that says the machine reads words at any address; whether words are read at once is then the file's own decision.
WHOLE_WORDS = {64: '__x86_64__', 32: '__ARM_FEATURE_UNALIGNED'}


def targets():
    for int_bits, size_bits in WIDTHS:
        for order in ORDERS:
            name = f'{int_bits}/{size_bits} {order}-endian'
            yield Target(f'{name}, quick', int_bits, size_bits, order, QUICK + (WHOLE_WORDS[size_bits],))
            if order == 'little':                       # the other machines have no whole words in any case
                yield Target(f'{name}, quick by bytes', int_bits, size_bits, order, QUICK)
            yield Target(f'{name}, plain', int_bits, size_bits, order, QUICK + ('KAGUTIN_PLAIN_C', WHOLE_WORDS[size_bits]))
