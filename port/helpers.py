"""The C helpers. Each is written only where the program needs it, and has a form that any C99 compiler takes."""

QUICK = '''#if defined(__GNUC__) && !defined(KAGUTIN_PLAIN_C)
#define QUICK_C 1
#else
#define QUICK_C 0
#endif
'''

# memcpy moves the bytes whatever the pointer's alignment, and compilers make one access of it where the machine allows one. Elsewhere,
# and where the byte order is not known to be little-endian, the number is put together byte by byte; both read and write the same
# bytes.
ORDER = '''#if QUICK_C && defined(__BYTE_ORDER__) && defined(__ORDER_LITTLE_ENDIAN__) && __BYTE_ORDER__ == __ORDER_LITTLE_ENDIAN__ \\
    && (defined(__x86_64__) || defined(__i386__) || defined(__ARM_FEATURE_UNALIGNED))
#define WHOLE_WORDS 1
#else
#define WHOLE_WORDS 0
#endif
'''

# Says nothing about what the loop does.
UNROLL = '''#if QUICK_C && !defined(__clang__) && !defined(__OPTIMIZE_SIZE__) && __GNUC__ >= 8
#define UNROLL _Pragma("GCC unroll 4")
#else
#define UNROLL
#endif
'''

# Keeps large tables out of their callers' frames, so that a call has on the stack only those that it uses.
APART = '''#if QUICK_C
#define APART __attribute__((noinline))
#else
#define APART
#endif
'''

# Asked before anything is read. An address is compared as a number: pointers into different memory may not be.
ASK_BUFFERS = '''/* With -DKAGUTIN_CHECK_BUFFERS every call answers 63 (KAGUTIN_BAD_BUFFERS), with zeros in all other fields, if a lent pointer is null or
   two lent buffers share a byte. Without it nothing is asked. */
#ifdef KAGUTIN_CHECK_BUFFERS
struct lent {
    const void *ptr;
    size_t size;
};

static bool are_apart(const struct lent *lent, size_t count)
{
    size_t i, j;

    for (i = 0; i < count; i++) {
        uintptr_t a = (uintptr_t)lent[i].ptr;

        if (lent[i].ptr == NULL || lent[i].size > UINTPTR_MAX - a)
            return false;
        for (j = 0; j < i; j++) {
            uintptr_t b = (uintptr_t)lent[j].ptr;

            if (lent[i].size != 0 && lent[j].size != 0 && a < b + lent[j].size && b < a + lent[i].size)
                return false;
        }
    }
    return true;
}

#define ASK_BUFFERS(result, answer, ...) \\
    do { \\
        const struct lent all_lent[] = {__VA_ARGS__}; \\
        if (!are_apart(all_lent, sizeof all_lent / sizeof all_lent[0])) \\
            return (struct result){.answer = 63u}; \\
    } while (0);
#else
#define ASK_BUFFERS(result, answer, ...)
#endif
'''

# A number of 64 bits that goes out as a size_t would lose its high bits on other machines.
WIDE_SIZE = '''#if SIZE_MAX < UINT64_MAX
#error "this program hands numbers of 64 bits over as size_t"
#endif
'''

LOAD = '''/* The number that {size} bytes make, lowest byte first. */
static inline uint64_t load_{size}(const uint8_t *p)
{{
#if WHOLE_WORDS
    uint{bits}_t x;

    memcpy(&x, p, {size});
    return x;
#else
    return {parts};
#endif
}}
'''

STORE = '''/* Writes the low {size} bytes of a number, lowest byte first. */
static inline void store_{size}(uint8_t *p, uint64_t v)
{{
#if WHOLE_WORDS
    uint{bits}_t x = (uint{bits}_t)v;

    memcpy(p, &x, {size});
#else
{parts}
#endif
}}
'''

# The sums of bits side by side: of two, of four, of eight, then all eight added up in the highest byte.
COUNT_ONES = '''/* How many bits are set. */
static inline uint32_t count_ones(uint64_t x)
{
    if (x == 0u)
        return 0u;
    x = x - (x >> 1 & UINT64_C(0x5555555555555555));
    x = (x & UINT64_C(0x3333333333333333)) + (x >> 2 & UINT64_C(0x3333333333333333));
    x = (x + (x >> 4)) & UINT64_C(0x0f0f0f0f0f0f0f0f);
    return (uint32_t)(x * UINT64_C(0x0101010101010101) >> 56);
}
'''

# The builtin is not defined at 0. Otherwise the ones below the lowest one are counted, which are all 64 for 0.
TRAILING_ZEROS = '''/* How many bits below the lowest one that is set; 64 of zero. */
static inline uint32_t trailing_zeros(uint64_t x)
{
#if QUICK_C
    return x == 0u ? 64u : (uint32_t)__builtin_ctzll(x);
#else
    return count_ones(~x & (x - 1u));
#endif
}
'''

LEADING_ZEROS = '''/* How many bits above the highest one that is set; 64 of zero. */
static inline uint32_t leading_zeros(uint64_t x)
{
    x |= x >> 1;
    x |= x >> 2;
    x |= x >> 4;
    x |= x >> 8;
    x |= x >> 16;
    x |= x >> 32;
    return 64u - count_ones(x);
}
'''

# Signed numbers as their bits: the sign is taken off, and put on again. `0u - x` wraps round, which is the negative.
SIGNED = {
    'divide_signed': '''/* The quotient of two signed numbers, towards zero. */
static inline uint64_t divide_signed(uint64_t a, uint64_t b)
{
    uint64_t q = (a >> 63 ? 0u - a : a) / (b >> 63 ? 0u - b : b);

    return (a ^ b) >> 63 ? 0u - q : q;
}
''',
    'remainder_signed': '''/* The remainder of two signed numbers; it has the sign of the first. */
static inline uint64_t remainder_signed(uint64_t a, uint64_t b)
{
    uint64_t r = (a >> 63 ? 0u - a : a) % (b >> 63 ? 0u - b : b);

    return a >> 63 ? 0u - r : r;
}
''',
    'shift_signed': '''/* A signed number shifted right, the sign bit repeated. */
static inline uint64_t shift_signed(uint64_t a, uint64_t n)
{
    return a >> 63 ? ~(~a >> (n & 63u)) : a >> (n & 63u);
}
''',
    'to_signed': '''/* The signed number of these bits. */
static inline int64_t to_signed(uint64_t x)
{
    return x >> 63 ? -(int64_t)~x - 1 : (int64_t)x;
}
''',
}

COUNTS = {'count_ones': COUNT_ONES, 'trailing_zeros': TRAILING_ZEROS, 'leading_zeros': LEADING_ZEROS}


def load(size):
    parts = ' | '.join(f'(uint64_t)p[{i}] << {8 * i}' if i else 'p[0]' for i in range(size))
    parts = parts.replace(' | (uint64_t)p[4]', '\n        | (uint64_t)p[4]')
    return LOAD.format(size=size, bits=8 * size, parts=parts)


def store(size):
    parts = '\n'.join(f'    p[{i}] = (uint8_t)(v >> {8 * i});' if i else '    p[0] = (uint8_t)v;' for i in range(size))
    return STORE.format(size=size, bits=8 * size, parts=parts)


def texts(used):
    """The helpers of these names, after those that they use."""
    if used & {'trailing_zeros', 'leading_zeros'}:
        used = used | {'count_ones'}
    words = [(word, size) for word in ('load', 'store') for size in (2, 4, 8) if f'{word}_{size}' in used]
    out = [WIDE_SIZE] if 'WIDE_SIZE' in used else []
    out += [QUICK] if words or used & {'UNROLL', 'APART', 'trailing_zeros'} else []
    out += [ORDER] if words else []
    out += [UNROLL] if 'UNROLL' in used else []
    out += [APART] if 'APART' in used else []
    out += [ASK_BUFFERS] if 'ASK_BUFFERS' in used else []
    out += [{'load': load, 'store': store}[word](size) for word, size in words]
    return '\n'.join(out + [text for name, text in {**COUNTS, **SIGNED}.items() if name in used])
