"""Wrong edits of dist/ that compile and look as if they meant the same: each leaves to a reader of C, or to one compiler, what another takes
in another way. (file, text, wrong text, what it does.) The validator must refuse each."""

HOURS, GAUGES, INFLOW = 'dist/kagutin_hours.c', 'dist/kagutin_gauges.c', 'dist/kagutin_inflow.c'
TURN = 'static inline uint64_t base_codec__numbers__each_byte(struct slice_u8 s, uint64_t at, uint64_t k)\n{\n'
# Parts of unit_hours__kagutin_pump_hours: up to the array's first use, and its uses.
CALLED = '''    struct call_ask__Reply t8;
    struct unit_hours_book__Pump t9;

    if (7u < pump) {
        return (struct unit_hours__Hours){.code = 14u, .starts = 0u, .seconds = 0u};
    }
'''
LENT = '''    t8 = kagutin__kagutin_fetch(log, area, state, newest, {}, writer, 16u + pump);
    if (t8.code != 0u) {{
        return (struct unit_hours__Hours){{.code = t8.code, .starts = 0u, .seconds = 0u}};
    }}
    t9 = unit_hours_book__read((struct slice_u8){{{}, 64u}});
'''

TRICKS = [
    # types
    (HOURS, '    uint64_t last;\n', '    uint64_t last : 32;\n', 'a member of fewer bits'),
    (HOURS, 'uint8_t at[64];', 'uint8_t at[064];', 'an octal length: 52 bytes'),
    (HOURS, 'const uint8_t *ptr;', 'const uint8_t *restrict ptr;', 'a promise that nothing overlaps'),
    (HOURS, 'struct unit_hours_book__Due t9;', 'struct unit_hours_book__Due {\n        uint8_t services, left;\n    } t9;', 'a narrow struct of the same name'),
    (HOURS, 'struct slice_u8 {\n    const uint8_t *ptr;\n    size_t len;', 'struct slice_u8 {\n    const uint8_t *ptr;\n    uint16_t len;', 'short lengths'),
    (HOURS, 'figure < UINT64_C(0x100000000)', 'figure <= ~0ul', 'a mask as wide as a long: all figures pass where it has 64 bits'),
    (HOURS, '.code = 0u, .due = t9.services, .left = t9.left', '.left = t9.left, t9.services', 'a member that follows the last one: dropped'),
    # what a block or a pointer lives for
    (HOURS, '    struct array_u8_64 t7;\n' + CALLED + '    memset(&t7, 0u, sizeof t7);\n' + LENT.format('(struct slice_mut_u8){t7.at, 64u}', 't7.at'),
     '    struct slice_mut_u8 lent;\n' + CALLED + '''    {
        struct array_u8_64 t7;

        memset(&t7, 0u, sizeof t7);
        lent = (struct slice_mut_u8){t7.at, 64u};
    }
''' + LENT.format('lent', 'lent.ptr'), 'an array that is gone when it is used'),
    (HOURS, '    struct array_u8_64 t7;\n', '    static struct array_u8_64 t7;\n', 'memory shared by all callers'),
    (HOURS, 's.ptr[(size_t)t5];', '*(s.ptr + (size_t)t5 + 1u - 1u);', 'a pointer behind the block on the way'),
    # attributes and pragmas
    (HOURS, TURN, TURN.replace('static inline', 'static inline __attribute__((const))'), 'the compiler may read memory once for all calls'),
    (HOURS, 'struct unit_hours__Hours {', '#pragma pack(1)\nstruct unit_hours__Hours {', 'another layout'),
    (INFLOW, 'struct kagutin_inflow_bounds kagutin_inflow(', '__attribute__((weak)) struct kagutin_inflow_bounds kagutin_inflow(', 'another file may replace it'),
    (INFLOW, 'static inline int64_t to_signed', 'inline int64_t to_signed', 'another file may replace it'),
    # what the preprocessor does for one compiler
    (HOURS, '        t6 = t6 + 1u;\n', '        // once a turn??/\n        t5 = t5 + 1u;\n        t6 = t6 + 1u;\n', 'a statement where trigraphs are not read'),
    (HOURS, '        t6 = t6 + 1u;\n', '#ifdef __clang__\n        t5 = t5 + 1u;\n#endif\n        t6 = t6 + 1u;\n', 'a statement for clang alone'),
    (HOURS, '        t6 = t6 + 1u;\n', '#ifdef NDEBUG\n        t5 = t5 + 1u;\n#endif\n        t6 = t6 + 1u;\n', 'a statement in releases'),
    (HOURS, '        t6 = t6 + 1u;\n', '#if __GNUC__ == 9\n        t5 = t5 + 1u;\n#endif\n        t6 = t6 + 1u;\n', 'a statement for one release of gcc'),
    (HOURS, 't6 = t6 + 1u;', 't6 = t6 + 1u + (__GNUC__ == 9);', 'a number of the compiler'),
    (HOURS, '        t6 = t6 + 1u;\n', '#if SIZE_MAX == 0xffff\n        t5 = t5 + 1u;\n#endif\n        t6 = t6 + 1u;\n', 'a machine that is not among the targets'),
    (GAUGES, 'defined(__BYTE_ORDER__) && defined(__ORDER_LITTLE_ENDIAN__) && ', '', 'whole words where no compiler tells the byte order'),
    (GAUGES, '#include "kagutin_gauges.h"', '#define agreeing differing\n#define differing agreeing\n#include "kagutin_gauges.h"\n#undef agreeing\n#undef differing',
     'another order of members than callers see'),
    # functions that nobody looks at
    (GAUGES, '/* Whether the minutes of whole rows', '#line 1 "kagutin_gauges.h"\nvoid *memset(void *to, int byte, size_t size)\n{\n    return to;\n}\n'
     '#line 1 "kagutin_gauges.c"\n/* Whether the minutes of whole rows', 'a function that passes for one of a header'),
    (GAUGES, '/* Whether the minutes of whole rows', 'static uint64_t spare(uint64_t x)\n{\n    return x;\n}\n\n/* Whether the minutes of whole rows', 'left over'),
    (HOURS, '    return t4;\n}\n\n/* The number that the `k`', '    return t4;\n    abort_all();\n}\n\n/* The number that the `k`', 'a call of nothing behind a return'),
    # arithmetic
    (INFLOW, '(high_before < low_before)', '((int16_t)high_before < (int16_t)low_before)', 'a conversion that C leaves to the compiler'),
    (INFLOW, '(area < 1u)', '(!((area < 5u ? (uint64_t)(area < 1u) : (uint64_t)(area < 1u)) - 1 < 0))', 'a test kept as 64 bits, less one: never below 0'),
    (INFLOW, '(area < 1u)', '(!(((uint64_t)(area < 1u) & (uint64_t)(area < 1u)) - 1 < 0))', 'the same of two tests at once'),
    (INFLOW, '-(int64_t)~x - 1', '-(int64_t)(~x + 1u)', 'overflow at the least number'),
]

# Wrong edits of the file that has all others in it: (text, wrong text, whether in its header, what it does), the first behind the part of HOURS.
JOINED = [
    ('t6 < k', 't6 <= k', False, 'an operator'),
    ('.starts = t9.starts', '.starts = t9.total', False, 'a member'),
    ('uint64_t k)', 'uint64_t k_)', False, 'a parameter that is read as another'),
    ('#include <string.h>', '#include <string.h>\n#define starts total', False, 'a macro'),
    ('#define KAGUTIN_PUMPS 8', '#define KAGUTIN_PUMPS 8\n#define starts total', True, 'a macro of another part'),
    ('uint64_t figure;', 'uint32_t figure;', True, 'a member of a header'),
]
