#include "levels_plot.h"

#include <stdlib.h>

enum { WIDTH = 960, HEIGHT = 460, LEFT = 70, RIGHT = 20, TOP = 60, BOTTOM = 90 };

static const char *const first_colour = "#1f5fa8", *const second_colour = "#b85c00", *const differing_colour = "#d22";

struct scale {
    unsigned from, to; /* values at the two ends */
    double start, end; /* pixels there */
};

static double place(const struct scale *scale, unsigned value)
{
    return scale->start + (scale->end - scale->start) * ((double)value - scale->from) / ((double)scale->to - scale->from);
}

/* Steps of the clock that make at most nine marks. */
static unsigned clock_step(unsigned range)
{
    static const unsigned steps[] = {1, 2, 5, 10, 15, 30, 60, 120, 180};
    size_t i = 0;

    while (i + 1 < sizeof steps / sizeof *steps && range / steps[i] > 8)
        i++;
    return steps[i];
}

/* A step of 1, 2 or 5 times a power of ten that makes at most eight marks. */
static unsigned step_of(unsigned range)
{
    static const unsigned factors[] = {2, 5, 10};
    unsigned step = 1, power = 1, i = 0;

    while (range / step > 8) {
        step = factors[i % 3] * power;
        if (++i % 3 == 0)
            power *= 10;
    }
    return step;
}

/* Widens the scale to the marks around it, so many apart. */
static void round_out(struct scale *scale, unsigned step)
{
    scale->from -= scale->from % step;
    scale->to += (step - scale->to % step) % step;
    if (scale->from == scale->to)
        scale->to += step;
}

static void widen(struct scale *scale, const uint16_t *values, size_t count)
{
    size_t i;

    for (i = 0; i < count; i++) {
        if (values[i] < scale->from)
            scale->from = values[i];
        if (values[i] > scale->to)
            scale->to = values[i];
    }
}

static struct scale scale_of(const uint16_t *first, size_t firsts, const uint16_t *second, size_t seconds, double start,
                             double end)
{
    struct scale scale = {UINT16_MAX, 0, start, end};

    widen(&scale, first, firsts);
    widen(&scale, second, seconds);
    if (scale.from > scale.to)
        scale.from = scale.to = 0;
    return scale;
}

/* File names stand in the text as they are, but for the marks of XML and bytes that are no text. */
static void put_text(const char *text, FILE *file)
{
    for (; *text; text++) {
        if (*text == '<')
            fputs("&lt;", file);
        else if (*text == '>')
            fputs("&gt;", file);
        else if (*text == '&')
            fputs("&amp;", file);
        else
            fputc((unsigned char)*text < 0x20 || (unsigned char)*text > 0x7e ? '?' : *text, file);
    }
}

static unsigned time_step(enum time_kind kind, const struct scale *minutes)
{
    return (kind == TIME_MINUTE ? step_of : clock_step)(minutes->to - minutes->from);
}

static void put_axes(enum time_kind kind, const struct scale *minutes, const struct scale *levels, FILE *file)
{
    unsigned step = time_step(kind, minutes), value;
    char time[TIME_TEXT];

    for (value = minutes->from; value <= minutes->to; value += step) {
        double x = place(minutes, value);

        time_write(kind, value, time);
        fprintf(file, "<line x1='%.1f' y1='%d' x2='%.1f' y2='%d' stroke='#e3e3e3'/>\n", x, TOP, x, HEIGHT - BOTTOM);
        fprintf(file, "<text x='%.1f' y='%d' text-anchor='middle'>%s</text>\n", x, HEIGHT - BOTTOM + 18, time);
    }
    step = step_of(levels->to - levels->from);
    for (value = levels->from; value <= levels->to; value += step) {
        double y = place(levels, value);

        fprintf(file, "<line x1='%d' y1='%.1f' x2='%d' y2='%.1f' stroke='#e3e3e3'/>\n", LEFT, y, WIDTH - RIGHT, y);
        fprintf(file, "<text x='%d' y='%.1f' text-anchor='end'>%u</text>\n", LEFT - 8, y + 4, value);
    }
    fprintf(file, "<text x='%d' y='%d' text-anchor='middle'>%s</text>\n", (LEFT + WIDTH - RIGHT) / 2, HEIGHT - BOTTOM + 38,
            kind == TIME_MINUTE ? "minute" : "time");
    fprintf(file, "<text x='18' y='%d' text-anchor='middle' transform='rotate(-90 18 %d)'>millimetres</text>\n",
            (TOP + HEIGHT - BOTTOM) / 2, (TOP + HEIGHT - BOTTOM) / 2);
}

/* Differing minutes as bars over the whole height, minutes of one list only as ticks below the axis. */
static void put_report(const struct levels_plot *plot, const struct scale *minutes, FILE *file)
{
    double width = (minutes->end - minutes->start) / ((double)minutes->to - minutes->from);
    size_t i;

    if (width < 1.5)
        width = 1.5;
    for (i = 0; i < plot->lines; i++) {
        const uint8_t *line = plot->report + i * KAGUTIN_LINE_SIZE;
        double x = place(minutes, line[0] | (unsigned)line[1] << 8);

        if (line[2] == KAGUTIN_DIFFERING)
            fprintf(file, "<rect class='differing' x='%.1f' y='%d' width='%.1f' height='%d' fill='%s' fill-opacity='0.25'/>\n",
                    x - width / 2, TOP, width, HEIGHT - BOTTOM - TOP, differing_colour);
        else if (line[2] != KAGUTIN_AGREEING)
            fprintf(file, "<line class='only' x1='%.1f' y1='%d' x2='%.1f' y2='%d' stroke='%s' stroke-width='1.5'/>\n", x,
                    HEIGHT - BOTTOM, x, HEIGHT - BOTTOM + 6, line[2] == KAGUTIN_ONLY_FIRST ? first_colour : second_colour);
    }
}

static int compare_steps(const void *one, const void *other)
{
    return *(const uint16_t *)one - *(const uint16_t *)other;
}

/* The step that half of a list's steps do not exceed. */
static unsigned usual_step(const struct readings *readings)
{
    uint16_t steps[KAGUTIN_MAX_READINGS];
    size_t i;

    for (i = 1; i < readings->count; i++)
        steps[i - 1] = (uint16_t)(readings->minute[i] - readings->minute[i - 1]);
    if (readings->count < 2)
        return 1;
    qsort(steps, readings->count - 1, sizeof *steps, compare_steps);
    return steps[(readings->count - 2) / 2];
}

/* A line for each stretch without a gap; readings that stand alone, and all of a short list, as points. */
static void put_levels(const struct readings *readings, const char *name, const char *colour, const struct scale *minutes,
                       const struct scale *levels, FILE *file)
{
    unsigned usual = usual_step(readings);
    size_t from, to, i;

    for (from = 0; from < readings->count; from = to) {
        for (to = from + 1; to < readings->count && (unsigned)(readings->minute[to] - readings->minute[to - 1]) <= usual; to++)
            ;
        fprintf(file, "<polyline class='%s' fill='none' stroke='%s' stroke-width='1.5' points='", name, colour);
        for (i = from; i < to; i++)
            fprintf(file, "%s%.1f,%.1f", i > from ? " " : "", place(minutes, readings->minute[i]),
                    place(levels, readings->level[i]));
        fputs("'/>\n", file);
        for (i = from; i < to && (readings->count <= 120 || to == from + 1); i++)
            fprintf(file, "<circle cx='%.1f' cy='%.1f' r='2.5' fill='%s'/>\n", place(minutes, readings->minute[i]),
                    place(levels, readings->level[i]), colour);
    }
}

static void put_legend(const struct levels_plot *plot, FILE *file)
{
    fprintf(file, "<text x='%d' y='24' font-size='16'>Levels%s%s, tolerance %u mm</text>\n", LEFT, *plot->day ? " of " : "",
            plot->day, plot->tolerance);
    fprintf(file, "<text x='%d' y='46' fill='%s'>first: ", LEFT, first_colour);
    put_text(plot->first->path, file);
    fprintf(file, "</text>\n<text x='%d' y='46' fill='%s'>second: ", (LEFT + WIDTH) / 2, second_colour);
    put_text(plot->second->path, file);
    fprintf(file,
            "</text>\n<text x='%d' y='%d'><tspan fill='%s'>bars: the lists differ</tspan>; ticks below the axis: "
            "<tspan fill='%s'>only first</tspan>, <tspan fill='%s'>only second</tspan></text>\n",
            LEFT, HEIGHT - 16, differing_colour, first_colour, second_colour);
}

void levels_plot_write(const struct levels_plot *plot, FILE *file)
{
    const struct readings *first = plot->first, *second = plot->second;
    struct scale minutes = scale_of(first->minute, first->count, second->minute, second->count, LEFT, WIDTH - RIGHT);
    struct scale levels = scale_of(first->level, first->count, second->level, second->count, HEIGHT - BOTTOM, TOP);

    round_out(&minutes, time_step(first->kind, &minutes));
    round_out(&levels, step_of(levels.to - levels.from));
    fprintf(file,
            LEVELS_PLOT_MARK
            " -->\n"
            "<svg xmlns='http://www.w3.org/2000/svg' width='%d' height='%d' viewBox='0 0 %d %d' font-family='sans-serif' "
            "font-size='12'>\n<title>Two lists of levels and the minutes at which they differ</title>\n"
            "<rect width='100%%' height='100%%' fill='white'/>\n",
            WIDTH, HEIGHT, WIDTH, HEIGHT);
    put_axes(first->kind, &minutes, &levels, file);
    put_report(plot, &minutes, file);
    put_levels(first, "first", first_colour, &minutes, &levels, file);
    put_levels(second, "second", second_colour, &minutes, &levels, file);
    put_legend(plot, file);
    fputs("</svg>\n", file);
}
