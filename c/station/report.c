#include "report.h"

#include <string.h>
#include <unistd.h>

enum { BAR = 64 };

static unsigned long sum(const unsigned long counts[KAGUTIN_WRITERS])
{
    unsigned long total = 0;
    int i;

    for (i = 0; i < KAGUTIN_WRITERS; i++)
        total += counts[i];
    return total;
}

static const char *plural(unsigned long count)
{
    return count == 1 ? "" : "s";
}

void report_start(struct station *station)
{
    station->progress = !station->verbose && isatty(fileno(station->report));
    fprintf(station->report, "station: seed %llu, %lu cut%s, %lu groups, %lu homes, %s\n", (unsigned long long)station->seed,
            station->cuts, plural(station->cuts), (unsigned long)station->driver.groups, (unsigned long)station->driver.homes,
            station->path ? station->path : "in memory");
    if (station->verbose)
        fputs("\n cut  power failed  unissued    arrived  commits  kept  confirmed  replayed\n", station->report);
    fflush(station->report);
}

static void progress(struct station *station)
{
    if (!station->progress)
        return;
    fprintf(station->report, "\rcut %lu of %lu, %lu commits kept, %lu lost, %lu never issued\033[K", station->counters.cuts,
            station->cuts, sum(station->counters.kept), sum(station->counters.lost), sum(station->counters.unissued));
    fflush(station->report);
}

void report_cut(struct station *station, const struct report_cut *cut)
{
    if (station->verbose)
        fprintf(station->report, "%4lu  %-12s  %8lu  %4lu/%4lu  %7lu  %4lu  %9lu", station->counters.cuts,
                cut->opening ? "opening" : "at work", (unsigned long)cut->waiting, (unsigned long)cut->persisted,
                (unsigned long)cut->issued, (unsigned long)cut->book.commits, (unsigned long)cut->book.run,
                (unsigned long)cut->book.confirmed);
}

void report_opened(struct station *station, const struct report_cut *cut, unsigned long replayed)
{
    struct counters *counters = &station->counters;
    int i;

    for (i = 0; i < KAGUTIN_WRITERS; i++) {
        counters->kept[i] += (unsigned long)cut->book.kept[i];
        counters->lost[i] += (unsigned long)cut->book.lost[i];
        counters->unissued[i] += (unsigned long)cut->book.unissued[i];
    }
    if (station->verbose)
        fprintf(station->report, "  %8lu\n", replayed);
    else if (counters->cuts % 16 == 0)
        progress(station);
}

void report_left(struct station *station, const struct report_cut *cut)
{
    station->counters.left = (unsigned long)cut->book.run;
    if (station->verbose)
        fputs("  not opened\n", station->report);
}

void report_full(struct station *station, const char *call, unsigned writer)
{
    const struct kagutin_places *usage = &station->usage;
    struct counters *counters = &station->counters;

    counters->full_live += (unsigned long)usage->live;
    counters->full_dead += (unsigned long)usage->dead;
    if (usage->holder < KAGUTIN_WRITERS)
        counters->holds[usage->holder]++;
    if (!station->verbose && counters->full > 1)
        return;
    fprintf(station->report, "%slog full (%s, task %u): %lu live, %lu dead, %lu free", station->progress ? "\r\033[K" : "", call,
            writer, (unsigned long)usage->live, (unsigned long)usage->dead, (unsigned long)usage->free);
    if (usage->holder < KAGUTIN_WRITERS)
        fprintf(station->report, "; task %lu holds it from %llu on", (unsigned long)usage->holder,
                (unsigned long long)usage->first);
    fputc('\n', station->report);
}

/* ---- summary ---- */

/* A part of the whole in columns of the bar; something is never nothing. */
static int columns(unsigned long part, unsigned long whole)
{
    return part ? (int)(1 + part * (BAR - 3) / whole) : 0;
}

static void print_bar(FILE *report, unsigned long kept, unsigned long lost, unsigned long unissued)
{
    unsigned long whole = kept + lost + unissued;
    int i;

    if (!whole)
        return;
    fputs("  [", report);
    for (i = 0; i < columns(kept, whole); i++)
        fputc('#', report);
    for (i = 0; i < columns(lost, whole); i++)
        fputc('-', report);
    for (i = 0; i < columns(unissued, whole); i++)
        fputc('.', report);
    fputs("]\n", report);
}

static void print_commits(const struct station *station)
{
    const struct counters *counters = &station->counters;
    unsigned long kept = sum(counters->kept), lost = sum(counters->lost), unissued = sum(counters->unissued);
    FILE *report = station->report;

    fputs("\nCommits before the cuts\n", report);
    print_bar(report, kept, lost, unissued);
    fprintf(report, "  # %8lu kept          came back at the opening after the cut\n", kept);
    fprintf(report, "  - %8lu lost          on the way to lasting memory; it, or one before it, did not arrive whole\n", lost);
    fprintf(report, "  . %8lu never issued  the driver had not begun to write all of it\n", unissued);
    if (!station->opened)
        fprintf(report, "    %8lu in the image  it %s\n", counters->left,
                station->worn_out ? "cannot be opened any more; the inspector shows what they wrote"
                                  : "was not opened after its last cut; an opening brings them back");
    if (station->book.commit_count)
        fprintf(report, "    %8lu made          since the last cut\n", (unsigned long)station->book.commit_count);
}

static void print_calls(const struct station *station)
{
    const struct counters *counters = &station->counters;
    FILE *report = station->report;

    fputs("\nCalls\n", report);
    fprintf(report, "  %10lu done, %lu reads, %lu confirms and %lu trims among them\n", counters->calls, counters->reads,
            counters->confirms, counters->trims);
    fprintf(report, "  %10lu starts and stops of pumps, %lu alarms raised or cleared, each a transaction\n",
            counters->pump_events, counters->alarm_events);
    fprintf(report, "  %10lu rounds of settling begun, in %lu steps between pump switchings\n", counters->rounds,
            counters->steps);
    fprintf(report, "  %10lu refused as they must be, with no lent byte changed; %lu because the log was full\n",
            counters->refusals, counters->full);
    fprintf(report, "  %10lu stores and %lu reads of a home that the list of rights does not give: refused\n",
            counters->store_denied, counters->read_denied);
    fprintf(report, "  %10lu transactions aborted, %lu of them since the log stayed full\n", counters->aborts,
            counters->given_up);
}

/* Why the log was full, and what fills it now. */
static void print_log(const struct station *station)
{
    const struct counters *counters = &station->counters;
    const struct kagutin_places *usage = &station->usage;
    unsigned long most = 0, task;

    for (task = 1; task < KAGUTIN_WRITERS; task++)
        if (counters->holds[task] > counters->holds[most])
            most = task;
    fprintf(station->report, "\nLog of %lu places\n", (unsigned long)(KAGUTIN_GROUP_ENTRIES * station->driver.groups));
    if (counters->full)
        fprintf(station->report, "  %10lu times full, with %lu live and %lu dead on average\n", counters->full,
                counters->full_live / counters->full, counters->full_dead / counters->full);
    if (counters->holds[most])
        fprintf(station->report, "  %10lu of them held back by task %lu, which did so most often\n", counters->holds[most], most);
    fprintf(station->report, "  %10lu times the radio task had its places promised, %lu times it waited for them\n",
            counters->reserves, counters->waits);
    if (station->opened)
        fprintf(station->report, "  %10lu live at the end, %lu dead, %lu free\n", (unsigned long)usage->live,
                (unsigned long)usage->dead, (unsigned long)usage->free);
}

static void print_legend(FILE *report)
{
    fputs("\nWords\n"
          "  confirm    tells up to which commit all is durable\n"
          "  settling   writes committed blocks home; in a round, a few homes each step\n"
          "  trim       frees the places before the oldest entry that is open or not yet written home\n"
          "  live       places with entries of open transactions, or of commits that are not trimmed\n"
          "  dead       places with aborted entries, or passed over by a flush, that are not trimmed\n"
          "  held back  by the oldest open transaction: no trim frees its first entry or a later one\n"
          "  promised   places that one transaction alone can take, so that a full log cannot stop it\n",
          report);
}

static void print_verbose_legend(FILE *report)
{
    fputs("\n  unissued   records that the driver had not begun to write when power failed\n"
          "  arrived    blocks written since the last fence that are in lasting memory, of those begun\n"
          "  commits    since the cut before; kept: the run that persisted\n"
          "  confirmed  declared durable before the cut; always among the kept\n"
          "  replayed   transactions that the opening found in the log\n",
          report);
}

void report_summary(struct station *station)
{
    const struct counters *counters = &station->counters;

    if (station->progress)
        fputs("\r\033[K", station->report);
    if (station->worn_out)
        fputs("\nThe image is worn out: its log's start can move no further than 2^47. Make a new one;\n"
              "the inspector still shows each home's value.\n",
              station->report);
    if (station->worn_out && !counters->calls)
        return;
    if (station->verbose)
        print_verbose_legend(station->report);
    fprintf(station->report, "\n%lu power cut%s, %lu while opening: every opening gave exactly the commits kept.\n",
            counters->cuts, plural(counters->cuts), counters->opening_cuts);
    fputs("Each block of 64 bytes arrived or not by itself, so that groups were left torn.\n", station->report);
    if (station_interrupted())
        fprintf(station->report, "Interrupted, %lu cut%s asked for.\n", station->cuts, station->cuts == 1 ? " was" : "s were");
    print_commits(station);
    print_calls(station);
    print_log(station);
    print_legend(station->report);
}
