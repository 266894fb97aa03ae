/*
 * The desk's display: shows the reports of river files as tables with units, and the means. Of the archive it
 * calls reporting, the size of a reach in a report and the means, and nothing deeper.
 *
 *   display [--limit 5.0] FILE...   a table and a summary line for each; marks oxygen below the limit, in mg/L, and
 *                                   says where oxygen is used up, in the reach or above it
 *   display --lines FILE            the lines that the printing program prints
 *   display --means FILE            the lines that the program for means prints
 *   display --check FILE            calls the entries on this file and on thousands made from it, and checks
 *                                   from outside what they promise about their buffers
 *
 * Tables and lines: the exit status is 0 where all rivers are accepted, 1 where one is refused, 2 for bad use. A
 * river without volume has a table, without means; --means refuses it.
 * Check: 0 where all promises held, whether or not the river is accepted, 1 where one broke, 2 for bad use.
 */
#include <inttypes.h>
#include <string.h>

#include "desk.h"
#include "promises.h"

/* The desk's limit for oxygen, as it was given and in units. The text is null where none was given. */
struct limit {
    const char *text;
    int64_t units;
};

static int is_digit(char c)
{
    return c >= '0' && c <= '9';
}

/* Takes a limit in mg/L: one to three digits, perhaps a point and one to six more. Returns 0 for anything else. */
static int take_limit(const char *text, struct limit *limit)
{
    const char *at = text;
    int whole = 0, places = 0;
    limit->text = text;
    limit->units = 0;
    for (; is_digit(*at) && whole < 3; at++, whole++)
        limit->units = limit->units * 10 + (*at - '0');
    if (*at == '.' && is_digit(at[1]))
        for (at++; is_digit(*at) && places < 6; at++, places++)
            limit->units = limit->units * 10 + (*at - '0');
    for (; places < 6; places++)
        limit->units *= 10;
    return whole > 0 && *at == 0;
}

/* By the reported units; the figure shown is rounded. */
static int is_below(int32_t oxygen, const struct limit *limit)
{
    return limit->text && oxygen < limit->units;
}

/* Where a flow has five digits or more in L/s, m3/s read better. */
static int in_cubic_metres(const struct report *report)
{
    for (uint32_t i = 1; i <= report->reaches; i++)
        if (record_at(report, i).flow >= 10000)
            return 1;
    return 0;
}

/* What a table shows, and whether its flows stand in m3/s. */
struct table {
    const struct report *report;
    const struct means *means;
    const struct limit *limit;
    int cubic;
};

static int has_means(const struct means *means)
{
    return means->result == 0;
}

static void show_headings(const struct table *table)
{
    int mean = has_means(table->means), nitrogenous = has_nitrogenous(table->report);
    printf("%39s%22s%*s%s\n", "BOD, mg/L", "oxygen, mg/L", mean ? 29 : 19, "lowest at,",
           nitrogenous ? "   nitrogenous BOD, mg/L" : "");
    printf("reach depth %10s %8s %8s %8s  %8s  %8s  %s%9s%s\n", table->cubic ? "flow, m3/s" : "flow, L/s", "head",
           "foot", "head", "lowest", "foot", mean ? "    mean  " : "", "% of time",
           nitrogenous ? "           head     foot" : "");
}

/* Three decimals of m3/s are the litres, so neither unit rounds anything. */
static void show_flow(uint32_t flow, int cubic)
{
    if (cubic)
        printf(" %6" PRIu32 ".%03" PRIu32, flow / 1000, flow % 1000);
    else
        printf(" %10" PRIu32, flow);
}

static void show_oxygen(int32_t oxygen, const struct limit *limit)
{
    printf(" %8s%c", milligrams(oxygen).chars, is_below(oxygen, limit) ? '*' : ' ');
}

/* Tenths of a per cent, to the nearest: 0.0 is the head and 100.0 the foot, and no other instant. */
static void show_share(uint16_t instant)
{
    unsigned tenths = (instant * 1000u + XYLANDREO_INSTANTS / 2) / XYLANDREO_INSTANTS;
    printf(" %7u.%u", tenths / 10, tenths % 10);
}

/* All that a row has of oxygen. */
static void show_profile(const struct table *table, uint32_t reach, const struct xylandreo_record *r)
{
    show_oxygen(r->head_oxygen, table->limit);
    show_oxygen(r->critical_oxygen, table->limit);
    show_oxygen(r->foot_oxygen, table->limit);
    if (has_means(table->means))
        show_oxygen(xylandreo_mean_of(table->means->bytes, reach), table->limit);
    show_share(r->critical_instant);
}

/* What stands there in place of figures that are not told, as wide as they are where more follows; such a river has means. */
static void show_used_up_above(const struct table *table)
{
    printf("  %-*s", has_nitrogenous(table->report) ? 48 : 0, "used up above");
}

static void show_row(const struct table *table, uint32_t reach)
{
    struct xylandreo_record r = record_at(table->report, reach);
    printf("%5" PRIu32 " %5u", reach, r.depth);
    show_flow(r.flow, table->cubic);
    printf(" %8s %8s", milligrams(r.head_bod).chars, milligrams(r.foot_bod).chars);
    if (xylandreo_tells_oxygen(&r))
        show_profile(table, reach, &r);
    else
        show_used_up_above(table);
    if (has_nitrogenous(table->report))
        printf("       %8s %8s", milligrams(r.head_nitrogenous).chars, milligrams(r.foot_nitrogenous).chars);
    printf("%s\n", r.status == XYLANDREO_USED_UP ? "  used up" : "");
}

/* How many reaches have a status. */
static uint32_t count_of(const struct report *report, uint8_t status)
{
    uint32_t count = 0;
    for (uint32_t i = 1; i <= report->reaches; i++)
        count += record_at(report, i).status == status;
    return count;
}

/* How many reaches that tell their oxygen have it below the limit somewhere. */
static uint32_t count_below(const struct report *report, const struct limit *limit)
{
    uint32_t count = 0;
    for (uint32_t i = 1; i <= report->reaches; i++) {
        struct xylandreo_record r = record_at(report, i);
        count += xylandreo_tells_oxygen(&r) && is_below(r.critical_oxygen, limit);
    }
    return count;
}

/* The river's mean is rounded down to its units already, so that it is shown as every other figure. */
static void show_summary(const struct table *table)
{
    const struct report *report = table->report;
    const struct limit *limit = table->limit;
    uint32_t below = count_below(report, limit), lowest = lowest_reach(report);
    uint32_t used_up = count_of(report, XYLANDREO_USED_UP);
    printf("lowest oxygen %s mg/L in reach %" PRIu32, milligrams(record_at(report, lowest).critical_oxygen).chars,
           lowest);
    if (has_means(table->means))
        printf("; mean by volume %s mg/L", milligrams(table->means->units).chars);
    if (limit->text)
        printf("; %" PRIu32 " of %" PRIu32 " %s below %s mg/L%s", below, report->reaches,
               report->reaches == 1 ? "reach" : "reaches", limit->text, below ? ", marked *" : "");
    if (used_up)
        printf("; oxygen used up in %" PRIu32 " %s and above %" PRIu32, used_up, used_up == 1 ? "reach" : "reaches",
               count_of(report, XYLANDREO_USED_UP_ABOVE));
}

static void show_table(const char *path, const struct table *table)
{
    uint32_t reaches = table->report->reaches;
    show_name(stdout, path);
    printf(": %" PRIu32 " %s\n", reaches, reaches == 1 ? "reach" : "reaches");
    show_headings(table);
    for (uint32_t i = 1; i <= reaches; i++)
        show_row(table, i);
    if (count_of(table->report, XYLANDREO_USED_UP))
        printf("used up: oxygen falls below zero in the reach; used up above: in a reach above it, so that its own "
               "oxygen is not told and its volume has no part in the mean\n");
}

/* The table of an accepted river, and the summary line that every river has. */
static void show_river(const char *path, const struct river *river, const struct table *table)
{
    if (table->report->result == 0)
        show_table(path, table);
    show_name(stdout, path);
    printf(": ");
    if (table->report->result == 0)
        show_summary(table);
    else
        show_refusal(stdout, river, table->report->result);
    printf("\n");
}

static struct river river;
static struct report report;
static struct means means;
static char printed[MAX_LINES];

static int load(const char *path)
{
    int problem = load_river(path, &river);
    if (problem)
        say_problem("display", path, problem);
    return !problem;
}

static int lines(const char *path)
{
    if (!load(path))
        return BAD_USE;
    report_river(&river, &report);
    fwrite(printed, 1, put_lines(&report, printed), stdout);
    return report.result == 0 ? ACCEPTED : REFUSED;
}

static int mean_lines(const char *path)
{
    if (!load(path))
        return BAD_USE;
    average_river(&river, &means);
    fwrite(printed, 1, put_means(&means, printed), stdout);
    return means.result == 0 ? ACCEPTED : REFUSED;
}

static int check(const char *path)
{
    if (!load(path))
        return BAD_USE;
    check_promises(path, &river);
    return 0;
}

/* All files, one after another, with an empty line before and after a table. */
static int tables(char **paths, const struct limit *limit)
{
    int status = ACCEPTED, after_table = 0;
    for (char **path = paths; *path; path++) {
        if (!load(*path)) {
            status = BAD_USE;
            continue;
        }
        report_river(&river, &report);
        average_river(&river, &means);
        struct table table = {&report, &means, limit, in_cubic_metres(&report)};
        if (path > paths && (after_table || report.result == 0))
            printf("\n");
        show_river(*path, &river, &table);
        after_table = report.result == 0;
        if (report.result != 0 && status == ACCEPTED)
            status = REFUSED;
    }
    return status;
}

static int usage(void)
{
    fprintf(stderr, "usage: display [--limit 5.0] FILE... | display --lines | --means | --check FILE\n");
    return BAD_USE;
}

/* The tables, with or without a limit; `--` may stand before the files. */
static int table_mode(char **arguments)
{
    struct limit limit = {NULL, 0};
    if (arguments[0] && arguments[1] && !strcmp(arguments[0], "--limit")) {
        if (!take_limit(arguments[1], &limit)) {
            fprintf(stderr, "display: a limit is a number of mg/L with at most six decimals, such as 5.0\n");
            return BAD_USE;
        }
        arguments += 2;
    }
    if (arguments[0] && !strcmp(arguments[0], "--"))
        arguments++;
    else if (arguments[0] && arguments[0][0] == '-')
        return usage();
    return arguments[0] ? tables(arguments, &limit) : usage();
}

int main(int argc, char **argv)
{
    if (argc == 3 && !strcmp(argv[1], "--lines"))
        return finish("display", lines(argv[2]));
    if (argc == 3 && !strcmp(argv[1], "--means"))
        return finish("display", mean_lines(argv[2]));
    if (argc == 3 && !strcmp(argv[1], "--check"))
        return finish("display", check(argv[2]));
    return finish("display", table_mode(argv + 1));
}
