/*
 * Times the proved entry for reports against three plain C programs, and the one for means against a fourth, on the
 * same files: bench FILE..
 *
 * All take turns in batches of about a millisecond. A time is that of the fastest batch; ratios are also given for the
 * medians. The report buffers are not cleared in between. The part that reads the file and checks the flows is
 * timed by calls with no room for a report, which are refused after both.
 */
#define _POSIX_C_SOURCE 199309L
#include <stdio.h>
#include <stdlib.h>
#include <string.h>
#include <time.h>

#include "plain.h"
#include "xylandreo.h"

#define BATCHES 201
#define BATCH_SECONDS 0.001

typedef uint32_t entry(const uint8_t *file, size_t file_len, uint8_t *report, size_t report_len);

/*
 * What is timed: the programs, reading and flow check alone, proved and as the plain programs share them, and the
 * means, proved and plain.
 */
enum {
    PROVED, EXP, STEPPED, CLOSED, PROGRAMS,
    PROVED_CHECKS = PROGRAMS, PLAIN_CHECKS, PROVED_MEANS, PLAIN_MEANS, TIMED
};

/* The means with the parameters of a report; the mean of the river is left here. */
static struct {
    int32_t units;
    uint64_t remainder;
} mean;

static uint32_t proved_means(const uint8_t *river, size_t river_len, uint8_t *means, size_t means_len)
{
    return xylandreo_mean(river, river_len, means, means_len, &mean.units, &mean.remainder);
}

static uint32_t plain_means(const uint8_t *river, size_t river_len, uint8_t *means, size_t means_len)
{
    return plain_mean(river, river_len, means, means_len, &mean.units, &mean.remainder);
}

static const struct timed {
    entry *call;
    size_t report_len;
    uint32_t result;
} timed[TIMED] = {
    [PROVED] = {xylandreo_report, XYLANDREO_MAX_REPORT, 0},
    [EXP] = {exp_report, XYLANDREO_MAX_REPORT, 0},
    [STEPPED] = {stepped_report, XYLANDREO_MAX_REPORT, 0},
    [CLOSED] = {closed_report, XYLANDREO_MAX_REPORT, 0},
    [PROVED_CHECKS] = {xylandreo_report, 0, 12},
    [PLAIN_CHECKS] = {exp_report, 0, 12},
    [PROVED_MEANS] = {proved_means, XYLANDREO_MAX_MEANS, 0},
    [PLAIN_MEANS] = {plain_means, XYLANDREO_MAX_MEANS, 0},
};

/* What is measured on a river: microseconds a call, and how far each report, and a mean, lies from the proved one. */
struct river {
    const char *name;
    uint32_t reaches;
    double fastest[TIMED], median[TIMED];
    struct distance {
        long units, instants;
    } distance[PROGRAMS];
    long mean_distance;
};

static uint8_t file[XYLANDREO_MAX_FILE];
static size_t file_len;
static uint8_t reports[TIMED][XYLANDREO_MAX_REPORT];

static double now(void)
{
    struct timespec t;
    clock_gettime(CLOCK_MONOTONIC, &t);
    return (double)t.tv_sec + 1e-9 * (double)t.tv_nsec;
}

/* Microseconds a call over a batch. */
static double batch(int k, long calls)
{
    double start = now();
    for (long i = 0; i < calls; i++)
        if (timed[k].call(file, file_len, reports[k], timed[k].report_len) != timed[k].result) {
            fprintf(stderr, "bench: unexpected result\n");
            exit(1);
        }
    return (now() - start) / (double)calls * 1e6;
}

static int ascending(const void *a, const void *b)
{
    double x = *(const double *)a, y = *(const double *)b;
    return (x > y) - (x < y);
}

static void raise_to(long *largest, long difference)
{
    if (labs(difference) > *largest)
        *largest = labs(difference);
}

/*
 * The largest differences of a program's report from the proved one: of a concentration, in units, and of an instant.
 * Both have the same statuses, and where oxygen is not told it is 0 in both.
 */
static struct distance distance(int k, uint32_t reaches)
{
    struct distance d = {0, 0};
    uint32_t size = xylandreo_record_size(file, file_len);
    for (uint32_t i = 1; i <= reaches; i++) {
        struct xylandreo_record a = xylandreo_record_of(reports[PROVED], size, i);
        struct xylandreo_record b = xylandreo_record_of(reports[k], size, i);
        raise_to(&d.units, (long)a.head_bod - b.head_bod);
        raise_to(&d.units, (long)a.foot_bod - b.foot_bod);
        raise_to(&d.units, (long)a.head_nitrogenous - b.head_nitrogenous);
        raise_to(&d.units, (long)a.foot_nitrogenous - b.foot_nitrogenous);
        raise_to(&d.units, (long)a.head_oxygen - b.head_oxygen);
        raise_to(&d.units, (long)a.critical_oxygen - b.critical_oxygen);
        raise_to(&d.units, (long)a.foot_oxygen - b.foot_oxygen);
        raise_to(&d.instants, (long)a.critical_instant - b.critical_instant);
    }
    return d;
}

/* Whether all programs give a reach the same status; its oxygen is not to be compared otherwise. */
static int same_status(uint32_t reach)
{
    uint32_t size = xylandreo_record_size(file, file_len);
    for (int k = 0; k < PROGRAMS; k++)
        if (xylandreo_record_of(reports[k], size, reach).status
            != xylandreo_record_of(reports[PROVED], size, reach).status)
            return 0;
    return 1;
}

/* The largest difference of the plain means from the proved ones, in units. */
static long mean_distance(uint32_t reaches)
{
    const uint8_t *proved = reports[PROVED_MEANS], *plain = reports[PLAIN_MEANS];
    long largest = 0;
    for (uint32_t i = 1; i <= reaches; i++)
        raise_to(&largest, (long)xylandreo_mean_of(proved, i) - xylandreo_mean_of(plain, i));
    return largest;
}

static void load(const char *path)
{
    FILE *in = fopen(path, "rb");
    if (!in) {
        perror(path);
        exit(2);
    }
    file_len = fread(file, 1, sizeof file, in);
    fclose(in);
    for (int k = 0; k < TIMED; k++)
        if (timed[k].call(file, file_len, reports[k], timed[k].report_len) != timed[k].result) {
            fprintf(stderr, "bench: %s is refused, or has no volume\n", path);
            exit(2);
        }
    for (uint32_t i = 1; i <= xylandreo_reaches(file); i++)
        if (!same_status(i)) {
            fprintf(stderr, "bench: %s: the programs differ in the status of reach %u\n", path, i);
            exit(1);
        }
}

static struct river measure(const char *path)
{
    static double times[TIMED][BATCHES];
    long calls[TIMED];
    load(path);
    for (int k = 0; k < TIMED; k++)
        calls[k] = 1 + (long)(BATCH_SECONDS * 1e6 / batch(k, 3));
    for (int i = 0; i < BATCHES; i++)
        for (int k = 0; k < TIMED; k++)
            times[k][i] = batch(k, calls[k]);

    const char *slash = strrchr(path, '/');
    struct river r = {.name = slash ? slash + 1 : path, .reaches = xylandreo_reaches(file)};
    for (int k = 0; k < TIMED; k++) {
        qsort(times[k], BATCHES, sizeof *times[k], ascending);
        r.fastest[k] = times[k][0];
        r.median[k] = times[k][BATCHES / 2];
    }
    for (int k = 0; k < PROGRAMS; k++)
        r.distance[k] = distance(k, r.reaches);
    r.mean_distance = mean_distance(r.reaches);
    return r;
}

static void print_times(const struct river *r)
{
    printf("%-24s %7u ", r->name, r->reaches);
    for (int k = 0; k < PROGRAMS; k++)
        printf(" %8.2f", r->fastest[k]);
    printf(" ");
    for (int k = 0; k < PROGRAMS; k++)
        printf(" %7.3f", r->fastest[k] / r->reaches);
    printf("  %7.2f %7.2f  %9.2f\n", r->fastest[PROVED_CHECKS], r->fastest[PLAIN_CHECKS],
           (r->fastest[PROVED] - r->fastest[PROVED_CHECKS]) * 1000 / r->reaches / 1024);
}

static void print_comparison(const struct river *r)
{
    printf("%-24s %7u ", r->name, r->reaches);
    for (int k = 1; k < PROGRAMS; k++)
        printf(" %6.2f (%6.2f)", r->fastest[PROVED] / r->fastest[k], r->median[PROVED] / r->median[k]);
    printf(" ");
    for (int k = 1; k < PROGRAMS; k++)
        printf(" %7ld", r->distance[k].units);
    printf(" ");
    for (int k = 1; k < PROGRAMS; k++)
        printf(" %7ld", r->distance[k].instants);
    printf("\n");
}

static void print_means(const struct river *r)
{
    const double *fastest = r->fastest, *median = r->median;
    printf("%-24s %7u  %8.2f %8.2f  %7.3f %7.3f  %6.2f (%6.2f) %6.2f (%6.2f)  %7ld\n", r->name, r->reaches,
           fastest[PROVED_MEANS], fastest[PLAIN_MEANS], fastest[PROVED_MEANS] / r->reaches,
           fastest[PLAIN_MEANS] / r->reaches, fastest[PROVED_MEANS] / fastest[PROVED],
           median[PROVED_MEANS] / median[PROVED], fastest[PROVED_MEANS] / fastest[PLAIN_MEANS],
           median[PROVED_MEANS] / median[PLAIN_MEANS], r->mean_distance);
}

int main(int argc, char **argv)
{
    if (argc < 2) {
        fprintf(stderr, "usage: bench FILE..\n");
        return 2;
    }
    struct river *rivers = calloc((size_t)argc, sizeof *rivers);
    if (!rivers) {
        perror("bench");
        return 2;
    }
    printf("%32s  %-35s  %-31s  %s\n", "", "microseconds a call", "microseconds a reach", "checks, us a call");
    printf("%-24s %7s  %8s %8s %8s %8s  %7s %7s %7s %7s  %7s %7s  %9s\n", "river", "reaches", "proved", "exp", "stepped",
           "closed", "proved", "exp", "stepped", "closed", "proved", "plain", "ns a step");
    for (int i = 1; i < argc; i++) {
        rivers[i] = measure(argv[i]);
        print_times(&rivers[i]);
    }
    printf("\n%32s  %-47s  %-23s  %s\n", "", "proved time over that of (medians)", "difference", "of instants");
    printf("%-24s %7s  %15s %15s %15s  %7s %7s %7s  %7s %7s %7s\n", "river", "reaches", "exp", "stepped", "closed",
           "exp", "stepped", "closed", "exp", "stepped", "closed");
    for (int i = 1; i < argc; i++)
        print_comparison(&rivers[i]);
    printf("\n%32s  %-17s  %-15s  %-31s\n", "the means", "us a call", "us a reach", "proved time over that of");
    printf("%-24s %7s  %8s %8s  %7s %7s  %15s %15s  %7s\n", "river", "reaches", "proved", "plain", "proved", "plain",
           "the report", "plain", "apart");
    for (int i = 1; i < argc; i++)
        print_means(&rivers[i]);
    free(rivers);
    return 0;
}
