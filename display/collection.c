/*
 * Goes through the river files of a folder, not of its subfolders, sorted by name: a line for each, and a
 * last one with the counts. Of the archive it calls reporting, the size of a reach in a report, and rewriting.
 *
 *   collection DIR
 *
 * For each NAME.river it says whether the river is accepted, or the refusal with its reason; whether rewriting
 * gives the same bytes; the lowest oxygen and its reach; and, where NAME.report lies beside it, whether that
 * is what the printing program prints now. An old report, from before there was a status, is the same where it is what
 * is printed now but for the status and, at reaches of status 2, oxygen; the last line counts these apart.
 *
 * The exit status is 0 where all is accepted and the same, 1 where a river is refused or something differs,
 * 2 for bad use and where a file cannot be read.
 */
#define _POSIX_C_SOURCE 200809L
#include <dirent.h>
#include <errno.h>
#include <inttypes.h>
#include <stdlib.h>
#include <string.h>
#include <sys/stat.h>
#include <time.h>
#include <unistd.h>

#include "desk.h"

#define SUFFIX ".river"
#define WIDEST_NAME 40 /* columns kept for names; a longer one moves the rest of its line */

/* Numbers of a line of an old report, which has no status; nitrogenous BOD adds two. */
#define OLD_NUMBERS 9
#define NITROGENOUS_NUMBERS 2
#define OXYGEN_NUMBERS 4 /* head, instant, lowest and foot */

/* How a comparison went; NOTHING where there was nothing to compare. */
enum verdict { NOTHING, SAME, DIFFERS };

/* How that of a stored report went, and whether it is an old one. */
struct comparison {
    enum verdict verdict;
    int is_old;
};

/* What was found out about one file. */
struct finding {
    struct river river;
    struct report report;
    enum verdict rewritten; /* NOTHING where reading refuses, so that there is no river to write */
    struct comparison kept; /* the report beside the file; NOTHING where there is none */
};

/* Counts of files; those of verdicts by verdict, of old reports apart. */
struct counts {
    size_t accepted, refused, unreadable, rewritten[3], kept[3], old[3];
};

/* What *.river means in a shell, folders aside. A link to nothing is told when it is opened. */
static int is_river(const struct dirent *entry)
{
    const char *name = entry->d_name;
    size_t length = strlen(name), suffix = strlen(SUFFIX);
    struct stat about;
    if (name[0] == '.' || length < suffix || strcmp(name + length - suffix, SUFFIX))
        return 0;
    return stat(name, &about) != 0 || S_ISREG(about.st_mode);
}

static int by_name(const struct dirent **a, const struct dirent **b)
{
    return strcmp((*a)->d_name, (*b)->d_name);
}

static int is_all(const uint8_t *bytes, size_t length, uint8_t value)
{
    for (size_t i = 0; i < length; i++)
        if (bytes[i] != value)
            return 0;
    return 1;
}

/* Rewrites the file to a buffer of so many bytes: the result, and whether only the file's bytes were written, or nothing after a refusal. */
static int rewritten(const struct river *river, size_t room, uint32_t *result)
{
    static uint8_t out[XYLANDREO_MAX_FILE + 64];
    const uint8_t pattern = 0xa5;
    memset(out, pattern, sizeof out);
    *result = xylandreo_rewrite(river->bytes, river->length, out, room < sizeof out ? room : sizeof out);
    size_t written = *result == 0 ? river->length : 0;
    return is_all(out + written, sizeof out - written, pattern) && !memcmp(out, river->bytes, written);
}

/*
 * Wanted are the same bytes, and 12 from a buffer one byte too short; or reading's refusal, which reporting
 * gives too.
 */
static enum verdict rewrite(const struct river *river, uint32_t reported)
{
    uint32_t result, too_short;
    if (!rewritten(river, SIZE_MAX, &result))
        return DIFFERS;
    if (result != 0)
        return result == reported ? NOTHING : DIFFERS;
    return rewritten(river, river->length - 1, &too_short) && too_short == 12 ? SAME : DIFFERS;
}

/* What remains of a text. */
struct rest {
    const char *at, *end;
};

/* Goes past the given characters where they stand there. Returns whether they did. */
static int pass(struct rest *rest, const char *due, size_t length)
{
    if ((size_t)(rest->end - rest->at) < length || memcmp(rest->at, due, length))
        return 0;
    rest->at += length;
    return 1;
}

/* Goes past a number, whatever it is: at most ten digits, perhaps below zero. */
static int pass_number(struct rest *rest)
{
    int digits = 0;
    pass(rest, "-", 1);
    for (; rest->at < rest->end && *rest->at >= '0' && *rest->at <= '9'; rest->at++)
        digits++;
    return digits >= 1 && digits <= 10;
}

/* How many numbers the first line has; 0 where it has anything else. */
static int numbers_in_line(struct rest rest)
{
    int numbers = 0;
    do {
        if (!pass_number(&rest))
            return 0;
        numbers++;
    } while (pass(&rest, " ", 1));
    return pass(&rest, "\n", 1) ? numbers : 0;
}

/* Goes past the oxygen figures of an old line: those of now, or any where these are not told. */
static int pass_oxygen(struct rest *rest, const struct report *report, uint32_t reach)
{
    char due[MAX_LINE];
    struct xylandreo_record record = record_at(report, reach);
    if (xylandreo_tells_oxygen(&record))
        return pass(rest, due, put_oxygen(report, reach, due));
    for (int i = 0; i < OXYGEN_NUMBERS; i++)
        if (!pass(rest, " ", 1) || !pass_number(rest))
            return 0;
    return 1;
}

/* Whether an old report has a line for each reach, with the figures of now. A refused river has no such lines. */
static int is_same_old(struct rest kept, const struct report *report)
{
    char due[MAX_LINE];
    for (uint32_t i = 1; i <= report->reaches; i++)
        if (!pass(&kept, due, put_bod(report, i, due)) || !pass_oxygen(&kept, report, i)
            || !pass(&kept, due, put_nitrogenous(report, i, due)) || !pass(&kept, "\n", 1))
            return 0;
    return kept.at == kept.end;
}

static int is_same_new(struct rest kept, const struct report *report)
{
    static char printed[MAX_LINES];
    size_t length = put_lines(report, printed);
    return pass(&kept, printed, length) && kept.at == kept.end;
}

/* Whether NAME.report is what is printed now for NAME.river. One that cannot be read is not. */
static struct comparison compare_report(const char *name, const struct report *report)
{
    static char text[MAX_LINES];
    char path[512];
    snprintf(path, sizeof path, "%.*s.report", (int)(strlen(name) - strlen(SUFFIX)), name);
    FILE *file = fopen(path, "rb");
    if (!file)
        return (struct comparison){errno == ENOENT || errno == ENAMETOOLONG ? NOTHING : DIFFERS, 0};
    struct rest kept = {text, text + fread(text, 1, sizeof text, file)};
    int failed = ferror(file), numbers = numbers_in_line(kept);
    int is_old = numbers == OLD_NUMBERS || numbers == OLD_NUMBERS + NITROGENOUS_NUMBERS;
    fclose(file);
    int is_same = !failed && (is_old ? is_same_old(kept, report) : is_same_new(kept, report));
    return (struct comparison){is_same ? SAME : DIFFERS, is_old};
}

/* Looks at one file. Returns 0, or the errno of what went wrong. */
static int examine(const char *name, struct finding *finding)
{
    int problem = load_river(name, &finding->river);
    if (problem)
        return problem;
    report_river(&finding->river, &finding->report);
    finding->rewritten = rewrite(&finding->river, finding->report.result);
    finding->kept = compare_report(name, &finding->report);
    return 0;
}

static void count(const struct finding *finding, struct counts *counts)
{
    counts->accepted += finding->report.result == 0;
    counts->refused += finding->report.result != 0;
    counts->rewritten[finding->rewritten]++;
    (finding->kept.is_old ? counts->old : counts->kept)[finding->kept.verdict]++;
}

static const char *word(enum verdict verdict)
{
    static const char *const words[] = {"-", "same", "DIFFERS"};
    return words[verdict];
}

/* The word for the report beside a file. */
static const char *kept_word(const struct comparison *kept)
{
    if (!kept->is_old)
        return word(kept->verdict);
    return kept->verdict == SAME ? "same, old" : "DIFFERS, old";
}

static void show_padded(const char *name, size_t width)
{
    size_t columns = name_columns(name);
    show_name(stdout, name);
    printf("%*s", columns < width ? (int)(width - columns) : 0, "");
}

static void show_headings(size_t width)
{
    show_padded("river", width);
    printf("  %-20s %-9s %20s %6s  report\n", "verdict", "rewritten", "lowest oxygen, mg/L", "reach");
}

static void show_accepted(const struct finding *finding)
{
    uint32_t reach = lowest_reach(&finding->report);
    struct text oxygen = milligrams(record_at(&finding->report, reach).critical_oxygen);
    printf("  %-20s %-9s %20s %6" PRIu32 "  %s\n", "accepted", word(finding->rewritten), oxygen.chars, reach,
           kept_word(&finding->kept));
}

static void show_refused(const struct finding *finding)
{
    uint32_t result = finding->report.result;
    char verdict[32];
    snprintf(verdict, sizeof verdict, "refused %" PRIu32 " reach %" PRIu32, xylandreo_number(result),
             xylandreo_reach(result));
    printf("  %-20s %-9s %20s %6s  %-12s ", verdict, word(finding->rewritten), "-", "-", kept_word(&finding->kept));
    show_reason(stdout, &finding->river, result);
    printf("\n");
}

static void show_counts(const struct counts *counts)
{
    size_t rivers = counts->accepted + counts->refused;
    printf("%zu %s: %zu accepted, %zu refused", rivers, rivers == 1 ? "river" : "rivers", counts->accepted,
           counts->refused);
    if (counts->unreadable)
        printf(", %zu more not readable", counts->unreadable);
    printf("; rewritten: %zu the same, %zu differ; reports beside them: %zu the same, %zu differ",
           counts->rewritten[SAME], counts->rewritten[DIFFERS], counts->kept[SAME], counts->kept[DIFFERS]);
    if (counts->old[SAME] || counts->old[DIFFERS])
        printf("; old reports, without the status: %zu the same, %zu differ", counts->old[SAME], counts->old[DIFFERS]);
    printf("\n");
}

/* Hundredths of a second, for the progress line alone. */
static int64_t now(void)
{
    struct timespec time;
    clock_gettime(CLOCK_MONOTONIC, &time);
    return (int64_t)time.tv_sec * 100 + time.tv_nsec / 10000000;
}

/* The progress line on the terminal: when it is next due, and whether it stands there. */
static struct {
    int64_t due;
    int shown;
} progress;

static void wipe_progress(void)
{
    if (progress.shown)
        fprintf(stderr, "\r%50s\r", "");
    progress.shown = 0;
}

/* From half a second on, ten times a second; after each line of the list where that runs over a terminal too. */
static void show_progress(size_t done, size_t all)
{
    if (!isatty(STDERR_FILENO) || now() < progress.due)
        return;
    fprintf(stderr, "\r%zu of %zu river files", done, all);
    progress.shown = 1;
    progress.due = now() + (isatty(STDOUT_FILENO) ? 0 : 10);
}

static void show_line(const char *name, size_t width, const struct finding *finding)
{
    if (isatty(STDOUT_FILENO))
        wipe_progress();
    show_padded(name, width);
    if (finding->report.result == 0)
        show_accepted(finding);
    else
        show_refused(finding);
}

/* One file of the folder: its line, or on standard error why it cannot be read. */
static void one_file(const char *name, size_t width, struct counts *counts)
{
    static struct finding finding;
    int problem = examine(name, &finding);
    if (problem) {
        wipe_progress();
        say_problem("collection", name, problem);
        counts->unreadable++;
        return;
    }
    count(&finding, counts);
    show_line(name, width, &finding);
}

static size_t name_width(struct dirent **names, size_t all)
{
    size_t width = strlen("river");
    for (size_t i = 0; i < all; i++) {
        size_t columns = name_columns(names[i]->d_name);
        width = columns > width && columns <= WIDEST_NAME ? columns : width;
    }
    return width;
}

static int status_of(const struct counts *counts)
{
    if (counts->unreadable)
        return BAD_USE;
    int differs = counts->rewritten[DIFFERS] || counts->kept[DIFFERS] || counts->old[DIFFERS];
    return counts->refused || differs ? REFUSED : ACCEPTED;
}

/* All river files of the current folder, whose names are given and freed here. */
static int all_files(struct dirent **names, size_t all)
{
    struct counts counts = {0};
    size_t width = name_width(names, all);
    progress.due = now() + 50;
    show_headings(width);
    for (size_t i = 0; i < all; i++) {
        one_file(names[i]->d_name, width, &counts);
        show_progress(i + 1, all);
        free(names[i]);
    }
    free(names);
    wipe_progress();
    show_counts(&counts);
    return status_of(&counts);
}

int main(int argc, char **argv)
{
    struct dirent **names = NULL;
    if (argc != 2) {
        fprintf(stderr, "usage: collection DIR\n");
        return BAD_USE;
    }
    int all = chdir(argv[1]) == 0 ? scandir(".", &names, is_river, by_name) : -1;
    if (all < 0) {
        say_problem("collection", argv[1], errno);
        return BAD_USE;
    }
    if (all == 0) {
        free(names);
        fprintf(stderr, "collection: ");
        show_name(stderr, argv[1]);
        fprintf(stderr, ": no river files (*" SUFFIX ") in it\n");
        return BAD_USE;
    }
    return finish("collection", all_files(names, (size_t)all));
}
