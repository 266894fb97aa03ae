/* See desk.h. */
#include "desk.h"

#include <errno.h>
#include <inttypes.h>
#include <string.h>

int load_river(const char *path, struct river *river)
{
    FILE *file = fopen(path, "rb");
    if (!file)
        return errno;
    errno = 0;
    river->length = fread(river->bytes, 1, XYLANDREO_MAX_FILE + 1, file);
    int problem = ferror(file) ? (errno ? errno : EIO) : 0;
    fclose(file);
    return problem;
}

void say_problem(const char *program, const char *path, int problem)
{
    fprintf(stderr, "%s: ", program);
    show_name(stderr, path);
    fprintf(stderr, ": %s\n", strerror(problem));
}

int finish(const char *program, int status)
{
    if (fflush(stdout) == 0 && !ferror(stdout))
        return status;
    fprintf(stderr, "%s: the output could not be written\n", program);
    return BAD_USE;
}

void report_river(const struct river *river, struct report *report)
{
    report->result = xylandreo_report(river->bytes, river->length, report->bytes, sizeof report->bytes);
    report->reaches = report->result == 0 ? xylandreo_reaches(river->bytes) : 0;
    report->size = xylandreo_record_size(river->bytes, river->length);
}

struct xylandreo_record record_at(const struct report *report, uint32_t reach)
{
    return xylandreo_record_of(report->bytes, report->size, reach);
}

int has_nitrogenous(const struct report *report)
{
    return report->size > XYLANDREO_RECORD;
}

uint32_t lowest_reach(const struct report *report)
{
    uint32_t lowest = 1;
    for (uint32_t i = 2; i <= report->reaches; i++) {
        struct xylandreo_record record = record_at(report, i);
        if (xylandreo_tells_oxygen(&record) && record.critical_oxygen < record_at(report, lowest).critical_oxygen)
            lowest = i;
    }
    return lowest;
}

void average_river(const struct river *river, struct means *means)
{
    means->result = xylandreo_mean(river->bytes, river->length, means->bytes, sizeof means->bytes, &means->units,
                                   &means->remainder);
    means->reaches = means->result == 0 ? xylandreo_reaches(river->bytes) : 0;
}

void show_name(FILE *to, const char *name)
{
    for (; *name; name++) {
        unsigned char byte = (unsigned char)*name;
        fputc(byte < 0x20 || byte == 0x7f ? '?' : byte, to);
    }
}

size_t name_columns(const char *name)
{
    size_t columns = 0;
    for (; *name; name++)
        columns += ((unsigned char)*name & 0xc0) != 0x80;
    return columns;
}

struct text milligrams(int64_t units)
{
    const int64_t step = XYLANDREO_UNITS / 1000;
    int64_t size = units < 0 ? (-units + step - 1) / step : units / step; /* rounded down: away from zero below it */
    struct text text;
    snprintf(text.chars, sizeof text.chars, "%s%" PRId64 ".%03" PRId64, units < 0 ? "-" : "", size / 1000,
             size % 1000);
    return text;
}

void show_refusal(FILE *to, const struct river *river, uint32_t result)
{
    fprintf(to, "refused %" PRIu32 " reach %" PRIu32 ": ", xylandreo_number(result), xylandreo_reach(result));
    show_reason(to, river, result);
}

/* An outlet has no unit, and may have one lawful value alone, as the last number of ammonia has. */
static void show_fault(FILE *to, const struct xylandreo_fault *fault, int is_outlet)
{
    const char *unit = is_outlet ? "" : fault->field->unit;
    fprintf(to, ": %s is %" PRIu64 ", not ", fault->field->name, fault->value);
    if (fault->lowest < fault->highest)
        fprintf(to, "from %" PRIu64 " to ", fault->lowest);
    fprintf(to, "%" PRIu64 "%s%s", fault->highest, *unit ? " " : "", unit);
}

/* Whether a file begins not as a river file does but as a text: printable characters, or bytes of UTF-8. */
static int looks_like_text(const struct river *river)
{
    if (river->length == 0 || (river->length >= 2 && !memcmp(river->bytes, "RV", 2)))
        return 0;
    for (size_t i = 0; i < river->length && i < 256; i++) {
        uint8_t byte = river->bytes[i];
        if (byte == 0x7f || (byte < 0x20 && byte != '\t' && byte != '\n' && byte != '\r'))
            return 0;
    }
    return 1;
}

void show_reason(FILE *to, const struct river *river, uint32_t result)
{
    fputs(xylandreo_reason(xylandreo_number(result)), to);
    struct xylandreo_fault fault = xylandreo_fault_of(river->bytes, river->length, result);
    if (fault.field)
        show_fault(to, &fault, xylandreo_number(result) == 5);
    if (looks_like_text(river))
        fputs("; this looks like a text; tools/river make TEXT OUT makes a river file of it", to);
}

size_t put_bod(const struct report *report, uint32_t reach, char text[MAX_LINE])
{
    struct xylandreo_record r = record_at(report, reach);
    return (size_t)snprintf(text, MAX_LINE, "%" PRIu32 " %u %" PRIu32 " %" PRIu32 " %" PRIu32, reach, r.depth, r.flow,
                            r.head_bod, r.foot_bod);
}

size_t put_oxygen(const struct report *report, uint32_t reach, char text[MAX_LINE])
{
    struct xylandreo_record r = record_at(report, reach);
    return (size_t)snprintf(text, MAX_LINE, " %" PRId32 " %u %" PRId32 " %" PRId32, r.head_oxygen, r.critical_instant,
                            r.critical_oxygen, r.foot_oxygen);
}

size_t put_nitrogenous(const struct report *report, uint32_t reach, char text[MAX_LINE])
{
    struct xylandreo_record r = record_at(report, reach);
    if (!has_nitrogenous(report))
        return 0;
    return (size_t)snprintf(text, MAX_LINE, " %" PRIu32 " %" PRIu32, r.head_nitrogenous, r.foot_nitrogenous);
}

static size_t put_refusal(char *text, uint32_t result)
{
    return (size_t)snprintf(text, MAX_LINE, "refused %" PRIu32 " reach %" PRIu32 "\n", xylandreo_number(result),
                            xylandreo_reach(result));
}

size_t put_means(const struct means *means, char text[MAX_LINES])
{
    if (means->result != 0)
        return put_refusal(text, means->result);
    size_t length = 0;
    for (uint32_t i = 1; i <= means->reaches; i++)
        length += (size_t)snprintf(text + length, MAX_LINE, "%" PRIu32 " %" PRId32 "\n", i,
                                   xylandreo_mean_of(means->bytes, i));
    return length + (size_t)snprintf(text + length, MAX_LINE, "river %" PRId32 " %" PRIu64 "\n", means->units,
                                     means->remainder);
}

size_t put_lines(const struct report *report, char text[MAX_LINES])
{
    if (report->result != 0)
        return put_refusal(text, report->result);
    size_t length = 0;
    for (uint32_t i = 1; i <= report->reaches; i++) {
        length += put_bod(report, i, text + length);
        length += put_oxygen(report, i, text + length);
        length += (size_t)snprintf(text + length, MAX_LINE, " %u", record_at(report, i).status);
        length += put_nitrogenous(report, i, text + length);
        text[length++] = '\n';
    }
    return length;
}
