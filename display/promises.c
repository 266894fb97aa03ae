/* See promises.h. */
#include "promises.h"

#include <inttypes.h>
#include <stdlib.h>
#include <string.h>

#define PATTERN 0xa5
#define GUARD 64 /* bytes before and after the lent buffer that must stay as they are */

static unsigned long calls, refusals;

/* A promise of an entry; the first broken one ends the program. */
static void expect(int holds, const char *promise, uint32_t result)
{
    if (!holds) {
        fprintf(stderr,
                "display: broken promise after %lu calls: %s (result: number %" PRIu32 " reach %" PRIu32 ")\n", calls,
                promise, xylandreo_number(result), xylandreo_reach(result));
        exit(1);
    }
}

static int is_pattern(const uint8_t *bytes, size_t length)
{
    for (size_t i = 0; i < length; i++)
        if (bytes[i] != PATTERN)
            return 0;
    return 1;
}

/* The bounds of the figures of every record. */
static void check_bounds(const struct xylandreo_record *r)
{
    int32_t highest = r->head_oxygen > r->foot_oxygen ? r->head_oxygen : r->foot_oxygen;
    uint64_t bod = (uint64_t)r->head_bod + r->head_nitrogenous;
    expect(bod <= XYLANDREO_MAX_BOD, "BOD and nitrogenous BOD together are at most 1,000 mg/L", 0);
    expect(r->critical_oxygen >= XYLANDREO_MIN_OXYGEN && highest <= XYLANDREO_MAX_OXYGEN, "oxygen is within its bounds",
           0);
}

/* The marks of a reach's records. */
static void check_marks(const uint8_t *records, uint32_t size)
{
    expect(memcmp(records, "RP", 2) == 0, "each record begins with its mark", 0);
    expect(size == XYLANDREO_RECORD || memcmp(records + XYLANDREO_RECORD, "RN", 2) == 0,
           "each record of nitrogenous BOD begins with its mark", 0);
}

/* The critical point of a reach that tells its oxygen. */
static void check_critical(const struct xylandreo_record *r)
{
    expect(r->critical_instant <= XYLANDREO_INSTANTS, "the critical instant lies in the reach", 0);
    expect(r->critical_oxygen <= r->head_oxygen && r->critical_oxygen <= r->foot_oxygen,
           "critical oxygen is the lowest", 0);
    expect(r->critical_instant != 0 || r->critical_oxygen == r->head_oxygen, "instant 0 is the head", 0);
    expect(r->critical_instant != XYLANDREO_INSTANTS || r->critical_oxygen == r->foot_oxygen,
           "the last instant is the foot", 0);
}

/* What the figures of every reach keep, each by itself and among themselves. */
static void check_record(const uint8_t *report, uint32_t size, uint32_t reach)
{
    struct xylandreo_record r = xylandreo_record_of(report, size, reach);
    check_marks(report + (size_t)(reach - 1) * size, size);
    check_bounds(&r);
    expect(r.depth >= 1 && r.depth <= reach, "depth is from 1 to the reach's number", 0);
    expect(r.foot_bod <= r.head_bod, "BOD at the foot is at most that at the head", 0);
    expect(r.foot_nitrogenous <= r.head_nitrogenous, "nitrogenous BOD at the foot is at most that at the head", 0);
    if (xylandreo_tells_oxygen(&r))
        check_critical(&r);
    else
        expect(!r.head_oxygen && !r.critical_instant && !r.critical_oxygen && !r.foot_oxygen,
               "at status 2 the figures of oxygen and the instant are 0", 0);
}

static void check_refusal(uint32_t result)
{
    uint32_t number = xylandreo_number(result);
    expect(number != 0 && strcmp(xylandreo_reason(number), "unknown"), "a refusal has a number with a reason",
           result);
    expect(xylandreo_reach(result) <= XYLANDREO_MAX_REACHES, "a refusal names a reach of the file", result);
}

/* The size of a reach in the report of a file whose result is given. */
static uint32_t checked_size(const struct river *river, uint32_t result)
{
    uint32_t number = xylandreo_number(result), size = xylandreo_record_size(river->bytes, river->length);
    if (number >= 1 && number <= 6)
        expect(size == 0, "a file that reading refuses has no size of a reach", result);
    else
        expect(size == XYLANDREO_RECORD || size == XYLANDREO_RECORD + XYLANDREO_RN_BYTES,
               "a reach has an RP record, or an RP and an RN", result);
    return size;
}

/* A buffer to lend, between guards. */
static uint8_t memory[GUARD + XYLANDREO_MAX_REPORT + GUARD];
static uint8_t *const lent = memory + GUARD;

/* Checks which bytes of the buffer, of which so many were lent, a call has written: the first of them, or none. */
static void check_written(size_t length, size_t written, uint32_t result)
{
    calls++;
    if (result == 0) {
        expect(written <= length, "a buffer that is too short is refused", result);
    } else {
        refusals++;
        check_refusal(result);
        expect(is_pattern(lent, length), "a refused call leaves the buffer untouched", result);
    }
    expect(is_pattern(memory, GUARD), "bytes before the buffer are untouched", result);
    expect(is_pattern(lent + written, sizeof memory - GUARD - written),
           "bytes past what is written keep their contents", result);
}

/* What the checks take from the file of a river that reading accepts: the outlet and the volume of each reach. */
struct cards {
    uint8_t outlet[XYLANDREO_MAX_REACHES];
    uint32_t volume[XYLANDREO_MAX_REACHES];
};

static struct cards cards_of(const struct river *river)
{
    const struct xylandreo_field *fields = xylandreo_kinds[2].fields; /* of RE: outlet is the first, volume the fifth */
    struct cards cards;
    struct xylandreo_fault none;
    size_t at = xylandreo_pass(river->bytes, river->length, 0, 0, &none);
    for (uint32_t i = 0; i < xylandreo_reaches(river->bytes); i++) {
        cards.outlet[i] = (uint8_t)xylandreo_value(river->bytes + at, &fields[0]);
        cards.volume[i] = (uint32_t)xylandreo_value(river->bytes + at, &fields[4]);
        at = xylandreo_pass(river->bytes, river->length, at, 1, &none);
    }
    return cards;
}

/* The statuses of a report. Outlets lie below, so that all that is above a reach has gone before. */
static void check_statuses(const struct cards *cards, uint32_t size, uint32_t reaches)
{
    uint8_t used_up_above[UINT8_MAX + 1] = {0};
    for (uint32_t i = 1; i <= reaches; i++) {
        struct xylandreo_record r = xylandreo_record_of(lent, size, i);
        expect((r.status == XYLANDREO_USED_UP_ABOVE) == used_up_above[i],
               "the status is 2 exactly where a reach above has status 1 or 2", 0);
        expect(used_up_above[i] || r.status == (r.critical_oxygen < 0 ? XYLANDREO_USED_UP : XYLANDREO_ORDINARY),
               "any other status is 1 where critical oxygen is below zero, and 0 where it is not", 0);
        if (r.status != XYLANDREO_ORDINARY)
            used_up_above[cards->outlet[i - 1]] = 1;
    }
}

/* Calls the entry for reports with a buffer of the given length, and checks what it wrote. */
static uint32_t checked_call(const struct river *river, size_t length)
{
    memset(memory, PATTERN, sizeof memory);
    uint32_t result = xylandreo_report(river->bytes, river->length, lent, length);
    uint32_t size = checked_size(river, result), reaches = result == 0 ? xylandreo_reaches(river->bytes) : 0;
    check_written(length, (size_t)reaches * size, result);
    for (uint32_t i = 1; i <= reaches; i++)
        check_record(lent, size, i);
    if (result == 0) {
        struct cards cards = cards_of(river);
        check_statuses(&cards, size, reaches);
    }
    return result;
}

/* The volume that counts for the mean of the river: that of each reach which tells its oxygen, and all of it. */
struct volumes {
    uint32_t of[XYLANDREO_MAX_REACHES];
    uint64_t total;
};

static struct volumes volumes_of(const struct cards *cards, const struct report *report)
{
    struct volumes volumes = {{0}, 0};
    for (uint32_t i = 1; i <= report->reaches; i++) {
        struct xylandreo_record r = record_at(report, i);
        volumes.of[i - 1] = xylandreo_tells_oxygen(&r) ? cards->volume[i - 1] : 0;
        volumes.total += volumes.of[i - 1];
    }
    return volumes;
}

/* A sum of volumes times oxygen, which 64 bits may not hold: 65,536 times one part of it and the other. */
struct sum {
    uint64_t high, low;
};

/* Oxygen is counted from 2^31 units below zero, and is then from 0 on. */
static void add(struct sum *sum, uint64_t volume, int32_t oxygen)
{
    uint32_t counted = (uint32_t)oxygen + 0x80000000u;
    sum->high += volume * (counted >> 16);
    sum->low += volume * (counted & 0xffff);
}

static int is_equal(struct sum a, struct sum b)
{
    return a.high + (a.low >> 16) == b.high + (b.low >> 16) && (a.low & 0xffff) == (b.low & 0xffff);
}

/* Units times the total volume and the remainder are the sum of volume times mean, by the volume that counts. */
static void check_river_mean(const struct volumes *volumes, uint32_t reaches, int32_t units, uint64_t remainder)
{
    struct sum sum = {0, 0}, due = {0, remainder};
    for (uint32_t i = 1; i <= reaches; i++)
        add(&sum, volumes->of[i - 1], xylandreo_mean_of(lent, i));
    add(&due, volumes->total, units);
    expect(remainder < volumes->total, "the remainder is below the total volume", 0);
    expect(is_equal(sum, due), "the river's mean is that of the means of status 0 or 1, weighted by volume", 0);
}

/* A reach without volume has its head oxygen, which is told as 0 at status 2, as any mean there is. */
static void check_mean(const struct cards *cards, const struct report *report, uint32_t reach)
{
    struct xylandreo_record r = record_at(report, reach);
    int32_t mean = xylandreo_mean_of(lent, reach);
    expect(xylandreo_tells_oxygen(&r) || mean == 0, "at status 2 the mean is 0", 0);
    expect(cards->volume[reach - 1] || mean == r.head_oxygen, "a reach without volume has its head oxygen for its mean",
           0);
}

/* The result that is due from the entry for means, by the report with a long buffer. */
static uint32_t due_of_means(const struct river *river, const struct report *report, size_t length)
{
    if (report->result != 0)
        return report->result;
    if (length < (size_t)report->reaches * XYLANDREO_MEAN_BYTES)
        return 12;
    struct cards cards = cards_of(river);
    return volumes_of(&cards, report).total == 0 ? 16 : 0;
}

/*
 * Calls the entry for means with a buffer of the given length, and checks what it wrote; the report of the river is
 * given, where it has one.
 */
static void checked_means(const struct river *river, const struct report *report, size_t length)
{
    int32_t units = 7;
    uint64_t remainder = UINT64_MAX;
    memset(memory, PATTERN, sizeof memory);
    uint32_t result = xylandreo_mean(river->bytes, river->length, lent, length, &units, &remainder);
    uint32_t reaches = result == 0 ? xylandreo_reaches(river->bytes) : 0;
    check_written(length, (size_t)reaches * XYLANDREO_MEAN_BYTES, result);
    expect(result == due_of_means(river, report, length), "means are refused as reports, then with 12 or 16", result);
    if (result != 0) {
        expect(units == 7 && remainder == UINT64_MAX, "a refused call leaves the two numbers untouched", result);
        return;
    }
    struct cards cards = cards_of(river);
    struct volumes volumes = volumes_of(&cards, report);
    check_river_mean(&volumes, reaches, units, remainder);
    for (uint32_t i = 1; i <= reaches; i++)
        check_mean(&cards, report, i);
}

/* Calls the entry for reports with a long buffer, and keeps what it gave. */
static void keep_report(const struct river *river, struct report *report)
{
    report->result = checked_call(river, XYLANDREO_MAX_REPORT);
    report->reaches = report->result == 0 ? xylandreo_reaches(river->bytes) : 0;
    report->size = xylandreo_record_size(river->bytes, river->length);
    memcpy(report->bytes, lent, sizeof report->bytes);
}

/* The file itself, with buffers of different lengths. */
static void check_file(const struct river *river)
{
    uint32_t result = checked_call(river, XYLANDREO_MAX_REPORT);
    if (result != 0) {
        expect(checked_call(river, 0) == result, "a refused river is refused alike whatever the buffer", result);
        return;
    }
    size_t needed = (size_t)xylandreo_reaches(river->bytes) * checked_size(river, result);
    expect(checked_call(river, needed) == 0, "a buffer of the report's length is long enough", result);
    expect(checked_call(river, needed - 1) == 12, "a buffer one byte too short gets 12 with reach 0", result);
    expect(checked_call(river, 0) == 12, "an empty buffer gets 12 with reach 0", result);
    struct river longer = *river;
    longer.bytes[longer.length++] = 0;
    expect(checked_call(&longer, XYLANDREO_MAX_REPORT) == 6, "a byte after the last record gets 6 with reach 0",
           result);
}

/* Its means, likewise. */
static void check_means(const struct river *river)
{
    struct report report;
    keep_report(river, &report);
    size_t needed = (size_t)report.reaches * XYLANDREO_MEAN_BYTES;
    checked_means(river, &report, XYLANDREO_MAX_MEANS);
    checked_means(river, &report, needed);
    checked_means(river, &report, needed ? needed - 1 : 0);
    checked_means(river, &report, 0);
}

/* A report with a long buffer, and the means. */
static void check_both(const struct river *river)
{
    struct report report;
    keep_report(river, &report);
    checked_means(river, &report, XYLANDREO_MAX_MEANS);
}

/* Files cut short at every length, and files with one byte changed. */
static void check_damaged(const struct river *river)
{
    struct river damaged = *river;
    for (size_t length = 0; length < river->length; length++) {
        damaged.length = length;
        check_both(&damaged);
    }
    damaged.length = river->length;
    for (size_t at = 0; at < river->length; at++) {
        damaged.bytes[at] ^= 0xff;
        check_both(&damaged);
        damaged.bytes[at] ^= 0xff;
    }
}

void check_promises(const char *path, const struct river *river)
{
    check_file(river);
    check_means(river);
    check_damaged(river);
    show_name(stdout, path);
    printf(": all promises held in %lu calls, %lu of them refused\n", calls, refusals);
}
