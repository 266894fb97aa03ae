/*
 * River oxygen reports for C and C++. Link with target/staticlib/libreport.a, which `scripts/build archive`
 * makes; display/ has two programs over it, and scripts/build the command that compiles them.
 *
 * The four entries come first. Below them are the reasons of refusals, the table of all records of a river
 * file (xylandreo_kinds), and readers for the records of a report and for means.
 */
#ifndef XYLANDREO_H
#define XYLANDREO_H

#include <stddef.h>
#include <stdint.h>

#ifdef __cplusplus
extern "C" {
#endif

#define XYLANDREO_MAX_REACHES 128

/* Bytes of each record: of a river file, and last of a report, XYLANDREO_RECORD of an RP and the other of an RN. */
#define XYLANDREO_RV_BYTES 4
#define XYLANDREO_TH_BYTES 6
#define XYLANDREO_RE_BYTES 26
#define XYLANDREO_DM_BYTES 8
#define XYLANDREO_WD_BYTES 6
#define XYLANDREO_BP_BYTES 4
#define XYLANDREO_SD_BYTES 4
#define XYLANDREO_NT_BYTES 16
#define XYLANDREO_RECORD 30
#define XYLANDREO_RN_BYTES 10

/* Bytes of the longest river file, with rate factors and every record for every reach, and of the longest report. */
#define XYLANDREO_MAX_FILE                                                                         \
    (XYLANDREO_RV_BYTES + XYLANDREO_TH_BYTES +                                                     \
     XYLANDREO_MAX_REACHES * (XYLANDREO_RE_BYTES + XYLANDREO_DM_BYTES + XYLANDREO_WD_BYTES +       \
                              XYLANDREO_BP_BYTES + XYLANDREO_SD_BYTES + XYLANDREO_NT_BYTES))
#define XYLANDREO_MAX_REPORT (XYLANDREO_MAX_REACHES * (XYLANDREO_RECORD + XYLANDREO_RN_BYTES))

/* Bytes of the mean of a reach, and of the means of the largest river. */
#define XYLANDREO_MEAN_BYTES 4
#define XYLANDREO_MAX_MEANS (XYLANDREO_MAX_REACHES * XYLANDREO_MEAN_BYTES)

/*
 * Reads the river file file[0 .. file_len), checks its flows and writes for each of its n reaches, in the
 * order of the file, an RP record and, in a file with any NT record, an RN record after it, to the start of
 * report[0 .. report_len).
 *
 * The result is 0 exactly for an accepted river whose report the buffer can hold, xylandreo_record_size(..) * n
 * bytes. Otherwise it is number + 256 * reach, with the number of the refusal (xylandreo_reason below)
 * and the reach, counted from 1, where it was met; reach is 0 for the header, the rate factors and for 6 and 12.
 *
 * A refused call writes nothing. Bytes past the report keep their contents. Every call ends. Nothing is
 * kept between calls, so calls on different buffers may run at the same time.
 * Neither pointer may be null, even for a length of 0, and the buffers may not overlap.
 */
uint32_t xylandreo_report(const uint8_t *file, size_t file_len, uint8_t *report, size_t report_len);

/*
 * How many bytes each reach has in the report of a file: XYLANDREO_RECORD, and XYLANDREO_RN_BYTES more where the
 * file has an NT record, of zeros too; 0 for a file that reading refuses. The flow check plays no part, and
 * pointer and length are as for xylandreo_report. XYLANDREO_MAX_REPORT bytes hold any report.
 */
uint32_t xylandreo_record_size(const uint8_t *file, size_t file_len);

/*
 * Reads the river file file[0 .. file_len), checks its flows and writes for each of its n reaches, in the
 * order of the file, its mean oxygen over the travel time to the start of means[0 .. means_len), in units of
 * 0.000001 mg/L: XYLANDREO_MEAN_BYTES bytes each, two's complement, high byte first (xylandreo_mean_of reads
 * them). A reach whose status is 2 in the report has 0 for its mean; any other with volume 0 has its head oxygen.
 * In *units and *remainder it leaves the mean of these means weighted by volume, with the volumes of status 2 left
 * out: *units times the total volume plus *remainder is the sum of volume times mean, both over the reaches of status
 * 0 or 1. *remainder is from 0 to that total volume less 1, so that *units is rounded down, also below zero.
 *
 * The result is 0 exactly for an accepted river that has volume of status 0 or 1 and whose means the buffer can hold,
 * XYLANDREO_MEAN_BYTES * n bytes. Otherwise it is number + 256 * reach: a refusal of reading or of the flow
 * check, as from xylandreo_report, then 12 for a shorter buffer, then 16 where there is no volume of status 0 or 1,
 * both with reach 0.
 *
 * A refused call writes nothing, neither to the buffer nor to the two numbers. Bytes past the means keep their
 * contents. No pointer may be null, the two numbers included; numbers and buffers may not overlap. Every call
 * ends, and nothing is kept between calls.
 */
uint32_t xylandreo_mean(const uint8_t *file, size_t file_len, uint8_t *means, size_t means_len, int32_t *units,
                        uint64_t *remainder);

/*
 * Reads the river file file[0 .. file_len) and writes the river that it read to the start of
 * out[0 .. out_len): by proof the same bytes, since a river has one file.
 *
 * The result is number + 256 * reach where reading refuses, 12 where the buffer is shorter than the file,
 * and 0 otherwise. The flow check plays no part: a river whose flows are refused is written all the same.
 * A refused call writes nothing, bytes past the file keep their contents, and pointers and buffers are as
 * for xylandreo_report.
 */
uint32_t xylandreo_rewrite(const uint8_t *file, size_t file_len, uint8_t *out, size_t out_len);

#ifdef __cplusplus
}
#endif

/* The number of a result: 0, or why the call was refused. */
static inline uint32_t xylandreo_number(uint32_t result)
{
    return result % 256;
}

/* The reach of a result, 0 where it belongs to no reach. */
static inline uint32_t xylandreo_reach(uint32_t result)
{
    return result / 256;
}

/*
 * What a number means; 1 to 6 are refusals of reading. 10 tests the undecayed BOD, nitrogenous BOD included: all
 * that has entered the reach and those above it as if nothing had decayed, less what takes draw off, so a river can
 * be refused with 10 though BOD at the head would be far lower. 7, 8, 10 and 13 go by the flow before the reach's own
 * take, 11 and 14 by the flow after it. 11 and 15 go by the rates in force: those of the file or, in a file with a TH
 * record, these corrected from 20 degrees to the temperature of the reach. 14 tests what the bed uses on the way,
 * whether or not air makes up for it. 16 is given by xylandreo_mean alone; such a river has a report. It goes by the
 * volumes of status 0 or 1, as the mean of the river does. The script `run` takes its reasons from these lines.
 */
static inline const char *xylandreo_reason(uint32_t number)
{
    static const char *const reasons[] = {
        "accepted",
        "fewer bytes remain than the record needs",
        "the mark RV or RE is not where it is due",
        "the count of reaches is not from 1 to 128",
        "a field is out of range",
        "the outlet is wrong",
        "bytes remain after the last record",
        "the reach has no flow",
        "the flow is above 100,000,000 L/s",
        "a dam without feeders, or one that generates with more than the flow from above",
        "all BOD of both kinds that entered down to here and was not drawn off, undecayed, is above 1,000 mg/L",
        "the reach is too long for its rates and must be split",
        "the buffer is too short",
        "the take is not below the flow at the head",
        "the reach is too long for its sludge bed, which uses more than 5 mg/L, and must be split",
        "a rate, corrected to the temperature of the reach, is above 20 per day",
        "the river has no volume of status 0 or 1, and so no mean",
    };
    return number < sizeof reasons / sizeof *reasons ? reasons[number] : "unknown";
}

/* A field of a record of a river file: a whole number, high byte first, unsigned. */
struct xylandreo_field {
    const char *name;
    uint8_t at;    /* bytes before it in its record, the two of the mark included */
    uint8_t bytes; /* its width */
    uint64_t lowest, highest;
    const char *unit;
};

#define XYLANDREO_MAX_FIELDS 9

/* A kind of record. Its fields end at the first without a name. */
struct xylandreo_kind {
    const char *mark;
    uint8_t bytes;
    uint8_t of_reach; /* 0 for a record of the header, 1 for one of a reach */
    struct xylandreo_field fields[XYLANDREO_MAX_FIELDS + 1];
};

/*
 * The records in the order of the file. RV is due once and RE once for each reach; any other may stand
 * after those of its header or reach that are above it here, at most once.
 * The lawful outlets depend on the reach, so a wrong one is refused with 5 and its range here is its width.
 * The count of reaches is refused with 3; any other field out of range with 4.
 */
static const struct xylandreo_kind xylandreo_kinds[] = {
    {"RV", XYLANDREO_RV_BYTES, 0, {
        {"count", 2, 2, 1, XYLANDREO_MAX_REACHES, "reaches"},
    }},
    {"TH", XYLANDREO_TH_BYTES, 0, {
        {"decay factor", 2, 2, 1000, 1100, "thousandths"},
        {"aeration factor", 4, 2, 1000, 1100, "thousandths"},
    }},
    {"RE", XYLANDREO_RE_BYTES, 1, {
        {"outlet", 2, 1, 0, 255, "the number of a reach"},
        {"temperature", 3, 1, 0, 35, "degrees C"},
        {"k1", 4, 2, 0, 20000, "thousandths per day"},
        {"k2", 6, 2, 0, 20000, "thousandths per day"},
        {"volume", 8, 4, 0, 1000000000, "m3"},
        {"inflow", 12, 4, 0, 100000000, "L/s"},
        {"inflow BOD", 16, 4, 0, 1000000, "thousandths of mg/L"},
        {"inflow oxygen", 20, 2, 0, 20000, "thousandths of mg/L"},
        {"load", 22, 4, 0, 4294967295u, "mg/s"},
    }},
    {"DM", XYLANDREO_DM_BYTES, 1, {
        {"aeration share", 2, 2, 0, 1000, "thousandths"},
        {"generating flow", 4, 4, 0, 100000000, "L/s"},
    }},
    {"WD", XYLANDREO_WD_BYTES, 1, {
        {"take", 2, 4, 0, 100000000, "L/s"},
    }},
    {"BP", XYLANDREO_BP_BYTES, 1, {
        {"pressure", 2, 2, 500, 800, "mm of mercury"},
    }},
    {"SD", XYLANDREO_SD_BYTES, 1, {
        {"sludge demand", 2, 2, 0, 65535, "thousandths of mg/L a day"},
    }},
    {"NT", XYLANDREO_NT_BYTES, 1, {
        {"kn", 2, 2, 0, 20000, "thousandths per day"},
        {"inflow nitrogenous BOD", 4, 4, 0, 1000000, "thousandths of mg/L"},
        {"nitrogenous load", 8, 4, 0, 4294967295u, "mg/s"},
        {"last number", 12, 4, 0, 0, ""},
    }},
};

/* The number that stands in a field of a record. */
static inline uint64_t xylandreo_value(const uint8_t *record, const struct xylandreo_field *field)
{
    uint64_t value = 0;
    for (size_t i = 0; i < field->bytes; i++)
        value = value << 8 | record[field->at + i];
    return value;
}

/*
 * Which field a refusal with 4 or 5 is about, the number that stands there and the lawful range. The field
 * is null where there is none.
 */
struct xylandreo_fault {
    const struct xylandreo_field *field;
    uint64_t value, lowest, highest;
};

/* The first field of a record that is out of its range. */
static inline struct xylandreo_fault xylandreo_fault_in(const uint8_t *record, const struct xylandreo_kind *kind)
{
    struct xylandreo_fault fault = {NULL, 0, 0, 0};
    for (size_t i = 0; kind->fields[i].name; i++) {
        uint64_t value = xylandreo_value(record, &kind->fields[i]);
        if (value < kind->fields[i].lowest || value > kind->fields[i].highest) {
            fault.field = &kind->fields[i];
            fault.value = value;
            fault.lowest = kind->fields[i].lowest;
            fault.highest = kind->fields[i].highest;
            break;
        }
    }
    return fault;
}

/*
 * Goes over the records that begin at file[at] and belong to the header (of_reach 0) or to one reach
 * (of_reach 1). Returns where they end, and leaves in *fault the first field out of range among them.
 */
static inline size_t xylandreo_pass(const uint8_t *file, size_t file_len, size_t at, int of_reach,
                                    struct xylandreo_fault *fault)
{
    fault->field = NULL;
    for (size_t i = 0; i < sizeof xylandreo_kinds / sizeof *xylandreo_kinds; i++) {
        const struct xylandreo_kind *kind = &xylandreo_kinds[i];
        if (kind->of_reach != of_reach || file_len - at < kind->bytes)
            continue;
        if (file[at] != (uint8_t)kind->mark[0] || file[at + 1] != (uint8_t)kind->mark[1])
            continue;
        if (!fault->field)
            *fault = xylandreo_fault_in(file + at, kind);
        at += kind->bytes;
    }
    return at;
}

/* The count of reaches of a river file, accepted or refused at a reach. */
static inline uint32_t xylandreo_reaches(const uint8_t *file)
{
    return (uint32_t)file[2] << 8 | file[3];
}

/* The outlet in the record of a reach, counted from 1. The last reach has 0, another a reach after it. */
static inline struct xylandreo_fault xylandreo_outlet_fault(const uint8_t *record, uint32_t reach, uint32_t count)
{
    const struct xylandreo_field *outlet = &xylandreo_kinds[2].fields[0]; /* of RE */
    struct xylandreo_fault fault = {outlet, xylandreo_value(record, outlet), 0, 0};
    if (reach < count) {
        fault.lowest = reach + 1;
        fault.highest = count;
    }
    return fault;
}

/*
 * The field that a result is about: with number 4 the first out of range among the records of its reach, or of
 * the header for reach 0, with 5 the outlet.
 */
static inline struct xylandreo_fault xylandreo_fault_of(const uint8_t *file, size_t file_len, uint32_t result)
{
    struct xylandreo_fault fault;
    uint32_t number = xylandreo_number(result), last = xylandreo_reach(result);
    size_t at = xylandreo_pass(file, file_len, 0, 0, &fault), start = 0;
    for (uint32_t reach = 1; reach <= last; reach++) {
        start = at;
        at = xylandreo_pass(file, file_len, at, 1, &fault);
    }
    if (number != 4)
        fault.field = NULL;
    if (number == 5 && file_len - start >= XYLANDREO_RE_BYTES)
        fault = xylandreo_outlet_fault(file + start, last, xylandreo_reaches(file));
    return fault;
}

/*
 * The status of a reach. It is 2 where any reach above, its feeders, their feeders and so on, has status 1 or 2; else 1
 * where the lowest oxygen of its record is below zero; else 0. At status 2 the three oxygen figures and the instant are
 * blank, which is to say 0, and so is the mean; depth, flow and both kinds of BOD are told as at any other reach.
 */
#define XYLANDREO_ORDINARY 0
#define XYLANDREO_USED_UP 1
#define XYLANDREO_USED_UP_ABOVE 2

/*
 * What a report has for a reach, xylandreo_record_size(..) bytes, whole numbers high byte first:
 *
 *   at  bytes
 *    0    2   mark, "RP"
 *    2    1   depth: reaches on the longest way down to this one, itself included
 *    3    4   flow after any take, L/s
 *    7    4   BOD at the head
 *   11    4   BOD at the foot
 *   15    4   oxygen at the head, two's complement
 *   19    2   instant of the lowest oxygen: 1024ths of the travel time, 0 at the head, 1024 at the foot
 *   21    4   lowest oxygen, two's complement
 *   25    4   oxygen at the foot, two's complement
 *   29    1   status: XYLANDREO_ORDINARY, XYLANDREO_USED_UP or XYLANDREO_USED_UP_ABOVE
 *
 * and in the report of a file with an NT record
 *
 *   30    2   mark, "RN"
 *   32    4   nitrogenous BOD at the head
 *   36    4   nitrogenous BOD at the foot
 *
 * Concentrations are in units of 0.000001 mg/L. BOD and nitrogenous BOD are together at most 1,000 mg/L; oxygen may
 * lie below zero, and is from XYLANDREO_MIN_OXYGEN to XYLANDREO_MAX_OXYGEN.
 * The promised distance from the exact figures covers BOD and nitrogenous BOD at every reach, and oxygen where the
 * status is 0 or 1.
 */
struct xylandreo_record {
    uint8_t depth;
    uint32_t flow;
    uint32_t head_bod;
    uint32_t foot_bod;
    int32_t head_oxygen;
    uint16_t critical_instant;
    int32_t critical_oxygen;
    int32_t foot_oxygen;
    uint8_t status;
    uint32_t head_nitrogenous; /* both 0 where the report has no RN records */
    uint32_t foot_nitrogenous;
};

#define XYLANDREO_UNITS 1000000 /* of one mg/L */
#define XYLANDREO_INSTANTS 1024 /* of the travel time of a reach */

/* Bounds of all reported figures and means, in units: BOD and nitrogenous BOD together, from 0, and oxygen. */
#define XYLANDREO_MAX_BOD 1000000000
#define XYLANDREO_MIN_OXYGEN (-1640000384)
#define XYLANDREO_MAX_OXYGEN 20000128

/* Four bytes, high byte first, unsigned. */
static inline uint32_t xylandreo_unsigned(const uint8_t *p)
{
    return (uint32_t)p[0] << 24 | (uint32_t)p[1] << 16 | (uint32_t)p[2] << 8 | p[3];
}

/* Four bytes, high byte first, two's complement. */
static inline int32_t xylandreo_signed(const uint8_t *p)
{
    uint32_t value = xylandreo_unsigned(p);
    return value < 0x80000000u ? (int32_t)value : -(int32_t)(0xffffffffu - value) - 1;
}

/*
 * What a report whose result was 0 has for a reach, counted from 1. The size is xylandreo_record_size(..) of its
 * file.
 */
static inline struct xylandreo_record xylandreo_record_of(const uint8_t *report, uint32_t size, uint32_t reach)
{
    const uint8_t *p = report + (size_t)(reach - 1) * size;
    int nitrogenous = size > XYLANDREO_RECORD;
    struct xylandreo_record record;
    record.depth = p[2];
    record.flow = xylandreo_unsigned(p + 3);
    record.head_bod = xylandreo_unsigned(p + 7);
    record.foot_bod = xylandreo_unsigned(p + 11);
    record.head_oxygen = xylandreo_signed(p + 15);
    record.critical_instant = (uint16_t)(p[19] << 8 | p[20]);
    record.critical_oxygen = xylandreo_signed(p + 21);
    record.foot_oxygen = xylandreo_signed(p + 25);
    record.status = p[29];
    record.head_nitrogenous = nitrogenous ? xylandreo_unsigned(p + XYLANDREO_RECORD + 2) : 0;
    record.foot_nitrogenous = nitrogenous ? xylandreo_unsigned(p + XYLANDREO_RECORD + 6) : 0;
    return record;
}

/* Whether a record tells the oxygen of its reach, which it does at status 0 and 1. */
static inline int xylandreo_tells_oxygen(const struct xylandreo_record *record)
{
    return record->status != XYLANDREO_USED_UP_ABOVE;
}

/*
 * The mean oxygen of a reach, counted from 1, in units, from means whose result was 0. It may lie below zero; it is 0
 * at status 2, which only the report tells.
 */
static inline int32_t xylandreo_mean_of(const uint8_t *means, uint32_t reach)
{
    return xylandreo_signed(means + (size_t)(reach - 1) * XYLANDREO_MEAN_BYTES);
}

#endif
