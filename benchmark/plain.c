/*
 * The report as a C programmer would compute it, in three ways, and the means: the benchmark's other sides. Checks
 * and records are those of xylandreo_report and xylandreo_mean, concentrations are in double precision, in units of
 * 0.000001 mg/L. The three reports differ in how they go along a reach, and in nothing else.
 */
#include <math.h>

#include "plain.h"

struct reach {
    uint32_t outlet, temperature, k1, k2, volume, inflow, inflow_bod, inflow_oxygen, load;
    int has_dam;
    uint32_t share, generating, take, pressure, sludge, kn, inflow_nitrogenous, nitrogenous_load;
    /* Worked out: flow from above, before and after the take, undecayed BOD, depth, sums of flow times the feeders'
       foot values, and whether oxygen is used up in any reach above. */
    uint64_t above, mixed, flow, mass;
    uint32_t depth, feeders;
    double bod_above, nitrogenous_above, oxygen_above;
    int used_up_above;
};

/* The status of a reach. */
enum status { ORDINARY, USED_UP, USED_UP_ABOVE };

/*
 * A river: reach i at i, where 0 takes what the last reach passes on, its rate factors, and whether the file has any
 * ammonia.
 */
struct river {
    struct reach reaches[129];
    uint32_t count, decay_factor, aeration_factor; /* the factors in thousandths, 1000 where the file has none */
    int has_ammonia;
};

static uint32_t number(const uint8_t *p, int width)
{
    uint32_t value = 0;
    while (width--)
        value = value << 8 | *p++;
    return value;
}

static void put(uint8_t *p, uint32_t value, int width)
{
    while (width--) {
        p[width] = (uint8_t)value;
        value >>= 8;
    }
}

static int follows(const uint8_t *file, size_t length, size_t at, const char *mark)
{
    return length - at >= 2 && file[at] == (uint8_t)mark[0] && file[at + 1] == (uint8_t)mark[1];
}

/* Reads the ammonia at *at where it is there, and moves *at past it. */
static uint32_t read_ammonia(const uint8_t *file, size_t length, size_t *at, struct reach *r, int *has_ammonia)
{
    if (follows(file, length, *at, "NT")) {
        if (length - *at < 16)
            return 1;
        *has_ammonia = 1;
        r->kn = number(file + *at + 2, 2);
        r->inflow_nitrogenous = number(file + *at + 4, 4);
        r->nitrogenous_load = number(file + *at + 8, 4);
        if (r->kn > 20000 || r->inflow_nitrogenous > 1000000 || number(file + *at + 12, 4) != 0)
            return 4;
        *at += 16;
    }
    return 0;
}

/* Reads the dam, the take, the pressure and the sludge bed at *at where they are there, and moves *at past them. */
static uint32_t read_added(const uint8_t *file, size_t length, size_t *at, struct reach *r)
{
    if (follows(file, length, *at, "DM")) {
        if (length - *at < 8)
            return 1;
        r->has_dam = 1;
        r->share = number(file + *at + 2, 2);
        r->generating = number(file + *at + 4, 4);
        if (r->share > 1000 || r->generating > 100000000)
            return 4;
        *at += 8;
    }
    if (follows(file, length, *at, "WD")) {
        if (length - *at < 6)
            return 1;
        r->take = number(file + *at + 2, 4);
        if (r->take > 100000000)
            return 4;
        *at += 6;
    }
    if (follows(file, length, *at, "BP")) {
        if (length - *at < 4)
            return 1;
        r->pressure = number(file + *at + 2, 2);
        if (r->pressure < 500 || r->pressure > 800)
            return 4;
        *at += 4;
    }
    if (follows(file, length, *at, "SD")) {
        if (length - *at < 4)
            return 1;
        r->sludge = number(file + *at + 2, 2);
        *at += 4;
    }
    return 0;
}

/* Reads one reach with the records that belong to it at *at, and moves *at past them. */
static uint32_t read_reach(const uint8_t *file, size_t length, size_t *at, uint32_t i, struct river *river)
{
    const uint8_t *p = file + *at;
    struct reach *r = &river->reaches[i];
    uint32_t n = river->count;
    if (length - *at < 26)
        return 1;
    if (p[0] != 'R' || p[1] != 'E')
        return 2;
    *r = (struct reach){.outlet = p[2], .temperature = p[3], .k1 = number(p + 4, 2), .k2 = number(p + 6, 2),
        .volume = number(p + 8, 4), .inflow = number(p + 12, 4), .inflow_bod = number(p + 16, 4),
        .inflow_oxygen = number(p + 20, 2), .load = number(p + 22, 4), .depth = 1};
    if (r->temperature > 35 || r->k1 > 20000 || r->k2 > 20000 || r->volume > 1000000000 || r->inflow > 100000000
        || r->inflow_bod > 1000000 || r->inflow_oxygen > 20000)
        return 4;
    if (i == n ? r->outlet != 0 : r->outlet <= i || r->outlet > n)
        return 5;
    *at += 26;
    uint32_t refusal = read_added(file, length, at, r);
    return refusal ? refusal : read_ammonia(file, length, at, r, &river->has_ammonia);
}

/* Reads the rate factors at *at where they are there, and moves *at past them. */
static uint32_t read_factors(const uint8_t *file, size_t length, size_t *at, struct river *river)
{
    river->decay_factor = river->aeration_factor = 1000;
    if (follows(file, length, *at, "TH")) {
        if (length - *at < 6)
            return 1;
        river->decay_factor = number(file + *at + 2, 2);
        river->aeration_factor = number(file + *at + 4, 2);
        if (river->decay_factor < 1000 || river->decay_factor > 1100 || river->aeration_factor < 1000
            || river->aeration_factor > 1100)
            return 4;
        *at += 6;
    }
    return 0;
}

static uint32_t read_river(const uint8_t *file, size_t length, struct river *river)
{
    if (length < 4)
        return 1;
    if (file[0] != 'R' || file[1] != 'V')
        return 2;
    river->has_ammonia = 0;
    river->count = number(file + 2, 2);
    if (river->count < 1 || river->count > 128)
        return 3;
    size_t at = 4;
    uint32_t wrong = read_factors(file, length, &at, river);
    if (wrong)
        return wrong;
    for (uint32_t i = 1; i <= river->count; i++) {
        uint32_t refusal = read_reach(file, length, &at, i, river);
        if (refusal)
            return refusal + 256 * i;
    }
    return at < length ? 6 : 0;
}

/* A rate at 20 degrees, corrected to a temperature: rounded down at each degree, as the paper has it. */
static uint32_t corrected(uint32_t rate, uint32_t factor, uint32_t temperature)
{
    uint64_t parts = 1000000ull * rate;
    for (uint32_t t = 20; t < temperature; t++)
        parts = parts * factor / 1000;
    for (uint32_t t = temperature; t < 20; t++)
        parts = parts * 1000 / factor;
    return (uint32_t)(parts / 1000000);
}

/* Puts the rates in force in place of those of the file. */
static void correct_rates(struct river *river)
{
    if (river->decay_factor == 1000 && river->aeration_factor == 1000)
        return;
    for (uint32_t i = 1; i <= river->count; i++) {
        struct reach *r = &river->reaches[i];
        r->k1 = corrected(r->k1, river->decay_factor, r->temperature);
        r->kn = corrected(r->kn, river->decay_factor, r->temperature);
        r->k2 = corrected(r->k2, river->aeration_factor, r->temperature);
    }
}

static uint32_t check_flows(struct reach *reaches, uint32_t n)
{
    for (uint32_t i = 1; i <= n; i++) {
        struct reach *r = &reaches[i];
        uint64_t k = r->k1 > r->k2 ? r->k1 : r->k2;
        if (k < r->kn)
            k = r->kn;
        r->mixed = r->above + r->inflow;
        r->mass += (uint64_t)r->inflow * (r->inflow_bod + r->inflow_nitrogenous);
        r->mass += 1000ull * r->load + 1000ull * r->nitrogenous_load;
        if (r->mixed == 0)
            return 7 + 256 * i;
        if (r->mixed > 100000000)
            return 8 + 256 * i;
        if (r->has_dam && (r->feeders == 0 || r->generating > r->above))
            return 9 + 256 * i;
        if (r->mass > 1000000 * r->mixed)
            return 10 + 256 * i;
        if (r->take >= r->mixed)
            return 13 + 256 * i;
        if (k > 20000)
            return 15 + 256 * i;
        r->flow = r->mixed - r->take;
        r->mass -= r->take * (r->mass / r->mixed);
        if (r->mass > 1000000 * r->flow)
            r->mass = 1000000 * r->flow;
        if (k * r->volume > 345600 * r->flow)
            return 11 + 256 * i;
        if ((uint64_t)r->sludge * r->volume > 432000 * r->flow)
            return 14 + 256 * i;
        if (r->outlet) {
            struct reach *next = &reaches[r->outlet];
            next->above += r->flow;
            next->mass += r->mass;
            next->feeders++;
            if (next->depth <= r->depth)
                next->depth = r->depth + 1;
        }
    }
    return 0;
}

/* BOD, nitrogenous BOD and oxygen of the water at one place. */
struct water {
    double bod, nitrogenous, oxygen;
};

/*
 * What a way along a reach starts from: x1, xn and x2 are the paper's, ratio is x1 / (x2 - x1) and ratio_n the same of
 * xn, 0 for equal rates. With surface aeration a sludge bed is a saturation lower by its demand over k2, so that it
 * costs nothing on the way; without, fall is what it uses down to the foot, in equal parts.
 */
struct head {
    struct water water;
    double saturation, x1, xn, x2, ratio, ratio_n, fall;
};

/* What it gives: the water at the foot, the lowest oxygen, and the instant of that. */
struct course {
    struct water foot;
    double lowest;
    uint32_t instant;
};

typedef struct course way(const struct head *h);

/* The share of a demand that has turned to deficit, where its S and that of the deficit are s1 and s2. */
static inline double turned(double x1, double x2, double ratio, double part, double s1, double s2)
{
    return x1 == x2 ? x1 * part * s1 : ratio * (s1 - s2);
}

/* The water after a part of the travel time, by the formulas, where ammonia is nitrified or not. */
static inline struct water water_at(const struct head *h, double part, int nitrifies)
{
    double s1 = exp(-h->x1 * part), s2 = exp(-h->x2 * part), sn = 1;
    double deficit = s2 * (h->saturation - h->water.oxygen);
    deficit += turned(h->x1, h->x2, h->ratio, part, s1, s2) * h->water.bod;
    if (nitrifies) {
        sn = exp(-h->xn * part);
        deficit += turned(h->xn, h->x2, h->ratio_n, part, sn, s2) * h->water.nitrogenous;
    }
    return (struct water){h->water.bod * s1, h->water.nitrogenous * sn, h->saturation - deficit};
}

/* The water at the foot. */
static inline struct water foot_of(const struct head *h)
{
    struct water foot = water_at(h, 1, h->xn > 0);
    foot.oxygen -= h->fall;
    return foot;
}

/*
 * The formulas at every instant, for a reach where oxygen falls by a bed without surface aeration and for any other,
 * and where ammonia is nitrified and not.
 */
static inline __attribute__((always_inline)) struct course exp_along(const struct head *h, int falls, int nitrifies)
{
    struct course c = {h->water, h->water.oxygen, 0};
    for (uint32_t m = 1; m <= 1024; m++) {
        c.foot = water_at(h, m / 1024.0, nitrifies);
        if (falls)
            c.foot.oxygen -= h->fall * (m / 1024.0);
        if (c.foot.oxygen < c.lowest) {
            c.lowest = c.foot.oxygen;
            c.instant = m;
        }
    }
    return c;
}

static struct course by_exp(const struct head *h)
{
    if (h->xn > 0)
        return h->fall > 0 ? exp_along(h, 1, 1) : exp_along(h, 0, 1);
    return h->fall > 0 ? exp_along(h, 1, 0) : exp_along(h, 0, 0);
}

/*
 * The deficit that one step makes of a demand: y1 / (y2 - y1) * (s1 - s2), written so that no digits are lost as the
 * rates nearly meet.
 */
static inline double turned_in_step(double y1, double y2)
{
    double apart = y1 - y2;
    return y1 * exp(-y1) * (apart == 0 ? 1 : expm1(apart) / apart);
}

/*
 * The deficit stepped from instant to instant by multiplication, with no exp() in the loop. Over what is left of a head
 * deficit it is a sum whose terms, one for each demand, grow by s1 / s2 a step, so that each step waits for one product
 * of the step before. The deficit of a bed is added step by step only without surface aeration, where all of it is
 * left.
 */
static inline __attribute__((always_inline)) struct course
stepped_along(const struct head *h, int falls, int nitrifies)
{
    double y1 = h->x1 / 1024, yn = h->xn / 1024, y2 = h->x2 / 1024;
    double s2 = exp(-y2), growth = exp(y2 - y1), growth_n = exp(y2 - yn);
    double left = 1, sum = h->saturation - h->water.oxygen, term = turned_in_step(y1, y2) / s2 * h->water.bod;
    double term_n = turned_in_step(yn, y2) / s2 * h->water.nitrogenous, deficit = sum, largest = sum;
    uint32_t instant = 0;
    for (uint32_t m = 1; m <= 1024; m++) {
        double made = falls ? term + h->fall / 1024 : term;
        if (nitrifies) {
            made += term_n;
            term_n *= growth_n;
        }
        sum += made;
        term *= growth;
        left *= s2;
        deficit = sum * left;
        if (deficit > largest) {
            largest = deficit;
            instant = m;
        }
    }
    struct water foot = {h->water.bod * exp(-h->x1), h->water.nitrogenous * exp(-h->xn), h->saturation - deficit};
    return (struct course){foot, h->saturation - largest, instant};
}

static struct course stepped(const struct head *h)
{
    if (h->xn > 0)
        return h->fall > 0 ? stepped_along(h, 1, 1) : stepped_along(h, 0, 1);
    return h->fall > 0 ? stepped_along(h, 1, 0) : stepped_along(h, 0, 0);
}

/*
 * The part of the travel time after which oxygen is lowest, as textbooks give it for one demand. Where that does not
 * lie between head and foot, the result is not between 0 and 1: it may be infinite or no number.
 */
static double critical_part(const struct head *h)
{
    double deficit = h->saturation - h->water.oxygen, apart = h->x2 - h->x1;
    if (apart == 0)
        return (1 - deficit / h->water.bod) / h->x1;
    return log(h->x2 / h->x1 * (1 - deficit * apart / (h->x1 * h->water.bod))) / apart;
}

/* How fast oxygen falls after a part of the travel time: what both demands use there, less what aeration brings in. */
static double falling(const struct head *h, double part)
{
    struct water w = water_at(h, part, 1);
    return h->x1 * w.bod + h->xn * w.nitrogenous - h->x2 * (h->saturation - w.oxygen);
}

/*
 * The part of the travel time at which both demands and aeration are even, by halving; 0 where oxygen does not fall at
 * the head and rise at the foot.
 */
static double even_part(const struct head *h)
{
    double low = 0, high = 1;
    if (h->x2 == 0 || falling(h, 0) <= 0 || falling(h, 1) >= 0)
        return 0;
    for (int i = 0; i < 20; i++) {
        double middle = (low + high) / 2;
        if (falling(h, middle) > 0)
            low = middle;
        else
            high = middle;
    }
    return low;
}

/*
 * Foot and critical point in closed form, or by halving where ammonia is nitrified. This answers a slightly different
 * question: the lowest oxygen is that at the critical time itself, not the lowest of 1,025 values, and the instant is
 * that time to the nearest 1024th. Without surface aeration there is no critical time, with a bed or without one, and
 * the lowest oxygen is at the foot.
 */
static struct course closed(const struct head *h)
{
    int nitrifies = h->xn > 0;
    struct course c = {foot_of(h), h->water.oxygen, 0};
    double part = nitrifies ? even_part(h) : critical_part(h);
    if (part > 0 && part < 1) { /* false for no number */
        double deficit = h->x1 / h->x2 * h->water.bod * exp(-h->x1 * part);
        c.lowest = nitrifies ? water_at(h, part, 1).oxygen : h->saturation - deficit;
        c.instant = (uint32_t)(1024 * part + 0.5);
    } else if (c.foot.oxygen < c.lowest) {
        c.lowest = c.foot.oxygen;
        c.instant = 1024;
    }
    return c;
}

static struct head head_of(const struct reach *r)
{
    double t = r->temperature, above = (double)r->above, mixed = (double)r->mixed, flow = (double)r->flow;
    double saturation = 1e6 * (14.652 - 0.41022 * t + 0.007991 * t * t - 0.000077774 * t * t * t);
    double bod = 0, nitrogenous = 0, oxygen = 0;
    if (r->pressure)
        saturation *= r->pressure / 760.0;
    if (r->feeders) {
        bod = r->bod_above / above;
        nitrogenous = r->nitrogenous_above / above;
        oxygen = r->oxygen_above / above;
        if (r->has_dam)
            oxygen += (saturation - oxygen) * r->share * (above - r->generating) / (1000 * above);
    }
    bod = (above * bod + 1e3 * r->inflow * r->inflow_bod + 1e6 * r->load) / mixed;
    nitrogenous = (above * nitrogenous + 1e3 * r->inflow * r->inflow_nitrogenous + 1e6 * r->nitrogenous_load) / mixed;
    oxygen = (above * oxygen + 1e3 * r->inflow * r->inflow_oxygen) / mixed;

    double days = r->volume / (86400 * flow), x1 = r->k1 * days, xn = r->kn * days, x2 = r->k2 * days, fall = 0;
    if (r->sludge && r->k2)
        saturation -= 1e6 * r->sludge / r->k2;
    else if (r->sludge)
        fall = 1e6 * r->sludge * days;
    return (struct head){{bod, nitrogenous, oxygen}, saturation, x1, xn, x2, x1 == x2 ? 0 : x1 / (x2 - x1),
        xn == x2 ? 0 : xn / (x2 - xn), fall};
}

/* The status of a reach with this lowest oxygen, which is reported rounded down. */
static inline enum status status_of(const struct reach *r, double lowest)
{
    if (r->used_up_above)
        return USED_UP_ABOVE;
    return lowest < 0 ? USED_UP : ORDINARY;
}

static void put_oxygen(uint8_t *p, double oxygen)
{
    put(p, (uint32_t)(int32_t)floor(oxygen), 4);
}

/* Below a reach whose oxygen is used up, the figures of oxygen and the instant are 0. */
static void write_record(const struct reach *r, const struct head *h, const struct course *c, enum status status,
                         uint8_t *record)
{
    int told = status != USED_UP_ABOVE;
    record[0] = 'R';
    record[1] = 'P';
    record[2] = (uint8_t)r->depth;
    put(record + 3, (uint32_t)r->flow, 4);
    put(record + 7, (uint32_t)h->water.bod, 4);
    put(record + 11, (uint32_t)c->foot.bod, 4);
    put_oxygen(record + 15, told ? h->water.oxygen : 0);
    put(record + 19, told ? c->instant : 0, 2);
    put_oxygen(record + 21, told ? c->lowest : 0);
    put_oxygen(record + 25, told ? c->foot.oxygen : 0);
    record[29] = (uint8_t)status;
}

/* The record that follows in a file with ammonia. */
static void write_nitrogenous(const struct head *h, const struct course *c, uint8_t *record)
{
    record[0] = 'R';
    record[1] = 'N';
    put(record + 2, (uint32_t)h->water.nitrogenous, 4);
    put(record + 6, (uint32_t)c->foot.nitrogenous, 4);
}

/* How many bytes each reach has in the report: an RP record, and the RN record that may follow. */
enum { RP_BYTES = 30, RN_BYTES = 10 };

static size_t record_size(const struct river *river)
{
    return river->has_ammonia ? RP_BYTES + RN_BYTES : RP_BYTES;
}

/* Reads and checks the river file. */
static uint32_t accept(const uint8_t *file, size_t file_len, struct river *river)
{
    uint32_t refusal = read_river(file, file_len, river);
    if (refusal)
        return refusal;
    correct_rates(river);
    river->reaches[0].bod_above = river->reaches[0].nitrogenous_above = river->reaches[0].oxygen_above = 0;
    return check_flows(river->reaches, river->count);
}

/* What the water at the foot of a reach brings to the next. Oxygen is carried on whatever the status. */
static inline void pass_on(struct river *river, const struct reach *r, const struct water *foot, enum status status)
{
    struct reach *next = &river->reaches[r->outlet];
    next->bod_above += (double)r->flow * foot->bod;
    next->nitrogenous_above += (double)r->flow * foot->nitrogenous;
    next->oxygen_above += (double)r->flow * foot->oxygen;
    if (status != ORDINARY)
        next->used_up_above = 1;
}

/* The report with one of the ways along a reach. It is inlined, so that each entry below is compiled for its own way. */
static inline __attribute__((always_inline)) uint32_t
report_by(way *along, const uint8_t *file, size_t file_len, uint8_t *report, size_t report_len)
{
    struct river river;
    uint32_t refusal = accept(file, file_len, &river);
    if (refusal)
        return refusal;
    if (report_len < record_size(&river) * river.count)
        return 12;
    for (uint32_t i = 1; i <= river.count; i++) {
        struct reach *r = &river.reaches[i];
        struct head h = head_of(r);
        struct course c = along(&h);
        enum status status = status_of(r, c.lowest);
        uint8_t *record = report + record_size(&river) * (i - 1);
        pass_on(&river, r, &c.foot, status);
        write_record(r, &h, &c, status, record);
        if (river.has_ammonia)
            write_nitrogenous(&h, &c, record + RP_BYTES);
    }
    return 0;
}

uint32_t exp_report(const uint8_t *file, size_t file_len, uint8_t *report, size_t report_len)
{
    return report_by(by_exp, file, file_len, report, report_len);
}

uint32_t stepped_report(const uint8_t *file, size_t file_len, uint8_t *report, size_t report_len)
{
    return report_by(stepped, file, file_len, report, report_len);
}

uint32_t closed_report(const uint8_t *file, size_t file_len, uint8_t *report, size_t report_len)
{
    return report_by(closed, file, file_len, report, report_len);
}

/* The mean of exp(-x u) over u from 0 to 1. */
static double mean_kept(double x)
{
    return x == 0 ? 1 : -expm1(-x) / x;
}

/* The mean of turned(x1, x2, ratio, u, exp(-x1 u), exp(-x2 u)). */
static double mean_turned(double x1, double x2, double ratio)
{
    return x1 == x2 ? mean_kept(x1) - exp(-x1) : ratio * (mean_kept(x1) - mean_kept(x2));
}

/* The mean oxygen of a reach over its travel time, from the integrals of the formulas. */
static double mean_oxygen(const struct head *h)
{
    double deficit = mean_kept(h->x2) * (h->saturation - h->water.oxygen);
    deficit += mean_turned(h->x1, h->x2, h->ratio) * h->water.bod;
    if (h->xn > 0)
        deficit += mean_turned(h->xn, h->x2, h->ratio_n) * h->water.nitrogenous;
    return h->saturation - deficit - h->fall / 2;
}

/*
 * The lowest oxygen of the 1,025 instants without a loop over them: that at one of the two beside the critical time, or
 * at head or foot where that time does not lie between them.
 */
static double lowest_oxygen(const struct head *h, const struct water *foot)
{
    int nitrifies = h->xn > 0;
    double part = nitrifies ? even_part(h) : critical_part(h);
    if (!(part > 0 && part < 1)) /* true for no number */
        return fmin(h->water.oxygen, foot->oxygen);
    double before = floor(1024 * part) / 1024;
    return fmin(water_at(h, before, nitrifies).oxygen, water_at(h, before + 1 / 1024.0, nitrifies).oxygen);
}

/* The means of the reaches, and of those of status 0 or 1 the volume and the sum of volume times mean. */
struct averages {
    int32_t of[129];
    __int128 volume, sum;
};

static void average(struct river *river, struct averages *averages)
{
    averages->volume = averages->sum = 0;
    for (uint32_t i = 1; i <= river->count; i++) {
        struct reach *r = &river->reaches[i];
        struct head h = head_of(r);
        struct water foot = foot_of(&h);
        enum status status = status_of(r, lowest_oxygen(&h, &foot));
        pass_on(river, r, &foot, status);
        averages->of[i] = 0;
        if (status == USED_UP_ABOVE)
            continue;
        averages->of[i] = (int32_t)floor(mean_oxygen(&h));
        averages->volume += r->volume;
        averages->sum += (__int128)r->volume * averages->of[i];
    }
}

uint32_t plain_mean(const uint8_t *file, size_t file_len, uint8_t *means, size_t means_len, int32_t *units,
                    uint64_t *remainder)
{
    struct river river;
    struct averages averages;
    uint32_t refusal = accept(file, file_len, &river);
    if (refusal)
        return refusal;
    if (means_len < 4 * (size_t)river.count)
        return 12;
    average(&river, &averages);
    if (averages.volume == 0)
        return 16;
    for (uint32_t i = 1; i <= river.count; i++)
        put(means + 4 * (i - 1), (uint32_t)averages.of[i], 4);
    *units = (int32_t)(averages.sum / averages.volume - (averages.sum % averages.volume < 0));
    *remainder = (uint64_t)(averages.sum - *units * averages.volume);
    return 0;
}
