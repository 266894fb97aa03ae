/* What the desk's programs share: loading a river file, and figures, lines and refusals as text. */
#ifndef DESK_H
#define DESK_H

#include <stdio.h>

#include "xylandreo.h"

/* Exit statuses. A program ends with the worst of its files. */
enum { ACCEPTED = 0, REFUSED = 1, BAD_USE = 2 };

/*
 * A file, one byte past the longest lawful length at most: a longer one is cut there, which keeps its
 * refusal, since no record reaches so far. The other byte is for a check to append.
 */
struct river {
    uint8_t bytes[XYLANDREO_MAX_FILE + 2];
    size_t length;
};

/* Reads a river file. Returns 0, or the errno of what went wrong. */
int load_river(const char *path, struct river *river);

/* Says on standard error what is wrong with a file: `display: town.river: Permission denied`. */
void say_problem(const char *program, const char *path, int problem);

/* Ends the output. Returns the given status, or BAD_USE where not all of the output could be written. */
int finish(const char *program, int status);

/* A river's report: the result of the entry, and where it is 0 the records. */
struct report {
    uint32_t result;
    uint32_t reaches; /* 0 where the river was refused */
    uint32_t size;    /* bytes of each reach */
    uint8_t bytes[XYLANDREO_MAX_REPORT];
};

/* Calls the reporting entry, and the one that tells the size of a reach. */
void report_river(const struct river *river, struct report *report);

/* What the report of an accepted river has for a reach, counted from 1; and whether it has nitrogenous BOD. */
struct xylandreo_record record_at(const struct report *report, uint32_t reach);
int has_nitrogenous(const struct report *report);

/*
 * The reach with the lowest oxygen of an accepted river among those that tell theirs, as the first reach always does;
 * the first of them where several have it.
 */
uint32_t lowest_reach(const struct report *report);

/* A river's means: the result of the entry, and where it is 0 the mean of each reach and that of the river. */
struct means {
    uint32_t result;
    uint32_t reaches; /* 0 where there are no means */
    int32_t units;
    uint64_t remainder;
    uint8_t bytes[XYLANDREO_MAX_MEANS];
};

/* Calls the entry that gives the means. */
void average_river(const struct river *river, struct means *means);

/* Shows a file name on one line, its control bytes as question marks, so that no name can spoil a terminal. */
void show_name(FILE *to, const char *name);

/* How many columns it takes there: one for each character of UTF-8. */
size_t name_columns(const char *name);

/* A concentration in units as mg/L with three decimals, rounded down, also below zero. */
struct text {
    char chars[32];
};
struct text milligrams(int64_t units);

/*
 * Shows the number, reach and reason of a refusal, and for 4 and 5 the field and its range. Whoever gives the
 * text of a river where its file is wanted is told of the composer, as by the script `run`.
 */
void show_refusal(FILE *to, const struct river *river, uint32_t result);
void show_reason(FILE *to, const struct river *river, uint32_t result);

/*
 * Room for what the printing programs print: a line of a report has at most twelve numbers of at most eleven
 * characters, and means have shorter lines, one more than there are reaches.
 */
#define MAX_LINE (12 * 12)
#define MAX_LINES (XYLANDREO_MAX_REACHES * MAX_LINE + 1)

/* Puts what the printing programs print for a report and for means, and returns its length. */
size_t put_lines(const struct report *report, char text[MAX_LINES]);
size_t put_means(const struct means *means, char text[MAX_LINES]);

/*
 * Puts three parts of the line of a reach, without its end, and returns the length: the reach, depth, flow and BOD; the
 * figures of oxygen; nitrogenous BOD, or nothing in a report without it. The status stands before the last.
 */
size_t put_bod(const struct report *report, uint32_t reach, char text[MAX_LINE]);
size_t put_oxygen(const struct report *report, uint32_t reach, char text[MAX_LINE]);
size_t put_nitrogenous(const struct report *report, uint32_t reach, char text[MAX_LINE]);

#endif
