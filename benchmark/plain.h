/*
 * The report in double precision, in three ways, and the means; parameters and results are those of xylandreo_report
 * and of xylandreo_mean. The status of a reach goes by the lowest oxygen that the same program finds.
 */
#ifndef PLAIN_H
#define PLAIN_H

#include <stddef.h>
#include <stdint.h>

/* With exp() twice at each of the 1,025 instants but the head, and three times where ammonia is nitrified. */
uint32_t exp_report(const uint8_t *file, size_t file_len, uint8_t *report, size_t report_len);

/* Stepped from instant to instant by multiplication. */
uint32_t stepped_report(const uint8_t *file, size_t file_len, uint8_t *report, size_t report_len);

/*
 * By the closed formula for the critical time: the lowest oxygen is that at this time, not the lowest of 1,025 values.
 * Two demands have no such formula, so where ammonia is nitrified the time is found by halving.
 */
uint32_t closed_report(const uint8_t *file, size_t file_len, uint8_t *report, size_t report_len);

/*
 * By the integrals of the formulas, and the status by the two instants beside the critical time: neither needs a loop
 * over the instants.
 */
uint32_t plain_mean(const uint8_t *file, size_t file_len, uint8_t *means, size_t means_len, int32_t *units,
                    uint64_t *remainder);

#endif
