/* The C call that judges a request file for account transfers. */
/* Link with the static library libzengin.a. docs/FORMAT.md defines the file completely. */

#ifndef ZENGIN_H
#define ZENGIN_H

#include <stddef.h>
#include <stdint.h>

#ifdef __cplusplus
extern "C" {
#endif

/*
 * Judges a bare file: records of 120 bytes each with nothing between them.
 * The bytes are bare bytes. Line ends (0Dh and 0Ah) and a last 1Ah are not
 * taken away here; the caller takes them away before the call.
 *
 * bytes   the first byte of the file. NULL is allowed only with length 0.
 * length  how many bytes there are.
 *
 * The bytes are only read, and only during the call.
 *
 * The answer is 0 if the file is lawful. Otherwise it is the first offending
 * place in file order, as
 *
 *     number * 100,000,000 + record * 1,000 + column
 *
 * so that, for an answer that is not 0,
 *
 *     number = answer / 100000000
 *     record = answer / 1000 % 100000
 *     column = answer % 1000
 *
 * Records and columns count from 1. The numbers are
 *
 *     11  the length is below 360 bytes or not a multiple of 120;
 *         record and column are 0
 *     12  there are more than 10,000 records; record and column are 0
 *     13  the record may not come here, its first byte is of no sort, or the
 *         file ends too early; for a file that ends too early the record is
 *         the one past the last; the column is 1
 *     14  a byte that is not of its field's class; the column is that byte's
 *     15  a number that breaks its field's rule; the column is the field's
 *         first
 *     16  a trailer's count is not the number of its group's data records;
 *         the record is the trailer, the column is 2
 *     17  a trailer's amount is not the sum of its group's amounts;
 *         the record is the trailer, the column is 8
 *
 * There is no other answer.
 */
uint64_t zengin_check(const uint8_t *bytes, size_t length);

#ifdef __cplusplus
}
#endif

#endif
