/* Field Axes for C programs: the functions of target/staticlib/libfield_axes.a.
   These are the declarations of crates/field_axes_c/src/lib.rt, where a slice is a pointer and a length; tests/ holds them, and those of
   bindings/rust/src/lib.rs, to it. That the compiler of your program passes them as declared is assumed.

   Of every pointer: it is not null, also where its length is 0; it is aligned for its type; as many elements as its length says are there to be read,
   and written where it is not const (a pointer without a length: one). What is lent to be written, out and *line, overlaps nothing else that
   is lent in the same call, and nobody else reads or writes it until the function returns; what is lent to be read, nobody writes.
   Lengths count elements and not bytes. No function keeps a pointer, allocates, or has a state of its own, so threads may call at once. */
#ifndef FIELD_AXES_H
#define FIELD_AXES_H

#include <stddef.h>
#include <stdint.h>

/* A run on a symmetric matrix of n*n numbers, row after row, with at most `limit` sweeps, and a tolerance in units. Into out: the
   outcome (0 settled, 1 still, 2 spent), the sweeps run, the turns made, then for each axis, in channel order, its entry, its error and
   the n numbers of its row: 3 + n * (n + 2) numbers, at most FIELD_AXES_MOST_NUMBERS. Numbers past them stay.
   The answer is how many they are, or a refusal's number negated: 5, 6, 8 or 7 for the matrix, then 2 for a limit outside 1 to 16 or
   a tolerance above 1,048,576, then 12 for a short buffer. At a refusal the buffer stays. */
int64_t field_axes_solve(size_t n, const int64_t *numbers, size_t numbers_length, uint64_t limit, uint64_t tolerance,
                         int64_t *out, size_t out_length);

#define FIELD_AXES_MOST_NUMBERS 83

/* The table of samples: a dilution each, and n counts each, sample after sample. Into out: the shift e, the n*n exact sums S, and the
   n*n entries rnd(S/2^e), row after row: 1 + 2 * n * n numbers, at most FIELD_AXES_MOST_TABLE_NUMBERS. Numbers past them stay.
   The answer is how many they are, or a refusal's number negated: 2 where n is outside 2 to 8, a dilution outside 1 to 100 or a count
   above 65,535, then 6 where the counts are not n to a sample, then 3 for fewer than 2 or more than 256 samples, then 12 for a short
   buffer. At a refusal the buffer stays. */
int64_t field_axes_table(size_t n, const uint32_t *dilutions, size_t dilutions_length, const uint32_t *counts,
                         size_t counts_length, int64_t *out, size_t out_length);

#define FIELD_AXES_MOST_TABLE_NUMBERS 129

/* The job text of n, the sweep limit, the tolerance in units, and samples: a dilution each, and n counts each, sample after sample. Into out:
   the text, at most FIELD_AXES_MOST_JOB_BYTES bytes, with no 0 after it. Bytes past it stay.
   The answer is its length, or a refusal's number negated: 2 where n is outside 2 to 8, the limit outside 1 to 16, the tolerance above
   1,048,576, a dilution outside 1 to 100 or a count above 65,535, then 6 where the counts are not n to a sample, then 3 for fewer than 2 or
   more than 256 samples, then 12 for a short buffer. At a refusal the buffer stays. */
int64_t field_axes_job(size_t n, uint64_t limit, uint64_t tolerance, const uint32_t *dilutions, size_t dilutions_length,
                       const uint32_t *counts, size_t counts_length, uint8_t *out, size_t out_length);

#define FIELD_AXES_MOST_JOB_BYTES 13845

/* A job text to its report, whose axes come by their diagonal entry, largest first, equal entries in channel order. Into out: the report, at
   most FIELD_AXES_MOST_REPORT_BYTES bytes, with no 0 after it. Bytes past it stay.
   The answer is its length, or a refusal's number negated: 1 to 4 for the text, with the line, from 1, in *line; then 12 for a short
   buffer. *line is 0 for 12 and where there is no refusal. At a refusal the buffer stays. */
int64_t field_axes_report(const uint8_t *text, size_t text_length, uint8_t *out, size_t out_length, size_t *line);

#define FIELD_AXES_MOST_REPORT_BYTES 2048

/* Two jobs pooled, each of them n, the sweep limit, the tolerance in units, and samples: a dilution each, and n counts each, sample after sample.
   Into out: the report of a job with the first one's samples followed by the other one's, and with the first one's limit and tolerance, at most
   FIELD_AXES_MOST_REPORT_BYTES bytes, with no 0 after it. Bytes past it stay.
   The answer is its length, or a refusal's number negated: 13 where the two numbers of channels are unequal, then 2, 6 and 3 of the first job as of
   field_axes_job, then 2, 6 and 3 of the other one, then 3 for more than 256 samples together, then 12 for a short buffer. At a refusal the buffer
   stays. */
int64_t field_axes_pool(size_t n, uint64_t limit, uint64_t tolerance, const uint32_t *dilutions, size_t dilutions_length,
                        const uint32_t *counts, size_t counts_length, size_t other_n, uint64_t other_limit,
                        uint64_t other_tolerance, const uint32_t *other_dilutions, size_t other_dilutions_length,
                        const uint32_t *other_counts, size_t other_counts_length, uint8_t *out, size_t out_length);

/* A text of calls, a line each, played on a fresh record. Fields are parted by one tab; after the tag comes the bench that calls, 1 to 4: L bench n
   numbers, M bench n k dilutions counts, T bench p q, W bench, O bench, Q bench t, A bench i. Into out: the answers, a line each and at most
   FIELD_AXES_MOST_ANSWER_BYTES bytes each, up to that of the first line that is no call, with no 0 after them. A refused call is answered X, its
   number, and how many calls of benches 1 to 4 were refused so far, four numbers; a bench outside 1 to 4 gives 15, before every other refusal, and
   is not counted. Bytes past the answers stay. The answer is their length, or -12 for a short buffer, which then stays. */
int64_t field_axes_calls(const uint8_t *text, size_t text_length, uint8_t *out, size_t out_length);

#define FIELD_AXES_MOST_ANSWER_BYTES 256

/* A season of jobs: their texts, one after another in one buffer, and the end of each, as how many bytes there are up to it. Into out: one line of
   numbers parted by tabs, jobs, how many ended settled, still and spent, how many were refused under each number 1 to 4, total turns, the largest
   error, the first job that has it, from 1, and its lowest axis that has it, or 0 for these three where no job was accepted; at most
   FIELD_AXES_MOST_SEASON_BYTES bytes, with no 0 after it. Bytes past it stay.
   The answer is its length, or a refusal's number negated: 2 for an end below the one before it or beyond the buffer, then 16 for more than 10,000
   jobs, then 12 for a short buffer. At a refusal the buffer stays. */
int64_t field_axes_season(const uint8_t *texts, size_t texts_length, const size_t *ends, size_t ends_length, uint8_t *out,
                          size_t out_length);

#define FIELD_AXES_MOST_SEASON_BYTES 84

/* All panels of a size: the symmetric matrices of two channels with entries from -b to b, by a_11, then a_12, then a_22, smallest first. Into out: a
   line each of these three entries, then the sweeps run, the turns made and the outcome of a run with limit 16 and tolerance 0, at most
   FIELD_AXES_MOST_PANELS_BYTES bytes, with no 0 after them. Bytes past them stay.
   The answer is their length, or a refusal's number negated: 2 for a b outside 0 to 8, then 12 for a short buffer. At a refusal the buffer
   stays. */
int64_t field_axes_panels(int64_t b, uint8_t *out, size_t out_length);

#define FIELD_AXES_MOST_PANELS_BYTES 92706

/* The panel at a position of that list, from 1. Into out: a_11, a_12, a_22. Numbers past them stay.
   The answer is 3, or a refusal's number negated: 2 for a b outside 0 to 8 or a position outside 1 to (2b+1)^3, then 12 for a buffer of fewer than
   three. At a refusal the buffer stays. */
int64_t field_axes_panel(int64_t b, int64_t position, int64_t *out, size_t out_length);

/* The position in that list, from 1, of the panel of these entries; or -2 for a b outside 0 to 8 or an entry beyond +-b. */
int64_t field_axes_panel_position(int64_t b, int64_t a11, int64_t a12, int64_t a22);

#endif
