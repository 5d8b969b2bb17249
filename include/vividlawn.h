/*
 * Vividlawn for C: a model file in, a report out. docs/FILES.md tells the format, the report, and the questions in their order.
 *
 * Link with libvividlawn.a, which needs memcpy, memmove and memset of the C library and nothing else.
 */
#ifndef VIVIDLAWN_H
#define VIVIDLAWN_H

#include <stddef.h>
#include <stdint.h>

#ifdef __cplusplus
extern "C" {
#endif

/* ========================================== IMPORTANT ==========================================
 *
 * WHAT THE NUMBERS OF A REPORT SAY
 *
 * Models 1, 2, 4, 6 and 7, parts: every weight stops at 4294967295, the top. Each weight that is
 * printed is the true one, worked out over all combinations with whole numbers and no cap, and
 * stopped at the top once, at the end. So:
 *
 *     the total is below the top    nothing was stopped: every weight and every "met" is true, and
 *                                   "met M of T" is the share M / T, where T is not 0
 *     the total is 4294967295       a weight below the top is true; of a weight at the top, and of
 *                                   the total, the truth is that or more, and from that number
 *                                   alone no more is known
 *
 * Where no term's weight is at the top, each term is true, whatever the total: then the true total
 * is the sum of the printed terms, and what meets a need the sum of those that meet it (64 bits
 * have room for such sums).
 *
 * NEVER DIVIDE BY A TOTAL THAT IS AT THE TOP. Five valves in series, each open in 90 parts of 100,
 * print "met 4294967295 of 4294967295"; that is not certain, but 5904900000 of 10000000000. In 9
 * of 10 they print "met 59049 of 100000", which is exact. The true total is the product of what
 * the weights of each part beneath the last node sum to: keep that product below 4294967295.
 *
 * Performances stop too: a flow of 4294967295 may stand for more, and a delay of 4294967295 is
 * never.
 *
 * Model 3, scenarios: a weight is a set, bit i for scenario i, and nothing is stopped. A count of
 * bits is not a probability.
 *
 * Model 5, effort: "met 1300 of 600" is no error: the least cost of what meets the need, and of
 * anything at all. 4294967295 says that it cannot be had, or only for that or more.
 *
 * docs/READING-A-ROW.md tells all of it, with examples, and how to keep below the top.
 * ============================================================================================= */

/* No report is longer: an output of this many bytes always has room for it. */
#define VIVIDLAWN_LONGEST_REPORT 3328

/*
 * Reads the model file of model_len bytes, works out its nodes, and puts the report on the last node first in the output.
 *
 * Answers the report's length, which is 1 or more, or a negative number that holds the fault: the macros below take it apart. The
 * report is text without a zero byte at its end. Bytes of the output past the report stay as they were. At a fault the whole output
 * does.
 *
 * model    model_len bytes, any bytes at all, which are only read. Any length will do; no model file of more than 49,380 bytes is good.
 * output   output_len bytes, which need not be set before. A report that does not fit is fault 3 255 27, and none of it is put there.
 *
 * Neither pointer may be null, not even where its length is 0: then point it at any byte. Each length is at most that of the memory
 * there. The model and the output must not overlap, and nobody else may write to the model, or touch the output, during the call. This
 * is not checked.
 *
 * The call always returns; a file may have nine bridges of eight million combinations each, which take some tenths of a second
 * altogether. It allocates no memory, makes no system call, and keeps nothing from one call for the next: there is no state
 * behind it. So it may be called from several threads at once, each with an output of its own; one model may serve them all.
 *
 * It works on the stack: 72,280 bytes were the most that was measured (x86-64, tools/stack/run), nearly all of it one frame of a fixed
 * size. Let 128 KiB be free. A stack that is too small is not told as a fault: the process is killed.
 */
int64_t vividlawn_analyse(const uint8_t *model, size_t model_len, uint8_t *output, size_t output_len);

/*
 * A fault is the first question that was answered no. An answer below 0 is minus (layer * 65536 + record * 256 + number).
 *
 * layer    1 the file, 2 the diagram of its nodes, 3 the report
 * record   the number of the record at fault, from 0, or of the node that cannot be collected, which is that of its record; or 255, where
 *          it is none of them
 * number   layer 1: 21 the first byte does not name a model, 22 the number of records is not 2 to 49, 23 a record with a wrong letter,
 *          or that is not there, 24 a wrong count, or a body that is not all there, 25 bytes are left over, 26 a performance, a weight
 *          or a demand that the model cannot hold
 *          layer 2: 3 a part without 1 to 64 states, 4 a joining without 2 to 8 children, 5 a child that is not there yet, 6 a child
 *          that has a user already, 7 a child that is named twice, 11 an arm of a bridge has more than 24 terms, 12 a running result
 *          has more than 64 terms
 *          layer 3: 27 the output has no room for the report
 */
#define VIVIDLAWN_FAULT_LAYER(answer) ((int)((-(answer)) >> 16))
#define VIVIDLAWN_FAULT_RECORD(answer) ((int)(((-(answer)) >> 8) & 255))
#define VIVIDLAWN_FAULT_NUMBER(answer) ((int)((-(answer)) & 255))

/* The record of a fault that is at none of them. */
#define VIVIDLAWN_NO_RECORD 255

#ifdef __cplusplus
}
#endif

#endif
