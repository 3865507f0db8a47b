/* Plans of modes and their changes, for firmware on x86-64: link target/staticlib/libstellarsnare.a, which `bash tools/staticlib.sh` makes.
 *
 * Each function gives whether it was accepted. Whatever is refused leaves words, machine, delay, out and length as they stood. Every text, every
 * buffer and every number has an answer.
 *
 * refusal: the five numbers of the refusal's line, which are number, row, mode, actor and processor, with 0 where none is named; all 0 where nothing
 * is refused.
 *
 * What each number is given for is in docs/REFUSALS.md, and which word of a plan holds what in docs/PLAN.md.
 *
 * machine: the three numbers of a machine, which are its mode, its starting tick and the tick at which its change ends. That no stage ever takes a
 * token that isn't there, no buffer ever holds more than its size and no processor is ever asked for more than its whole time is promised of a
 * machine that is handed on unaltered, with the words with which it was started.
 *
 * When stages stop and start: after an accepted request the machine's starting tick is F + d, where d is the offset that the plan has for the two
 * modes and F the tick at which the old mode is left. A stage of the old mode fires no more from F + its start in that mode on; a stage of the new
 * mode fires from F + d + its start in the new one on.
 *
 * What the proofs assume of the caller: a pointer is valid for as many elements as stand beside it, or in its brackets, is aligned for them, and is
 * not NULL even where there are none; what lies there has been set before; and no two pointers of one call lead to the same memory.
 *
 * Stack, as it was seen on the largest table with the module compiled for 64-bit Arm (docs/BENCH.md): 21 KB for planning, 15 KB for a start, for a
 * request and for printing. The proofs say nothing of it.
 */
#ifndef STELLARSNARE_H
#define STELLARSNARE_H

#include <stdbool.h>
#include <stddef.h>
#include <stdint.h>

#ifdef __cplusplus
extern "C" {
#endif

/* the one length of a plan, in words of 64 bits: any other is refused with 15 */
#define STELLARSNARE_WORDS 6120

/* the one length of the buffer into which a plan is printed, in bytes: any other is refused with 15 */
#define STELLARSNARE_PRINTED 20352

/* Plans the table of a text into the words. Refusals: 15, then 1 to 10. */
bool stellarsnare_plan(const uint8_t *text, size_t bytes, uint64_t *words, size_t count, uint64_t refusal[5]);

/* Begins a machine, at tick 0 in a listed mode; mode 0 stands for the lowest of them. Refusals: 15, then 11. */
bool stellarsnare_start(const uint64_t *words, size_t count, uint64_t mode, uint64_t machine[3], uint64_t refusal[5]);

/* Answers a machine's request for a mode at a tick of the clock: its delay, and the machine in the new mode. Refusals: 15, 16, then 11 to 14. */
bool stellarsnare_request(const uint64_t *words, size_t count, uint64_t machine[3], uint64_t mode, uint64_t clock, uint64_t *delay,
                          uint64_t refusal[5]);

/* Prints the plan that the words hold: length is the number of its bytes, and the bytes behind them are 0. Refusal: 15. */
bool stellarsnare_print(const uint64_t *words, size_t count, uint8_t *out, size_t bytes, size_t *length, uint64_t refusal[5]);

#ifdef __cplusplus
}
#endif

#endif
