/* Tickingtor's C boundary. A slice goes as a pointer and a length; a function asks nothing of its caller but that the bytes are there. */
#ifndef TICKINGTOR_H
#define TICKINGTOR_H

#include <stddef.h>
#include <stdint.h>

/* Whether the bytes are a module: 0, or the number by which they are refused (1 to 5). */
uint32_t tickingtor_read(const uint8_t *bytes, size_t length);

/*
 * A request over a pruner. Answers one number: below 2^32, the visits of a request that is accepted; otherwise 2^32 times the number by
 * which it refuses, plus the place: 0 for none, 2^30 + 2^15 * function + expression, or 2^31 + 2^15 * function + statement.
 * In this order: a module's 1 to 5; 12; 11; 18 (`report` has fewer than 65,536 bytes); 19 (`pruner` has fewer than 131,072 bytes, or holds
 * other than totals of this module); 20 (`answer` has fewer than 327,680 bytes); then the walk's 13 to 17.
 * Refused: all three buffers are as they were. Accepted: each is written from the first byte on, and what lies past that is as it was.
 *   pruner   the totals, for the next request over this pruner: the record PN. Before the first request its first two bytes are zero.
 *   report   the marks of all functions, a byte each, 0 or 1, functions and statements ascending.
 *   answer   the record AN: required, visits, input context, and the record of each expression.
 * PN and AN are two letters, a 32-bit length and 16-bit fields, little-endian. A context is the return part, then globals, arguments and
 * locals, each a count and then number and part each; a part is as in a request, and 3 where there is none.
 *   PN       the globals, a count and then number and part each; for each function 0, or 1, its marks, its context, and each expression's part.
 *   AN       0 or 1; the visits, low and high half; the context; each expression's part.
 * The buffers share no byte with each other or with the other slices. A call takes 3.4 MB of stack and what the walk's recursion needs, measured
 * up to 7.0 MB on the most deeply nested file: give its thread 16 MiB.
 */
uint64_t tickingtor_request(const uint8_t *module, size_t module_length, const uint8_t *request, size_t request_length, uint8_t *pruner,
                            size_t pruner_length, uint8_t *report, size_t report_length, uint8_t *answer, size_t answer_length);

/*
 * Whether a report can be trusted: the clearance of the marks and the input context, from anyone, for what the request asks. `report` has the
 * marks of all functions as a request writes them, of which those of the asked function are looked at; `context` is a record CX: a 32-bit
 * length, then a context as above. Answers one number: 0 clear; 1 the start (a need there is not in the context, or no emit gives it);
 * 131,072 + s where the statement s is the lowest that breaks a rule; 196,608 + e and 262,144 + s where the function is not judged, by its
 * lowest expression e, else statement s. Otherwise 2^32 times the number by which it refuses, in this order: a module's 1 to 5; 12 (request or
 * context); 11; 21 (`report` ends before the function's marks do, or has another byte than 0 and 1 among them); of a judged function 26 (the
 * needs pass the memory or the rounds that they are given), 15, 16. Nothing is written. A call takes up to some 5 MB of stack.
 */
uint64_t tickingtor_check(const uint8_t *module, size_t module_length, const uint8_t *request, size_t request_length, const uint8_t *report,
                          size_t report_length, const uint8_t *context, size_t context_length);

/*
 * Operations on bindings. Each answers one number: below 2^32, how many bytes it wrote to `out`, from the first on; otherwise 2^32
 * times the number by which it refuses (a module's 1 to 5 come first), and then `out` is as it was. 13 alone adds the argument's
 * number. `out` shares no byte with the other slices. A call takes at most 1.5 MB of stack.
 */

/* The bindings that a context of the function f needs, a byte each, ascending: 12, 11, 20 (`out` has fewer than 64 bytes), 13, 16 (the
   context, which may have any number of bytes, has more than 8,192 pieces). */
uint64_t tickingtor_input_to_bindings(const uint8_t *module, size_t module_length, uint32_t f, const uint8_t *context,
                                      size_t context_length, uint8_t *out, size_t out_length);

/* The request that asks for these bindings, a byte each, of the function f: 12 (also of a list that does not ascend strictly), 11, 20 (`out`
   has fewer than 65,536 bytes), 15, 16. */
uint64_t tickingtor_output_from_bindings(const uint8_t *module, size_t module_length, uint32_t f, const uint8_t *list,
                                         size_t list_length, uint8_t *out, size_t out_length);

/* The request with the binding b more: 12, 11, 20 (`out` has fewer than 65,536 bytes), 15, 16. */
uint64_t tickingtor_add_binding(const uint8_t *module, size_t module_length, const uint8_t *request, size_t request_length, uint32_t b,
                                uint8_t *out, size_t out_length);

#endif
