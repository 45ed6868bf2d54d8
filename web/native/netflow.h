/* netflow's calls for C: from bytes to bytes, without files. Link libnetflow.a and the C library.
 *
 * Each call returns the exit status of the program netflow:
 *
 *   0    an optimal plan, a compiled problem, an optimal flow, or yes
 *   2    no plan, no feasible flow, or no; the text says why
 *   3    an input was rejected; the text is the error line
 *   5    out of memory
 *   64   the name of the objective is not UTF-8
 *
 * It stores the length of the text in *length, and the text in `out` if it fits into `room` bytes; if not, `out` is unchanged, and a
 * call with more room gives the text. The proved contract says so: crates/net_web.
 *
 * An empty objective means the model's only one. No pointer is null, not even of 0 bytes. The inputs, `out` and `length` do not overlap.
 * A call keeps nothing after it returns, and calls can run in several threads.
 */
#ifndef NETFLOW_H
#define NETFLOW_H

#include <stdbool.h>
#include <stddef.h>
#include <stdint.h>

#ifdef __cplusplus
extern "C" {
#endif

/* Solves a model with its data. With `lean` the problem that is solved has no lower bounds. */
uint32_t netflow_solve(const uint8_t *objective, size_t objective_length, bool lean, const uint8_t *model, size_t model_length,
                       const uint8_t *data, size_t data_length, uint8_t *out, size_t room, size_t *length);

/* Compiles a model with its data to a DIMACS problem. With `lean` it has no lower bounds. */
uint32_t netflow_compile(const uint8_t *objective, size_t objective_length, bool lean, const uint8_t *model, size_t model_length,
                         const uint8_t *data, size_t data_length, uint8_t *out, size_t room, size_t *length);

/* Solves a DIMACS problem; the text is a certificate. */
uint32_t netflow_min(const uint8_t *problem, size_t problem_length, uint8_t *out, size_t room, size_t *length);

/* Checks a certificate of a DIMACS problem; the text is the verdict. */
uint32_t netflow_check(const uint8_t *problem, size_t problem_length, const uint8_t *certificate, size_t certificate_length,
                       uint8_t *out, size_t room, size_t *length);

#ifdef __cplusplus
}
#endif

#endif
