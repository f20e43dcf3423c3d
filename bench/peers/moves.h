/* The drawing in plain C: the same moves as the proved call, X carried, two passes a move. */
#ifndef MOVES_H
#define MOVES_H

#include <stdint.h>

#ifdef __cplusplus
extern "C" {
#endif

/* The moves that were made, M and L. */
typedef struct {
    uint32_t moves;
    uint64_t scaled_squared_radius;
    uint64_t scaled_lower_bound;
} moves_answer;

/* Draws m rows of n channels, within the limits of the proved call. */
moves_answer moves_draw(const int32_t *rows, int m, int n, uint32_t budget);

#ifdef __cplusplus
}
#endif

#endif
