/*
 * '<1', '<50' and '<51' read as 0, 25 and 25, in a row of a reference text and in a measured reading. Status 1
 * and a message where they do not.
 */
#include "cundarivo.h"

#include <inttypes.h>
#include <stdio.h>
#include <stdlib.h>
#include <string.h>

#define N 3
#define TEXT(string) (const uint8_t *)(string), strlen(string)

static const int32_t EXPECTED[N] = {0, 25, 25};

/* Ends the check where a call is refused. */
static void require(const char *what, uint32_t number)
{
    if (number != CUNDARIVO_ACCEPTED) {
        fprintf(stderr, "%s: refusal %" PRIu32 "\n", what, number);
        exit(EXIT_FAILURE);
    }
}

static void require_expected(const char *what, const int32_t values[N])
{
    if (memcmp(values, EXPECTED, sizeof EXPECTED) != 0) {
        fprintf(stderr, "%s: %" PRId32 " %" PRId32 " %" PRId32 "\n", what, values[0], values[1], values[2]);
        exit(EXIT_FAILURE);
    }
}

/* The figures of the ball of one row, whose centre is the row. */
static cundarivo_figures_given draw(const int32_t row[N], int64_t centre[N])
{
    uint32_t weight;
    cundarivo_envelope_answer answer = cundarivo_draw(row, N, 1, N, 0, centre, N, &weight, 1);
    require("drawing", answer.number);
    return (cundarivo_figures_given){
        .n = N,
        .scaled_squared_radius = answer.scaled_squared_radius,
        .scaled_lower_bound = answer.scaled_lower_bound,
        .settled = answer.settled,
        .moves = answer.moves,
    };
}

int main(void)
{
    /* Places that no call has filled hold a number that is not expected. */
    int32_t row[N] = {-1, -1, -1};
    int32_t values[N] = {-1, -1, -1};
    uint8_t codes[N];
    int64_t centre[N];
    cundarivo_reference_answer read =
        cundarivo_read_reference(TEXT("REF,3,TOC,CND,ORP\nA,<1,<50,<51\n"), row, N, codes, N);
    require("reference text", read.number);
    require_expected("row", row);

    cundarivo_figures_given figures = draw(EXPECTED, centre);
    cundarivo_measured_answer measured = cundarivo_measure(
        figures, codes, N, centre, N, TEXT("LOOP-1,TOC,<1,CND,<50,ORP,<51\n"), values, N);
    require("reading", measured.number);
    require_expected("reading", values);
    if (measured.verdict != CUNDARIVO_QUIET || measured.scaled_squared_distance != 0) {
        fprintf(stderr, "reading: s is %" PRIu64 "\n", measured.scaled_squared_distance);
        return EXIT_FAILURE;
    }
    return EXIT_SUCCESS;
}
