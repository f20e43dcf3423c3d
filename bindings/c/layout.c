/*
 * The sizes and offsets of the structs that cross the boundary, in bytes, and the bytes that are enough for
 * what is written. The Rust package states the same sizes and offsets in tests/layout.rs. It is compiled as C11
 * and never run.
 */
#include "cundarivo.h"

#define SIZE(type, size) _Static_assert(sizeof(type) == (size), "size of " #type)
#define OFFSET(type, member, offset) \
    _Static_assert(offsetof(type, member) == (offset), "offset of " #member " in " #type)

#define ENOUGH(bytes, number) _Static_assert((bytes) == (number), "value of " #bytes)

SIZE(size_t, 8);
SIZE(double, 8);

SIZE(cundarivo_reference_answer, 24);
OFFSET(cundarivo_reference_answer, number, 0);
OFFSET(cundarivo_reference_answer, line, 4);
OFFSET(cundarivo_reference_answer, m, 8);
OFFSET(cundarivo_reference_answer, n, 16);

SIZE(cundarivo_label_answer, 16);
OFFSET(cundarivo_label_answer, start, 0);
OFFSET(cundarivo_label_answer, length, 8);

SIZE(cundarivo_envelope_answer, 32);
OFFSET(cundarivo_envelope_answer, number, 0);
OFFSET(cundarivo_envelope_answer, line, 4);
OFFSET(cundarivo_envelope_answer, settled, 8);
OFFSET(cundarivo_envelope_answer, moves, 12);
OFFSET(cundarivo_envelope_answer, scaled_squared_radius, 16);
OFFSET(cundarivo_envelope_answer, scaled_lower_bound, 24);

SIZE(cundarivo_check_answer, 32);
OFFSET(cundarivo_check_answer, number, 0);
OFFSET(cundarivo_check_answer, line, 4);
OFFSET(cundarivo_check_answer, settled, 8);
OFFSET(cundarivo_check_answer, scaled_squared_radius, 16);
OFFSET(cundarivo_check_answer, scaled_lower_bound, 24);

SIZE(cundarivo_figures_given, 32);
OFFSET(cundarivo_figures_given, n, 0);
OFFSET(cundarivo_figures_given, scaled_squared_radius, 8);
OFFSET(cundarivo_figures_given, scaled_lower_bound, 16);
OFFSET(cundarivo_figures_given, settled, 24);
OFFSET(cundarivo_figures_given, moves, 28);

SIZE(cundarivo_verdict_answer, 24);
OFFSET(cundarivo_verdict_answer, number, 0);
OFFSET(cundarivo_verdict_answer, line, 4);
OFFSET(cundarivo_verdict_answer, verdict, 8);
OFFSET(cundarivo_verdict_answer, excess, 16);

SIZE(cundarivo_measured_answer, 32);
OFFSET(cundarivo_measured_answer, number, 0);
OFFSET(cundarivo_measured_answer, line, 4);
OFFSET(cundarivo_measured_answer, verdict, 8);
OFFSET(cundarivo_measured_answer, excess, 16);
OFFSET(cundarivo_measured_answer, scaled_squared_distance, 24);

SIZE(cundarivo_written_answer, 16);
OFFSET(cundarivo_written_answer, number, 0);
OFFSET(cundarivo_written_answer, line, 4);
OFFSET(cundarivo_written_answer, length, 8);

SIZE(cundarivo_mark_answer, 40);
OFFSET(cundarivo_mark_answer, number, 0);
OFFSET(cundarivo_mark_answer, line, 4);
OFFSET(cundarivo_mark_answer, mark, 8);
OFFSET(cundarivo_mark_answer, horizontal, 16);
OFFSET(cundarivo_mark_answer, vertical, 24);
OFFSET(cundarivo_mark_answer, radius, 32);

SIZE(cundarivo_panel_answer, 8);
OFFSET(cundarivo_panel_answer, number, 0);
OFFSET(cundarivo_panel_answer, line, 4);

ENOUGH(CUNDARIVO_RECORD_BYTES, 3252);
ENOUGH(CUNDARIVO_REFERENCE_BYTES, 15654);
ENOUGH(CUNDARIVO_TRIAL_BYTES, 384);
ENOUGH(CUNDARIVO_PROGRAM_DRAW_BYTES, 3252);
ENOUGH(CUNDARIVO_PROGRAM_PLAIN_BYTES, 15654);
ENOUGH(CUNDARIVO_PROGRAM_VERIFY_BYTES, 64);
ENOUGH(CUNDARIVO_PROGRAM_JUDGE_BYTES, 458816);
ENOUGH(CUNDARIVO_PROGRAM_PANEL_BYTES, 264);
ENOUGH(CUNDARIVO_PROGRAM_ALERTS_BYTES, 384);
