/*
 * Cundarivo for C: alarm envelopes round reference readings, in whole numbers.
 * Every call is proved to end and to answer by the rules that are stated here.
 *
 * Rows, channels and steps
 *
 *   There are m rows (1 to 256) of n channels (1 to 8). Each coordinate is a whole number of steps of its
 *   channel, from -4,000 to 4,000. Rows are lent as one list, row by row: the first m times n places count,
 *   and the list may be longer. A channel has a type, whose code is one byte:
 *
 *     code  tag  step                     low  high
 *     1     TOC  1 ppb carbon               0  2000
 *     2     TC   1 ppb carbon               0  4000
 *     3     IC   1 ppb carbon               0  4000
 *     4     CND  0.001 microsiemens/cm      0  4000
 *     5     TMP  0.1 degrees Celsius     -200  1500
 *     6     PH   0.01                       0  1400
 *     7     FLW  0.1 l/min                  0  4000
 *     8     ORP  1 mV                   -2000  2000
 *
 *   Low and high bind the values of reference texts and of readings.
 *
 * The letters
 *
 *   m  the number of rows
 *   n  the number of channels
 *   D  the sum of the weights, 65,536; each row has a whole weight of 0 or more
 *   X  the scaled centre: the sum of weight times row, channel by channel, in units of 1/D step.
 *      The centre of the ball is X/D.
 *   s  the scaled squared distance of a row or a reading: the squared length of (D times row - X),
 *      in units of 1/D^2, as are M and L
 *   M  the scaled squared radius: the largest s of all rows. The squared radius of the ball is M/D^2.
 *   L  the scaled lower bound: D times (the sum of weight times the row's squared length), less the squared
 *      length of X. No ball that holds every row has a squared radius below L/D^2.
 *
 *   The weights are Settled where no move of weight between two rows is called for. A drawing ends Settled,
 *   or Budget where it has made as many moves as it may and the weights are not Settled.
 *   The figures of an envelope are n, the codes of its channels, X, M, L, the ending and the moves made.
 *
 * Texts
 *
 *   A text is bytes and their number. It has no zero byte at its end, and a zero byte in it counts as any
 *   other byte. Fields are parted by commas, without blanks, and each line ends in byte 10. A text has 1 to
 *   65,536 bytes.
 *
 *   A plain number is a whole decimal number without leading zeros, with '-' before a negative one. A value
 *   is a plain number from its type's low to its high; or '<' and a plain number v from 1 to its high, which
 *   means below detection and reads as the whole part of v/2: '<51' reads as 25. A label is 1 to 12 bytes of
 *   A-Z, 0-9 and hyphen.
 *
 *   Reference text: the heading REF, n and n tags; then for each row a line of its label and n values.
 *   Where the library writes one every value is a plain number: '<51' that was read is written as 25, the
 *   number that it reads as.
 *   Reading: one line of a label, then tag and value n times.
 *   Record: the line ENV, n and n tags; the line C and X; the line R, M, L, moves and S for Settled or B for
 *   Budget; then for each weight above 0 a line W, row and weight, rows counted from 1 and rising.
 *   Settings: 1 to 20 lines k and c, each a plain number from 1 to 99.
 *
 * Alerts
 *
 *   A setting is two numbers, k and c: an alert is raised after k Alarm verdicts running and cleared after c
 *   Quiet verdicts running. The reading that raises it passes while it stands, the one that clears it does not.
 *   A reading that is turned back breaks no run and is not among those that pass while an alert stands.
 *
 * Answers and refusals
 *
 *   Every call but cundarivo_label answers with a number and a line. The number is 0 where the call is
 *   accepted, else that of the refusal (enum cundarivo_refusal); where several apply it is the first in
 *   the order stated at the call. The line is the one at fault, counted from 1 in its text, and 0 where no
 *   line is at fault (refusals 1, 7, 8, 9, 12, 13 and 14) and where the call is accepted. Of a reference text
 *   that is to be written it is the line that the row at fault would have.
 *   On a refusal every lent place is as it was before the call, and every other member of the answer is 0.
 *   Where a call is accepted it fills the first places of what is lent for writing, as many as it says, and
 *   leaves every other place as it was.
 *
 * Pointers
 *
 *   Lent memory is a pointer and then the number of its elements (not bytes). The library reads and writes
 *   within that number alone, whatever m, n and the texts are. The caller sees to this:
 *   - The pointer is not null and is aligned for its type, also where the number is 0: give the address of
 *     any object of the type. (The Rust package lends slices, whose pointers are never null.)
 *   - The elements together have at most PTRDIFF_MAX bytes. Those lent for writing need not be initialised.
 *   - Memory lent for writing overlaps nothing else that is lent to the same call, and nobody else reads or
 *     writes it during the call. Memory lent for reading may overlap other memory lent for reading, and
 *     nobody writes it during the call.
 *   The library keeps no pointer after a call.
 *
 * Threads, memory and stack
 *
 *   The library has no variables of its own and allocates no memory, so that any number of threads may call
 *   it at the same time. It needs memcpy and memset of the C library.
 *   cundarivo_program_judge needs at most 640 KiB of stack, since its whole output is made there, before it is
 *   handed out, where the buffer has no room for every output; cundarivo_program_draw at most 96 KiB and
 *   cundarivo_draw at most 64 KiB, since a drawing keeps 32 KiB of squared distances there; every other
 *   cundarivo_program_... at most 64 KiB, and every other call at most 32 KiB. This is measured of the built
 *   library and tested, not proved.
 *   It is built for x86-64 and its System V calling convention (Linux).
 */
#ifndef CUNDARIVO_H
#define CUNDARIVO_H

#include <stddef.h>
#include <stdint.h>

#ifdef __cplusplus
extern "C" {
#endif

/* ---- limits */

/* The most rows. */
#define CUNDARIVO_ROWS 256

/* The most channels. */
#define CUNDARIVO_CHANNELS 8

/* Places that are enough for the rows of every reference text. */
#define CUNDARIVO_PLACES (CUNDARIVO_ROWS * CUNDARIVO_CHANNELS)

/* D, the sum of the weights. */
#define CUNDARIVO_TOTAL 65536

/* A coordinate is at most this far from 0. */
#define CUNDARIVO_COORDINATE_MOST 4000

/* The largest budget, and the most moves of an envelope. */
#define CUNDARIVO_MOVES_MOST 1000000

/* Each place of X is at most this far from 0. */
#define CUNDARIVO_CENTRE_MOST 262144000

/* The largest s, M and L. */
#define CUNDARIVO_DISTANCE_MOST UINT64_C(2199023255552000000)

/* The most bytes of a text. */
#define CUNDARIVO_TEXT_BYTES 65536

/* The most settings of an alert that are tried at once. */
#define CUNDARIVO_SETTINGS 20

/* The largest k and c of a setting. */
#define CUNDARIVO_RUN_MOST 99

/*
 * Bytes that are proved to be enough for every record, for every reference text that is written, for every
 * trial of alert settings and for every output of a program, whatever the texts are. Where fewer are lent than
 * the output has the call is refused by 13.
 */

/*
 * 38 for the first line, 90 for X, 52 for M, L, moves and ending, and 12 for each weight: `house-most` and
 * `house-enough` in crates/record/specs/HouseLaws.antt. A record of m rows has at most 38 + 90 + 52 + 12 * m.
 */
#define CUNDARIVO_RECORD_BYTES (38 + 90 + 52 + 12 * CUNDARIVO_ROWS)

/*
 * 38 for the heading and 61 for each row: `text-most` in crates/reference/specs/PrintedLaws.antt. A reference text
 * that is written of m rows has at most 38 + 61 * m.
 */
#define CUNDARIVO_REFERENCE_BYTES (38 + 61 * CUNDARIVO_ROWS)

/* 18 for each setting and 24 for the last line: `output_room` in crates/try_settings/src/lib.rt. */
#define CUNDARIVO_TRIAL_BYTES (18 * CUNDARIVO_SETTINGS + 24)

/* A record, or the line of a refusal: `output_room` in crates/program_draw/src/lib.rt. */
#define CUNDARIVO_PROGRAM_DRAW_BYTES CUNDARIVO_RECORD_BYTES

/* A reference text, or the line of a refusal: `output_room` in crates/program_plain/src/lib.rt. */
#define CUNDARIVO_PROGRAM_PLAIN_BYTES CUNDARIVO_REFERENCE_BYTES

/* One line: `output_room` in crates/program_verify/src/lib.rt. */
#define CUNDARIVO_PROGRAM_VERIFY_BYTES 64

/*
 * 7 for each byte of the readings, and 64 for the line of a refusal: `output_room` in
 * crates/program_judge/src/lib.rt. For given readings 7 for each of their bytes and 64 are enough:
 * `readings_room`.
 */
#define CUNDARIVO_PROGRAM_JUDGE_BYTES (7 * CUNDARIVO_TEXT_BYTES + 64)

/* 64 for the line of a refusal and 25 for each channel: `output_room` in crates/program_panel/src/lib.rt. */
#define CUNDARIVO_PROGRAM_PANEL_BYTES (64 + 25 * CUNDARIVO_CHANNELS)

/* A trial, or the line of a refusal: `output_room` in crates/program_alerts/src/lib.rt. */
#define CUNDARIVO_PROGRAM_ALERTS_BYTES CUNDARIVO_TRIAL_BYTES

/* ---- numbers that stand for something */

/* The number of an answer. */
enum cundarivo_refusal {
    CUNDARIVO_ACCEPTED = 0,
    /* The text is empty or has more than 65,536 bytes. */
    CUNDARIVO_REFUSED_TEXT_LENGTH = 1,
    /* The heading of a reference text is not in form, or has an unknown tag. */
    CUNDARIVO_REFUSED_HEADING = 2,
    /* A line is not in form, or has no byte 10; or a label that is to be written is not in form. */
    CUNDARIVO_REFUSED_LINE_FORM = 3,
    /* A value, read or to be written, is outside its type's range. */
    CUNDARIVO_REFUSED_VALUE_RANGE = 4,
    /* A label, read or to be written, is that of an earlier row. */
    CUNDARIVO_REFUSED_LABEL_REPEATED = 5,
    /* There is no row, or a 257th. */
    CUNDARIVO_REFUSED_ROW_COUNT = 6,
    /* The lent table has fewer than m times n places. */
    CUNDARIVO_REFUSED_TABLE_SHORT = 7,
    /* A number that is given is outside its limits, or a list that is lent for reading has too few or too
     * many places, or the ends of labels do not part their bytes; each call says which. */
    CUNDARIVO_REFUSED_OUTSIDE_LIMITS = 8,
    /* The budget is above 1,000,000. */
    CUNDARIVO_REFUSED_BUDGET_TOO_LARGE = 9,
    /* A tag of a reading is not the envelope's. */
    CUNDARIVO_REFUSED_TAG_DIFFERS = 10,
    /* A record is not in form. */
    CUNDARIVO_REFUSED_RECORD_FORM = 11,
    /* The weights do not sum to 65,536, or a record or an envelope disagrees with the rows. */
    CUNDARIVO_REFUSED_DISAGREEMENT = 12,
    /* Memory that is lent for writing, the table of a reference text excepted, has too few places. */
    CUNDARIVO_REFUSED_BUFFER_SHORT = 13,
    /* A k or c is outside 1 to 99, there is no setting, a 21st or a k without its c, or a text of settings is
     * not in form. */
    CUNDARIVO_REFUSED_ALERT_SETTINGS = 14
};

/* The codes of the channel types. */
enum cundarivo_type {
    CUNDARIVO_TYPE_TOC = 1,
    CUNDARIVO_TYPE_TC = 2,
    CUNDARIVO_TYPE_IC = 3,
    CUNDARIVO_TYPE_CND = 4,
    CUNDARIVO_TYPE_TMP = 5,
    CUNDARIVO_TYPE_PH = 6,
    CUNDARIVO_TYPE_FLW = 7,
    CUNDARIVO_TYPE_ORP = 8
};

/* The ending: the member `settled` of figures and answers. */
enum cundarivo_ending {
    CUNDARIVO_BUDGET = 0,
    CUNDARIVO_SETTLED = 1
};

/* The verdict on a reading; 0 stands in a refusal. */
enum cundarivo_verdict {
    CUNDARIVO_QUIET = 1,
    CUNDARIVO_ALARM = 2
};

/* The mark of an envelope on a chart; 0 stands in a refusal. */
enum cundarivo_mark {
    CUNDARIVO_DOT = 1,
    CUNDARIVO_DISC = 2
};

/* ---- structs */

/* The answer to a reference text. */
typedef struct {
    uint32_t number;
    uint32_t line;
    size_t m;
    size_t n;
} cundarivo_reference_answer;

/* Where a label stands in a text: the byte where it starts, counted from 0, and how many bytes it has. */
typedef struct {
    size_t start;
    size_t length;
} cundarivo_label_answer;

/* The answer to a drawing, or to a record that is read. */
typedef struct {
    uint32_t number;
    uint32_t line;
    uint32_t settled;               /* enum cundarivo_ending */
    uint32_t moves;                 /* the moves made */
    uint64_t scaled_squared_radius; /* M */
    uint64_t scaled_lower_bound;    /* L */
} cundarivo_envelope_answer;

/* The answer to a check. */
typedef struct {
    uint32_t number;
    uint32_t line;
    uint32_t settled;               /* 1 where the weights are Settled, else 0 */
    uint64_t scaled_squared_radius; /* M */
    uint64_t scaled_lower_bound;    /* L */
} cundarivo_check_answer;

/* The figures of an envelope, whoever made them, but for its codes and X, which are lent beside them. */
typedef struct {
    size_t n;                       /* 1 to 8 */
    uint64_t scaled_squared_radius; /* M, at most CUNDARIVO_DISTANCE_MOST */
    uint64_t scaled_lower_bound;    /* L, at most CUNDARIVO_DISTANCE_MOST */
    uint32_t settled;               /* enum cundarivo_ending */
    uint32_t moves;                 /* at most CUNDARIVO_MOVES_MOST */
} cundarivo_figures_given;

/* The answer to a reading. */
typedef struct {
    uint32_t number;
    uint32_t line;
    uint32_t verdict; /* enum cundarivo_verdict */
    uint64_t excess;  /* s - M of an Alarm, else 0 */
} cundarivo_verdict_answer;

/* The answer to a reading that is measured. */
typedef struct {
    uint32_t number;
    uint32_t line;
    uint32_t verdict;                 /* enum cundarivo_verdict */
    uint64_t excess;                  /* s - M of an Alarm, else 0 */
    uint64_t scaled_squared_distance; /* s */
} cundarivo_measured_answer;

/*
 * The answer to the writing of a record or reference text, to a trial of settings, and of each program: how
 * many bytes are written.
 */
typedef struct {
    uint32_t number;
    uint32_t line;
    size_t length;
} cundarivo_written_answer;

/* The answer to a chart: the centre in two channels and the radius, in steps. */
typedef struct {
    uint32_t number;
    uint32_t line;
    uint32_t mark; /* enum cundarivo_mark */
    double horizontal;
    double vertical;
    double radius; /* 0 of a dot */
} cundarivo_mark_answer;

/* The answer to a panel. */
typedef struct {
    uint32_t number;
    uint32_t line;
} cundarivo_panel_answer;

/* ---- the reference text */

/*
 * Reads a reference text and answers with m and n. It fills the first m times n places of `table` with the
 * values, row by row, and the first n places of `codes` with the codes. CUNDARIVO_PLACES and
 * CUNDARIVO_CHANNELS places are enough for every text.
 *
 * Refused: 1; 2 at line 1; then line by line 6 for a 257th row, 3, 4, 5; then 6 for no row, at the line after
 * the last; then 7; then 13 for `codes` of fewer than n places.
 */
cundarivo_reference_answer cundarivo_read_reference(
    const uint8_t *text, size_t text_length,
    int32_t *table, size_t table_length,
    uint8_t *codes, size_t codes_length);

/*
 * Finds the label of a row, counted from 1, in a reference text. It writes nothing. Start and length are 0
 * where cundarivo_read_reference refuses the text for its bytes (1 to 6) or the text has no such row.
 */
cundarivo_label_answer cundarivo_label(
    const uint8_t *text, size_t text_length,
    size_t row);

/*
 * Writes the reference text of the first m rows of n channels of these codes, with these labels, and answers
 * with its length. It fills the first `length` places of `buffer`. Of `codes` the first n places count.
 * `labels` has the bytes of the labels one after another, with nothing between them, and `ends` has m places:
 * the label of a row is the bytes from the end of the label before, 0 for the first row, up to its own end.
 * CUNDARIVO_REFERENCE_BYTES places are enough for every text.
 *
 * Every value is written plain: where the rows were read from a text, a value below detection is written as
 * the number that it reads as. cundarivo_read_reference reads a written text as these rows and codes, and
 * cundarivo_label finds these labels in it. The rows, codes and labels of an accepted text without '<' give
 * that text again.
 *
 * Refused: 8 as for cundarivo_draw, for `codes` of fewer than n places or a code outside 1 to 8, for `ends` of
 * more or fewer than m places, an end below the one before it, or a last end that is not the number of bytes
 * in `labels`; then row by row, at line 2 for the first row, 3 for a label that is not in form, 4, 5; then 13
 * for `buffer` of fewer places than the text has bytes.
 */
cundarivo_written_answer cundarivo_write_reference(
    const int32_t *rows, size_t rows_length,
    size_t m, size_t n,
    const uint8_t *codes, size_t codes_length,
    const uint8_t *labels, size_t labels_length,
    const size_t *ends, size_t ends_length,
    uint8_t *buffer, size_t buffer_length);

/* ---- the ball */

/*
 * Draws the ball round the first m rows of n channels: all weight is on the first row at the start, and at
 * most `budget` moves are made. It fills the first n places of `scaled_centre` with X and the first m places
 * of `weights` with the weights of the rows.
 *
 * Refused: 8 for n outside 1 to 8, m outside 1 to 256, `rows` of fewer than m times n places, or one of these
 * places outside -4,000 to 4,000; 9; then 13 for `scaled_centre` of fewer than n or `weights` of fewer than m
 * places.
 */
cundarivo_envelope_answer cundarivo_draw(
    const int32_t *rows, size_t rows_length,
    size_t m, size_t n,
    uint32_t budget,
    int64_t *scaled_centre, size_t scaled_centre_length,
    uint32_t *weights, size_t weights_length);

/*
 * Gives the figures of any weights of the first m rows of n channels, whoever chose them. It fills the first
 * n places of `scaled_centre` with X.
 *
 * Refused: 8 as for cundarivo_draw, and for `weights` of more or fewer than m places; 12 where the weights do
 * not sum to 65,536; then 13 for `scaled_centre` of fewer than n places.
 */
cundarivo_check_answer cundarivo_check(
    const int32_t *rows, size_t rows_length,
    size_t m, size_t n,
    const uint32_t *weights, size_t weights_length,
    int64_t *scaled_centre, size_t scaled_centre_length);

/* ---- the verdict */

/*
 * Judges a reading against the figures of an envelope. It writes nothing. Of `codes` and `scaled_centre` the
 * first n places count. The reading is Quiet where its s is at most M, else an Alarm with s - M.
 *
 * Refused: 8 for n outside 1 to 8, `codes` or `scaled_centre` of fewer than n places, a code outside 1 to 8, a
 * place of X, M, L or the moves outside its limits, or `settled` other than 0 and 1; 1; 3, also where the text
 * has not exactly one line, or not n tags and values; 10 for a tag that is not the envelope's, whatever the
 * values; then 4. The line of 3, 10 and 4 is 1.
 */
cundarivo_verdict_answer cundarivo_judge(
    cundarivo_figures_given figures,
    const uint8_t *codes, size_t codes_length,
    const int64_t *scaled_centre, size_t scaled_centre_length,
    const uint8_t *text, size_t text_length);

/*
 * Judges a reading as cundarivo_judge does, and answers with its s besides. It fills the first n places of
 * `values` with the values as they read, also those below detection. CUNDARIVO_CHANNELS places are enough for
 * every reading.
 *
 * Refused: 8, 1, 3, 10 and 4 as for cundarivo_judge; then 13 for `values` of fewer than n places.
 */
cundarivo_measured_answer cundarivo_measure(
    cundarivo_figures_given figures,
    const uint8_t *codes, size_t codes_length,
    const int64_t *scaled_centre, size_t scaled_centre_length,
    const uint8_t *text, size_t text_length,
    int32_t *values, size_t values_length);

/*
 * Tries settings of an alert on recorded readings, against the figures of an envelope, and answers with the
 * length of what it writes. It fills the first `length` places of `output`. `settings` has two places for each
 * setting, k and then c; the same setting may stand there twice. Each line of `readings` is a reading, an empty
 * line and a last line without byte 10 too, and is judged as by cundarivo_judge: one that is refused there is
 * turned back. Of `codes` and `scaled_centre` the first n places count.
 *
 * For each setting, in order, it writes a line: k, c, the alerts raised, and the readings that passed while an
 * alert stood. A last line has the number of readings, of Alarm and of Quiet verdicts, and of readings turned
 * back. The numbers are parted by commas, and each line ends in byte 10. CUNDARIVO_TRIAL_BYTES places are
 * enough for every trial.
 *
 * Refused, each at line 0: 8 as for cundarivo_judge; 14 for `settings` of no place, of an odd number of places
 * or of more than 40, or for a k or c outside 1 to 99; 1 for `readings` that are empty or have more than 65,536
 * bytes; then 13 for `output` of fewer places than are written.
 */
cundarivo_written_answer cundarivo_try_settings(
    cundarivo_figures_given figures,
    const uint8_t *codes, size_t codes_length,
    const int64_t *scaled_centre, size_t scaled_centre_length,
    const uint32_t *settings, size_t settings_length,
    const uint8_t *readings, size_t readings_length,
    uint8_t *output, size_t output_length);

/* ---- the record */

/*
 * Reads the record of an envelope of the first m rows of n channels of these codes, whoever wrote it. It
 * fills the first n places of `scaled_centre` with X and the first m places of `weights` with the weights, 0
 * for a row without a line W. Of `codes` the first n places count. The moves are taken as written; every other
 * figure is compared with what cundarivo_check gives of the weights. A record that was drawn by a library that
 * read '<v' as 0 is refused by 12 where its figures differ for the rows as they read here, and is accepted
 * where they agree. cundarivo_judge, cundarivo_measure, cundarivo_try_settings, cundarivo_chart and
 * cundarivo_panel take figures without rows: those that such a library gave are to be drawn anew.
 *
 * Refused: 8 as for cundarivo_draw, and for `codes` of fewer than n places or a code outside 1 to 8; 1; 11 at
 * the first faulty line, a missing line being the one after the last; 12 where n, the tags, X, M, L or the
 * ending is not what rows, codes and weights give, or a line W names a row above m; then 13 for
 * `scaled_centre` of fewer than n or `weights` of fewer than m places.
 */
cundarivo_envelope_answer cundarivo_read_record(
    const int32_t *rows, size_t rows_length,
    size_t m, size_t n,
    const uint8_t *codes, size_t codes_length,
    const uint8_t *text, size_t text_length,
    int64_t *scaled_centre, size_t scaled_centre_length,
    uint32_t *weights, size_t weights_length);

/*
 * Writes the record of an envelope of the first m rows and answers with its length. It fills the first
 * `length` places of `buffer`. Of `codes` and `scaled_centre` the first n places count. `weights` has at least
 * m and at most 256 places. CUNDARIVO_RECORD_BYTES places are enough for every record.
 *
 * Refused: 8 as for cundarivo_judge, as for cundarivo_draw, and for `weights` of fewer than m or more than 256
 * places; 12 where cundarivo_read_record would refuse the record by 12, also for a weight above 0 past the
 * first m; then 13 for `buffer` of fewer places than the record has bytes.
 */
cundarivo_written_answer cundarivo_write_record(
    cundarivo_figures_given figures,
    const uint8_t *codes, size_t codes_length,
    const int64_t *scaled_centre, size_t scaled_centre_length,
    const uint32_t *weights, size_t weights_length,
    const int32_t *rows, size_t rows_length,
    size_t m,
    uint8_t *buffer, size_t buffer_length);

/* ---- chart and panel */

/*
 * Gives the mark of an envelope on a chart of two channels, counted from 1; they may be the same. It writes
 * nothing. The mark is a dot where M is 0, else a disc, whose radius is the smallest whole number with a
 * square of at least M, divided by D. Each number equals its fraction of D exactly, and no zero is negative.
 * Of `codes` and `scaled_centre` the first n places count.
 *
 * Refused: 8 as for cundarivo_judge, and for a channel outside 1 to n.
 */
cundarivo_mark_answer cundarivo_chart(
    cundarivo_figures_given figures,
    const uint8_t *codes, size_t codes_length,
    const int64_t *scaled_centre, size_t scaled_centre_length,
    size_t horizontal, size_t vertical);

/*
 * Gives what the panel shows of an envelope. It fills the first n places of `steps` with the centre of each
 * channel to the nearest whole step, halves away from zero. Of `codes` and `scaled_centre` the first n places
 * count.
 *
 * Refused: 8 as for cundarivo_judge; then 13 for `steps` of fewer than n places.
 */
cundarivo_panel_answer cundarivo_panel(
    cundarivo_figures_given figures,
    const uint8_t *codes, size_t codes_length,
    const int64_t *scaled_centre, size_t scaled_centre_length,
    int32_t *steps, size_t steps_length);

/* ---- the programs */

/*
 * Each call below is one of the programs draw, plain, verify, judge, panel and alerts: it is lent the texts
 * that the program reads, and fills the first `length` places of `output` with what the program prints. Each
 * text is lent by itself and is never joined with another, since whoever writes the first of joined texts
 * decides where the second begins. A text may have any length: above 65,536 bytes it is turned back by 1, a
 * text of settings by 14.
 *
 * The only refusal of a call is 13, for `output` of fewer places than are printed; CUNDARIVO_PROGRAM_..._BYTES
 * are always enough. What the program itself turns back is printed: the line NO, number and line, parted by
 * commas, and nothing else, but for single readings of judge. The line counts in the text at fault.
 */

/*
 * Prints the record of the drawing of a reference text, with a budget of 10,000.
 * NO: as cundarivo_read_reference refuses the text, without 7 and 13.
 */
cundarivo_written_answer cundarivo_program_draw(
    const uint8_t *reference, size_t reference_length,
    uint8_t *output, size_t output_length);

/*
 * Prints the reference text that cundarivo_write_reference writes of the rows, codes and labels of a reference
 * text: each value below detection becomes the number that it reads as. What it prints reads as the same
 * rows, codes and labels, and is printed again as it is.
 * NO: as for draw.
 */
cundarivo_written_answer cundarivo_program_plain(
    const uint8_t *reference, size_t reference_length,
    uint8_t *output, size_t output_length);

/*
 * Prints the line OK where a record is accepted against the rows of a reference text.
 * NO: as for draw, then as cundarivo_read_record refuses the record: 1, 11, 12.
 */
cundarivo_written_answer cundarivo_program_verify(
    const uint8_t *reference, size_t reference_length,
    const uint8_t *record, size_t record_length,
    uint8_t *output, size_t output_length);

/*
 * Judges readings against a record that is accepted against the rows of a reference text. Each line of the
 * readings is a reading, an empty line and a last line without byte 10 too. Prints a line for each reading, in
 * order: QUIET; or ALARM and s - M, parted by a comma; or NO, number and line as cundarivo_judge refuses the
 * reading: 3, 10, 4.
 * NO alone: as for verify, then 1 where the readings together are empty or have more than 65,536 bytes.
 */
cundarivo_written_answer cundarivo_program_judge(
    const uint8_t *reference, size_t reference_length,
    const uint8_t *record, size_t record_length,
    const uint8_t *readings, size_t readings_length,
    uint8_t *output, size_t output_length);

/*
 * Prints a line for each channel of a record that is accepted against the rows of a reference text, in order:
 * its tag and its centre to the nearest whole step as cundarivo_panel gives it, parted by a comma.
 * NO: as for verify.
 */
cundarivo_written_answer cundarivo_program_panel(
    const uint8_t *reference, size_t reference_length,
    const uint8_t *record, size_t record_length,
    uint8_t *output, size_t output_length);

/*
 * Prints what cundarivo_try_settings writes for the settings of a text and for readings, against a record that
 * is accepted against the rows of a reference text.
 * NO: as for verify; then 14 at line 0 for every fault of the text of settings, also where it is empty or above
 * 65,536 bytes; then 1 where the readings together are empty or have more than 65,536 bytes.
 */
cundarivo_written_answer cundarivo_program_alerts(
    const uint8_t *reference, size_t reference_length,
    const uint8_t *record, size_t record_length,
    const uint8_t *settings, size_t settings_length,
    const uint8_t *readings, size_t readings_length,
    uint8_t *output, size_t output_length);

#ifdef __cplusplus
}
#endif

#endif
