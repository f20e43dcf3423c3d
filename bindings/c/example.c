/*
 * An envelope from C: the reference text is read and written back, its ball drawn and checked, the record
 * written and read back, readings judged and measured, alert settings tried on recorded readings, the chart and
 * the panel made; at last the six programs do the same from the texts.
 *
 * Every answer is looked at. A call that has to be accepted here ends the example with a message and status 1
 * where it is refused; refusals that belong to the example are printed with number, line and reason.
 */
#include "cundarivo.h"

#include <inttypes.h>
#include <stdio.h>
#include <stdlib.h>
#include <string.h>

static const char REFERENCE[] =
    "REF,2,TOC,CND\n"
    "A,0,0\n"
    "B,6,0\n"
    "C,0,8\n";

/* The last is empty. */
static const char *const READINGS[] = {
    "LOOP-1,TOC,3,CND,9\n",
    "LOOP-1,TOC,3,CND,10\n",
    "LOOP-1,TOC,6,CND,<13\n",
    "LOOP-1,TOC,7,CND,0\n",
    "LOOP-1,TOC,2001,CND,0\n",
    "LOOP-1,TOC,2001,PH,0\n",
    "LOOP-1,TOC,03,CND,9\n",
    "",
};

#define READING_COUNT (sizeof READINGS / sizeof READINGS[0])

/* Two Alarms with an empty line between them, a Quiet, an Alarm, two Quiet, and a line without byte 10. */
static const char RECORDED[] =
    "LOOP-1,TOC,7,CND,0\n"
    "\n"
    "LOOP-1,TOC,3,CND,10\n"
    "LOOP-1,TOC,3,CND,9\n"
    "LOOP-1,TOC,7,CND,0\n"
    "LOOP-1,TOC,3,CND,9\n"
    "LOOP-1,TOC,3,CND,9\n"
    "LOOP-1,TOC,3,CND,10";

/* The same settings as a text and as numbers: k and c of each. */
static const char SETTINGS_TEXT[] = "2,2\n1,1\n4,99\n";
static const uint32_t SETTINGS[] = {2, 2, 1, 1, 4, 99};

#define SETTINGS_LENGTH (sizeof SETTINGS / sizeof SETTINGS[0])

/* An envelope with the rows that it is drawn from. */
struct envelope {
    size_t m;
    int32_t rows[CUNDARIVO_PLACES];
    uint8_t codes[CUNDARIVO_CHANNELS];
    int64_t centre[CUNDARIVO_CHANNELS];
    uint32_t weights[CUNDARIVO_ROWS];
    cundarivo_figures_given figures;
};

/* The labels of rows: their bytes one after another, and where each of them ends. */
struct labels {
    size_t ends[CUNDARIVO_ROWS];
    size_t length;
    uint8_t bytes[12 * CUNDARIVO_ROWS];
};

/* A text with room for all that the example writes. */
struct text {
    size_t length;
    uint8_t bytes[CUNDARIVO_TEXT_BYTES];
};

static const char *reason(uint32_t number)
{
    switch (number) {
    case CUNDARIVO_ACCEPTED: return "accepted";
    case CUNDARIVO_REFUSED_TEXT_LENGTH: return "text empty or above 65,536 bytes";
    case CUNDARIVO_REFUSED_HEADING: return "bad heading or unknown tag";
    case CUNDARIVO_REFUSED_LINE_FORM: return "line not in form";
    case CUNDARIVO_REFUSED_VALUE_RANGE: return "value outside its type's range";
    case CUNDARIVO_REFUSED_LABEL_REPEATED: return "label used on an earlier row";
    case CUNDARIVO_REFUSED_ROW_COUNT: return "no row, or a 257th";
    case CUNDARIVO_REFUSED_TABLE_SHORT: return "lent table too short";
    case CUNDARIVO_REFUSED_OUTSIDE_LIMITS: return "outside the limits";
    case CUNDARIVO_REFUSED_BUDGET_TOO_LARGE: return "budget above 1,000,000";
    case CUNDARIVO_REFUSED_TAG_DIFFERS: return "tag that is not the envelope's";
    case CUNDARIVO_REFUSED_RECORD_FORM: return "record not in form";
    case CUNDARIVO_REFUSED_DISAGREEMENT: return "disagreement with the rows";
    case CUNDARIVO_REFUSED_BUFFER_SHORT: return "lent memory too short";
    case CUNDARIVO_REFUSED_ALERT_SETTINGS: return "alert settings outside the limits or not in form";
    default: return "unknown number";
    }
}

static void print_refusal(FILE *stream, const char *what, uint32_t number, uint32_t line)
{
    fprintf(stream, "%s: refusal %" PRIu32 ", line %" PRIu32 ": %s\n", what, number, line, reason(number));
}

static void fail(const char *message)
{
    fprintf(stderr, "example: %s\n", message);
    exit(EXIT_FAILURE);
}

/* Ends the example where a call that has to be accepted is refused. */
static void require(const char *what, uint32_t number, uint32_t line)
{
    if (number != CUNDARIVO_ACCEPTED) {
        print_refusal(stderr, what, number, line);
        exit(EXIT_FAILURE);
    }
}

/* The bytes of a C string; the zero at its end is not lent. */
static const uint8_t *bytes_of(const char *string)
{
    return (const uint8_t *)string;
}

static void print_bytes(const uint8_t *bytes, size_t length)
{
    if (fwrite(bytes, 1, length, stdout) != length) {
        fail("standard output cannot be written");
    }
}

static void append(struct text *text, const uint8_t *bytes, size_t length)
{
    if (sizeof text->bytes - text->length < length) {
        fail("the text has no room");
    }
    memcpy(text->bytes + text->length, bytes, length);
    text->length += length;
}

static const char *ending(uint32_t settled)
{
    return settled == CUNDARIVO_SETTLED ? "Settled" : "Budget";
}

static void read_reference(struct envelope *envelope)
{
    const uint8_t *text = bytes_of(REFERENCE);
    size_t text_length = strlen(REFERENCE);
    cundarivo_reference_answer answer = cundarivo_read_reference(
        text, text_length,
        envelope->rows, CUNDARIVO_PLACES,
        envelope->codes, CUNDARIVO_CHANNELS);
    require("reference text", answer.number, answer.line);
    envelope->m = answer.m;
    envelope->figures.n = answer.n;
    printf("reference text: %zu rows of %zu channels\n", answer.m, answer.n);
    for (size_t row = 0; row < answer.m; row++) {
        cundarivo_label_answer label = cundarivo_label(text, text_length, row + 1);
        printf("row ");
        print_bytes(text + label.start, label.length);
        for (size_t channel = 0; channel < answer.n; channel++) {
            printf(" %" PRId32, envelope->rows[row * answer.n + channel]);
        }
        printf("\n");
    }
}

/* A refused text leaves the lent memory as it was. */
static void read_faulty_reference(void)
{
    static const char text[] = "REF,1,TOC\nA,2000\nB,2001\n";
    int32_t table[2] = {-1, -1};
    uint8_t codes[1] = {255};
    cundarivo_reference_answer answer =
        cundarivo_read_reference(bytes_of(text), strlen(text), table, 2, codes, 1);
    if (answer.number == CUNDARIVO_ACCEPTED) {
        fail("2001 is read as TOC");
    }
    print_refusal(stdout, "faulty reference text", answer.number, answer.line);
    printf("its table: %" PRId32 " %" PRId32 "\n", table[0], table[1]);
}

/* The labels of the first m rows of a text that has as many. */
static void find_labels(const uint8_t *text, size_t text_length, size_t m, struct labels *labels)
{
    labels->length = 0;
    for (size_t row = 0; row < m; row++) {
        cundarivo_label_answer label = cundarivo_label(text, text_length, row + 1);
        memcpy(labels->bytes + labels->length, text + label.start, label.length);
        labels->length += label.length;
        labels->ends[row] = labels->length;
    }
}

/* Writes the reference text of the rows with these labels, of whose ends so many are lent. */
static cundarivo_written_answer write_reference(
    const struct envelope *envelope, const struct labels *labels, size_t end_count,
    uint8_t *buffer, size_t buffer_length)
{
    size_t n = envelope->figures.n;
    return cundarivo_write_reference(
        envelope->rows, CUNDARIVO_PLACES, envelope->m, n,
        envelope->codes, n,
        labels->bytes, labels->length,
        labels->ends, end_count,
        buffer, buffer_length);
}

/* Prints why nothing is written where a call has to be refused. */
static void print_not_written(const char *what, cundarivo_written_answer answer)
{
    if (answer.number == CUNDARIVO_ACCEPTED) {
        fail(what);
    }
    print_refusal(stdout, what, answer.number, answer.line);
}

/* A text that is read, without '<', is written as its own bytes. */
static void write_reference_back(const struct envelope *envelope)
{
    static struct labels labels;
    uint8_t written[CUNDARIVO_REFERENCE_BYTES];
    size_t m = envelope->m;
    find_labels(bytes_of(REFERENCE), strlen(REFERENCE), m, &labels);
    cundarivo_written_answer answer = write_reference(envelope, &labels, m, written, sizeof written);
    require("writing the reference text", answer.number, answer.line);
    if (answer.length != strlen(REFERENCE) || memcmp(written, REFERENCE, answer.length) != 0) {
        fail("another reference text is written than was read");
    }
    printf("reference text written back: the same %zu bytes\n", answer.length);

    answer = write_reference(envelope, &labels, m, written, answer.length - 1);
    print_not_written("written in one byte fewer", answer);
    answer = write_reference(envelope, &labels, m - 1, written, sizeof written);
    print_not_written("written with one end fewer", answer);
    labels.bytes[1] = 'b';
    answer = write_reference(envelope, &labels, m, written, sizeof written);
    print_not_written("written with the label b for B", answer);
    labels.bytes[1] = 'A';
    answer = write_reference(envelope, &labels, m, written, sizeof written);
    print_not_written("written with the label A for B", answer);
}

static void draw(struct envelope *envelope)
{
    size_t n = envelope->figures.n;
    cundarivo_envelope_answer answer = cundarivo_draw(
        envelope->rows, CUNDARIVO_PLACES, envelope->m, n, 10000,
        envelope->centre, CUNDARIVO_CHANNELS,
        envelope->weights, CUNDARIVO_ROWS);
    require("drawing", answer.number, answer.line);
    envelope->figures.scaled_squared_radius = answer.scaled_squared_radius;
    envelope->figures.scaled_lower_bound = answer.scaled_lower_bound;
    envelope->figures.settled = answer.settled;
    envelope->figures.moves = answer.moves;
    printf("drawing: %s, moves %" PRIu32 ", M %" PRIu64 ", L %" PRIu64 "\n",
        ending(answer.settled), answer.moves, answer.scaled_squared_radius, answer.scaled_lower_bound);
    printf("weights:");
    for (size_t row = 0; row < envelope->m; row++) {
        printf(" %" PRIu32, envelope->weights[row]);
    }
    printf("\n");
}

static void check(const struct envelope *envelope)
{
    size_t n = envelope->figures.n;
    int64_t centre[CUNDARIVO_CHANNELS];
    cundarivo_check_answer answer = cundarivo_check(
        envelope->rows, CUNDARIVO_PLACES, envelope->m, n,
        envelope->weights, envelope->m,
        centre, CUNDARIVO_CHANNELS);
    require("check", answer.number, answer.line);
    printf("check of the weights: %s, M %" PRIu64 ", L %" PRIu64 ", X",
        ending(answer.settled), answer.scaled_squared_radius, answer.scaled_lower_bound);
    for (size_t channel = 0; channel < n; channel++) {
        printf(" %" PRId64, centre[channel]);
    }
    printf("\n");
}

static void write_record(const struct envelope *envelope, struct text *record)
{
    size_t n = envelope->figures.n;
    cundarivo_written_answer answer = cundarivo_write_record(
        envelope->figures, envelope->codes, n, envelope->centre, n,
        envelope->weights, envelope->m,
        envelope->rows, CUNDARIVO_PLACES, envelope->m,
        record->bytes, CUNDARIVO_RECORD_BYTES);
    require("writing the record", answer.number, answer.line);
    record->length = answer.length;
    printf("record, %zu bytes:\n", record->length);
    print_bytes(record->bytes, record->length);

    uint8_t small[4];
    answer = cundarivo_write_record(
        envelope->figures, envelope->codes, n, envelope->centre, n,
        envelope->weights, envelope->m,
        envelope->rows, CUNDARIVO_PLACES, envelope->m,
        small, sizeof small);
    if (answer.number == CUNDARIVO_ACCEPTED) {
        fail("a record fits 4 bytes");
    }
    print_refusal(stdout, "record in 4 bytes", answer.number, answer.line);
}

static cundarivo_envelope_answer read_record(
    const struct envelope *envelope, const struct text *record, int64_t *centre, uint32_t *weights)
{
    size_t n = envelope->figures.n;
    return cundarivo_read_record(
        envelope->rows, CUNDARIVO_PLACES, envelope->m, n,
        envelope->codes, n,
        record->bytes, record->length,
        centre, CUNDARIVO_CHANNELS,
        weights, CUNDARIVO_ROWS);
}

static void read_record_back(const struct envelope *envelope, struct text *record)
{
    const cundarivo_figures_given *figures = &envelope->figures;
    int64_t centre[CUNDARIVO_CHANNELS];
    uint32_t weights[CUNDARIVO_ROWS];
    cundarivo_envelope_answer answer = read_record(envelope, record, centre, weights);
    require("reading the record", answer.number, answer.line);
    if (answer.settled != figures->settled || answer.moves != figures->moves
        || answer.scaled_squared_radius != figures->scaled_squared_radius
        || answer.scaled_lower_bound != figures->scaled_lower_bound
        || memcmp(centre, envelope->centre, figures->n * sizeof centre[0]) != 0
        || memcmp(weights, envelope->weights, envelope->m * sizeof weights[0]) != 0) {
        fail("the record is not read as its envelope");
    }
    printf("record read back: the same envelope\n");

    /* The last digit of the last weight: the weights then sum to 65,537. */
    uint8_t *digit = &record->bytes[record->length - 2];
    *digit = '9';
    answer = read_record(envelope, record, centre, weights);
    *digit = '8';
    if (answer.number == CUNDARIVO_ACCEPTED) {
        fail("an altered record is accepted");
    }
    print_refusal(stdout, "record with another weight", answer.number, answer.line);

    record->length -= 1;
    answer = read_record(envelope, record, centre, weights);
    record->length += 1;
    if (answer.number == CUNDARIVO_ACCEPTED) {
        fail("a record without its last byte is accepted");
    }
    print_refusal(stdout, "record without its last byte", answer.number, answer.line);
}

static void judge(const struct envelope *envelope, const char *reading)
{
    size_t n = envelope->figures.n;
    size_t length = strlen(reading);
    cundarivo_verdict_answer answer = cundarivo_judge(
        envelope->figures, envelope->codes, n, envelope->centre, n,
        bytes_of(reading), length);
    printf("reading '%.*s'", length == 0 ? 0 : (int)length - 1, reading);
    if (answer.number != CUNDARIVO_ACCEPTED) {
        print_refusal(stdout, "", answer.number, answer.line);
    } else if (answer.verdict == CUNDARIVO_QUIET) {
        printf(": Quiet\n");
    } else {
        printf(": Alarm, s - M is %" PRIu64 "\n", answer.excess);
    }
}

/* Measures a reading where so many places are lent for its values. */
static void measure(const struct envelope *envelope, const char *reading, size_t places)
{
    size_t n = envelope->figures.n;
    size_t length = strlen(reading);
    int32_t values[CUNDARIVO_CHANNELS];
    cundarivo_measured_answer answer = cundarivo_measure(
        envelope->figures, envelope->codes, n, envelope->centre, n,
        bytes_of(reading), length, values, places);
    printf("measured '%.*s'", (int)length - 1, reading);
    if (answer.number != CUNDARIVO_ACCEPTED) {
        print_refusal(stdout, "", answer.number, answer.line);
        return;
    }
    printf(": %s, s %" PRIu64 ", values", answer.verdict == CUNDARIVO_QUIET ? "Quiet" : "Alarm",
        answer.scaled_squared_distance);
    for (size_t channel = 0; channel < n; channel++) {
        printf(" %" PRId32, values[channel]);
    }
    printf("\n");
}

/* Tries settings on the first bytes of the recorded readings, where so many places are lent for the output. */
static cundarivo_written_answer try_settings(
    const struct envelope *envelope, const uint32_t *settings, size_t settings_length, size_t readings_length,
    uint8_t *output, size_t output_length)
{
    size_t n = envelope->figures.n;
    return cundarivo_try_settings(
        envelope->figures, envelope->codes, n, envelope->centre, n,
        settings, settings_length,
        bytes_of(RECORDED), readings_length,
        output, output_length);
}

static void try_alerts(const struct envelope *envelope, struct text *trial)
{
    static const uint32_t above[] = {2, 100};
    size_t length = strlen(RECORDED);
    cundarivo_written_answer answer = try_settings(
        envelope, SETTINGS, SETTINGS_LENGTH, length, trial->bytes, CUNDARIVO_TRIAL_BYTES);
    require("trial of settings", answer.number, answer.line);
    trial->length = answer.length;
    printf("trial of settings:\n");
    print_bytes(trial->bytes, trial->length);

    uint8_t output[CUNDARIVO_TRIAL_BYTES];
    answer = try_settings(envelope, above, 2, length, output, sizeof output);
    print_not_written("trial of a c of 100", answer);
    answer = try_settings(envelope, SETTINGS, SETTINGS_LENGTH - 1, length, output, sizeof output);
    print_not_written("trial of a k without its c", answer);
    answer = try_settings(envelope, SETTINGS, 0, 0, output, sizeof output);
    print_not_written("trial of no setting on no reading", answer);
    answer = try_settings(envelope, SETTINGS, SETTINGS_LENGTH, 0, output, 0);
    print_not_written("trial on no reading", answer);
    answer = try_settings(envelope, SETTINGS, SETTINGS_LENGTH, length, output, trial->length - 1);
    print_not_written("trial in one byte fewer", answer);
}

static void chart_and_panel(const struct envelope *envelope)
{
    size_t n = envelope->figures.n;
    cundarivo_mark_answer mark =
        cundarivo_chart(envelope->figures, envelope->codes, n, envelope->centre, n, 1, 2);
    require("chart", mark.number, mark.line);
    printf("chart of channels 1 and 2: %s at %.17g, %.17g, radius %.17g\n",
        mark.mark == CUNDARIVO_DOT ? "dot" : "disc", mark.horizontal, mark.vertical, mark.radius);
    mark = cundarivo_chart(envelope->figures, envelope->codes, n, envelope->centre, n, 1, 3);
    if (mark.number == CUNDARIVO_ACCEPTED) {
        fail("there is a chart of a third channel");
    }
    print_refusal(stdout, "chart of channels 1 and 3", mark.number, mark.line);

    int32_t steps[CUNDARIVO_CHANNELS];
    cundarivo_panel_answer panel = cundarivo_panel(
        envelope->figures, envelope->codes, n, envelope->centre, n, steps, CUNDARIVO_CHANNELS);
    require("panel", panel.number, panel.line);
    printf("panel:");
    for (size_t channel = 0; channel < n; channel++) {
        printf(" %" PRId32, steps[channel]);
    }
    printf("\n");
}

/* Prints what a program printed. */
static void print_output(const char *program, cundarivo_written_answer answer, const uint8_t *output)
{
    require(program, answer.number, answer.line);
    printf("%s:\n", program);
    print_bytes(output, answer.length);
}

/* Values below detection are printed as the number that they read as. */
static void run_plain(void)
{
    static const char text[] = "REF,2,TOC,CND\nA,<5,0\nB,6,<40\n";
    uint8_t output[CUNDARIVO_PROGRAM_PLAIN_BYTES];
    cundarivo_written_answer answer =
        cundarivo_program_plain(bytes_of(text), strlen(text), output, sizeof output);
    print_output("program plain", answer, output);
    answer = cundarivo_program_plain(bytes_of(text), strlen(text) - 1, output, sizeof output);
    print_output("program plain of a text without its last byte", answer, output);
    answer = cundarivo_program_plain(bytes_of(text), strlen(text), output, 2);
    print_not_written("program plain in 2 bytes", answer);
}

/* The settings are a text here; the record is that of the envelope. */
static void run_alerts(const struct text *record, const struct text *trial)
{
    static const char faulty[] = "2,2\n01,1\n";
    uint8_t output[CUNDARIVO_PROGRAM_ALERTS_BYTES];
    cundarivo_written_answer answer = cundarivo_program_alerts(
        bytes_of(REFERENCE), strlen(REFERENCE), record->bytes, record->length,
        bytes_of(SETTINGS_TEXT), strlen(SETTINGS_TEXT), bytes_of(RECORDED), strlen(RECORDED),
        output, sizeof output);
    require("program alerts", answer.number, answer.line);
    if (answer.length != trial->length || memcmp(output, trial->bytes, trial->length) != 0) {
        fail("program alerts prints another trial");
    }
    printf("program alerts: the same trial\n");

    answer = cundarivo_program_alerts(
        bytes_of(REFERENCE), strlen(REFERENCE), record->bytes, record->length,
        bytes_of(faulty), strlen(faulty), bytes_of(RECORDED), strlen(RECORDED),
        output, sizeof output);
    print_output("program alerts of a setting with a leading zero", answer, output);
}

/* The other four programs on the texts of the example, each lent by itself. */
static void run_programs(const struct text *record)
{
    static struct text readings;
    static uint8_t output[CUNDARIVO_PROGRAM_JUDGE_BYTES];
    const uint8_t *reference = bytes_of(REFERENCE);
    size_t reference_length = strlen(REFERENCE);
    for (size_t i = 0; i < READING_COUNT; i++) {
        append(&readings, bytes_of(READINGS[i]), strlen(READINGS[i]));
    }

    cundarivo_written_answer answer = cundarivo_program_draw(
        reference, reference_length, output, CUNDARIVO_PROGRAM_DRAW_BYTES);
    require("program draw", answer.number, answer.line);
    if (answer.length != record->length || memcmp(output, record->bytes, record->length) != 0) {
        fail("program draw prints another record");
    }
    printf("program draw: the same record\n");

    answer = cundarivo_program_verify(
        reference, reference_length, record->bytes, record->length,
        output, CUNDARIVO_PROGRAM_VERIFY_BYTES);
    print_output("program verify", answer, output);
    answer = cundarivo_program_panel(
        reference, reference_length, record->bytes, record->length,
        output, CUNDARIVO_PROGRAM_PANEL_BYTES);
    print_output("program panel", answer, output);
    answer = cundarivo_program_judge(
        reference, reference_length, record->bytes, record->length, readings.bytes, readings.length,
        output, CUNDARIVO_PROGRAM_JUDGE_BYTES);
    print_output("program judge", answer, output);
}

/* What the programs turn back is printed; only lent memory that is too short is refused. */
static void run_programs_on_faults(const struct text *record)
{
    static struct text joined;
    uint8_t output[CUNDARIVO_PROGRAM_VERIFY_BYTES];
    const uint8_t *reference = bytes_of(REFERENCE);
    size_t reference_length = strlen(REFERENCE);
    append(&joined, reference, reference_length);
    append(&joined, bytes_of("\n"), 1);
    append(&joined, record->bytes, record->length);

    cundarivo_written_answer answer = cundarivo_program_verify(
        joined.bytes, joined.length, record->bytes, record->length, output, sizeof output);
    print_output("program verify of a reference text that holds a record", answer, output);
    answer = cundarivo_program_verify(
        record->bytes, record->length, reference, reference_length, output, sizeof output);
    print_output("program verify of record and reference text exchanged", answer, output);
    answer = cundarivo_program_verify(
        reference, reference_length, record->bytes, record->length, output, 2);
    if (answer.number == CUNDARIVO_ACCEPTED) {
        fail("OK and its byte 10 fit 2 bytes");
    }
    print_refusal(stdout, "program verify in 2 bytes", answer.number, answer.line);
}

int main(void)
{
    static struct envelope envelope;
    static struct text record;
    static struct text trial;
    read_reference(&envelope);
    read_faulty_reference();
    write_reference_back(&envelope);
    draw(&envelope);
    check(&envelope);
    write_record(&envelope, &record);
    read_record_back(&envelope, &record);
    for (size_t i = 0; i < READING_COUNT; i++) {
        judge(&envelope, READINGS[i]);
    }
    measure(&envelope, READINGS[1], CUNDARIVO_CHANNELS);
    measure(&envelope, READINGS[2], CUNDARIVO_CHANNELS);
    measure(&envelope, READINGS[2], 1);
    measure(&envelope, READINGS[4], 1);
    try_alerts(&envelope, &trial);
    chart_and_panel(&envelope);
    run_plain();
    run_programs(&record);
    run_alerts(&record, &trial);
    run_programs_on_faults(&record);
    if (fflush(stdout) != 0 || ferror(stdout)) {
        fail("standard output cannot be written");
    }
    return EXIT_SUCCESS;
}
