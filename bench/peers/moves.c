#include "moves.h"

enum { TOTAL = 65536, ROWS = 256, CHANNELS = 8 };

typedef struct {
    const int32_t *rows;
    int m, n;
    uint32_t weights[ROWS];
    int64_t centre[CHANNELS];
} state;

typedef struct {
    int far, near;
    uint64_t far_distance;
    int64_t g, squared_distance;
} pair;

static uint64_t scaled_squared_distance(const state *s, int row) {
    const int32_t *place = s->rows + row * s->n;
    int64_t sum = 0;
    for (int channel = 0; channel < s->n; channel++) {
        int64_t difference = TOTAL * (int64_t)place[channel] - s->centre[channel];
        sum += difference * difference;
    }
    return (uint64_t)sum;
}

static int64_t squared_distance(const state *s, int one, int other) {
    const int32_t *a = s->rows + one * s->n, *b = s->rows + other * s->n;
    int64_t sum = 0;
    for (int channel = 0; channel < s->n; channel++) {
        int64_t difference = (int64_t)a[channel] - b[channel];
        sum += difference * difference;
    }
    return sum;
}

/* The first row farthest from the centre, and the first nearest one with weight. */
static pair find_pair(const state *s) {
    pair p = {0, 0, scaled_squared_distance(s, 0), 0, 0};
    uint64_t near_distance = UINT64_MAX;
    for (int row = 1; row < s->m; row++) {
        uint64_t distance = scaled_squared_distance(s, row);
        if (distance > p.far_distance) {
            p.far = row;
            p.far_distance = distance;
        }
    }
    for (int row = 0; row < s->m; row++) {
        if (s->weights[row] > 0) {
            uint64_t distance = scaled_squared_distance(s, row);
            if (distance < near_distance) {
                p.near = row;
                near_distance = distance;
            }
        }
    }
    p.g = (int64_t)((p.far_distance - near_distance) / TOTAL);
    p.squared_distance = squared_distance(s, p.far, p.near);
    return p;
}

static void make_move(state *s, const pair *p) {
    int64_t amount = (p->g + p->squared_distance - 1) / (2 * p->squared_distance);
    if (amount > s->weights[p->near]) {
        amount = s->weights[p->near];
    }
    s->weights[p->near] -= (uint32_t)amount;
    s->weights[p->far] += (uint32_t)amount;
    for (int channel = 0; channel < s->n; channel++) {
        int64_t far = s->rows[p->far * s->n + channel], near = s->rows[p->near * s->n + channel];
        s->centre[channel] += amount * (far - near);
    }
}

static uint64_t scaled_lower_bound(const state *s) {
    int64_t weighted = 0, square = 0;
    for (int row = 0; row < s->m; row++) {
        int64_t length = 0;
        for (int channel = 0; channel < s->n; channel++) {
            int64_t place = s->rows[row * s->n + channel];
            length += place * place;
        }
        weighted += s->weights[row] * length;
    }
    for (int channel = 0; channel < s->n; channel++) {
        square += s->centre[channel] * s->centre[channel];
    }
    return (uint64_t)(TOTAL * weighted - square);
}

moves_answer moves_draw(const int32_t *rows, int m, int n, uint32_t budget) {
    state s = {rows, m, n, {TOTAL}, {0}};
    for (int channel = 0; channel < n; channel++) {
        s.centre[channel] = TOTAL * (int64_t)rows[channel];
    }
    moves_answer answer = {0, 0, 0};
    pair p = find_pair(&s);
    while (p.g > p.squared_distance && answer.moves < budget) {
        make_move(&s, &p);
        answer.moves++;
        p = find_pair(&s);
    }
    answer.scaled_squared_radius = p.far_distance;
    answer.scaled_lower_bound = scaled_lower_bound(&s);
    return answer;
}
