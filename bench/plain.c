/*
 * The same work in plain C, unproved: what one would write by hand, as a yardstick for the library's speed. It reads a model file (any
 * fault is just -1), lays the nodes out, writes the leaves and goes through the pairs with the overflow check of the scope document.
 *
 * Version 1 is straightforward: every pair works its two cells out from the indices.
 * Version 2 is optimised with care: strides are taken out of the loops, cells go forward by increments, a result cell is summed in
 * a register. Overflow is checked at every pair all the same.
 *
 * Neither can stop in the middle of a run, which the library can.
 */
#include "plain.h"

#include <string.h>

enum { CENTRES = 16, CHAINS = 8, NODES = 31, ROOM = 8192 };

typedef struct {
    int centres, chains, nodes;
    int window[CHAINS];
    unsigned load[CENTRES][CHAINS];
    unsigned route[CHAINS];   /* a bit for each centre */
    int centre_of[NODES];     /* in postorder; -1 for a join */
} model;

typedef struct {
    int centre;               /* -1 for a join */
    int left, right;
    unsigned under;           /* a bit for each centre */
    unsigned partial, finished; /* a bit for each chain */
    int many, chain[CHAINS];  /* the partial chains, ascending */
    size_t stride[CHAINS];    /* by chain; 0 where it is not partial */
    size_t cells, base;
} node;

typedef struct {
    int window[CHAINS];
    node node[NODES];
    size_t cells;
    uint64_t pairs;
} layout;

static uint64_t binomial[121][16];

void plain_prepare(void)
{
    for (int n = 0; n <= 120; n++)
        for (int k = 0; k < 16; k++)
            binomial[n][k] = k == 0 ? 1 : k > n ? 0 : binomial[n - 1][k] + binomial[n - 1][k - 1];
}

static int read_model(const uint8_t *b, size_t n, model *m)
{
    size_t p = 3;
    int depth = 0;
    unsigned seen = 0;

    memset(m, 0, sizeof *m);
    if (n < 3 || b[0] != 1 || b[1] < 1 || b[1] > CENTRES || b[2] < 1 || b[2] > CHAINS)
        return -1;
    m->centres = b[1];
    m->chains = b[2];
    for (int k = 0; k < m->chains; k++, p += 3) {
        if (p + 3 > n || b[p] != 2 || b[p + 1] != k + 1 || b[p + 2] > 15)
            return -1;
        m->window[k] = b[p + 2];
    }
    for (; p < n && b[p] == 3; p += 5) {
        if (p + 5 > n)
            return -1;
        int c = b[p + 1] - 1, k = b[p + 2] - 1;
        unsigned load = b[p + 3] * 256u + b[p + 4];
        if (c < 0 || c >= m->centres || k < 0 || k >= m->chains || load == 0)
            return -1;
        m->load[c][k] = load;
        m->route[k] |= 1u << c;
    }
    while (p < n && b[p] != 6) {
        if (m->nodes == NODES)
            return -1;
        if (b[p] == 4 && p + 2 <= n) {
            int c = b[p + 1] - 1;
            if (c < 0 || c >= m->centres || (seen >> c & 1))
                return -1;
            seen |= 1u << c;
            m->centre_of[m->nodes++] = c;
            depth++;
            p += 2;
        } else if (b[p] == 5 && depth >= 2) {
            m->centre_of[m->nodes++] = -1;
            depth--;
            p++;
        } else {
            return -1;
        }
    }
    return p + 1 == n && depth == 1 && seen == (1u << m->centres) - 1 ? 0 : -1;
}

/* lower: the chain's index, or -1 for none */
static void lay_out(const model *m, int lower, layout *q)
{
    int stack[NODES], top = 0;

    for (int k = 0; k < m->chains; k++)
        q->window[k] = m->window[k] - (k == lower);
    q->cells = 0;
    q->pairs = 0;
    for (int i = 0; i < m->nodes; i++) {
        node *x = &q->node[i];
        x->centre = m->centre_of[i];
        if (x->centre >= 0) {
            x->under = 1u << x->centre;
        } else {
            x->right = stack[--top];
            x->left = stack[--top];
            x->under = q->node[x->left].under | q->node[x->right].under;
        }
        stack[top++] = i;

        x->many = 0;
        x->partial = x->finished = 0;
        for (int k = 0; k < m->chains; k++) {
            x->stride[k] = 0;
            if (!(m->route[k] & ~x->under)) {
                x->finished |= 1u << k;
            } else if (m->route[k] & x->under) {
                x->partial |= 1u << k;
                x->chain[x->many++] = k;
            }
        }
        x->cells = 1;
        for (int t = x->many - 1; t >= 0; t--) {
            x->stride[x->chain[t]] = x->cells;
            x->cells *= q->window[x->chain[t]] + 1;
        }
        x->base = q->cells;
        q->cells += x->cells;

        if (x->centre < 0) {
            unsigned l = q->node[x->left].partial, r = q->node[x->right].partial;
            uint64_t pairs = 1;
            for (int k = 0; k < m->chains; k++) {
                uint64_t w = q->window[k];
                if (l & r & 1u << k)
                    pairs *= x->partial & 1u << k ? (w + 1) * (w + 2) / 2 : w + 1;
                else if ((l | r) & 1u << k)
                    pairs *= w + 1;
            }
            q->pairs += pairs;
        }
    }
}

static int write_leaves(const model *m, const layout *q, uint64_t *area)
{
    for (int i = 0; i < m->nodes; i++) {
        const node *x = &q->node[i];
        uint64_t *cell = area + x->base;
        int n[CHAINS];

        if (x->centre < 0) {
            memset(cell, 0, x->cells * sizeof *cell);
            continue;
        }
        for (int k = 0; k < m->chains; k++)
            n[k] = x->finished >> k & 1 ? q->window[k] : 0;
        for (size_t c = 0; c < x->cells; c++) {
            uint64_t v = 1;
            int sum = 0;
            for (int k = 0; k < m->chains; k++) {
                if (n[k] == 0)
                    continue;
                sum += n[k];
                if (__builtin_mul_overflow(v, binomial[sum][n[k]], &v))
                    return 14;
                for (int t = 0; t < n[k]; t++)
                    if (__builtin_mul_overflow(v, (uint64_t)m->load[x->centre][k], &v))
                        return 14;
            }
            cell[c] = v;
            for (int t = x->many - 1; t >= 0; t--) {
                int k = x->chain[t];
                if (n[k] < q->window[k]) {
                    n[k]++;
                    break;
                }
                n[k] = 0;
            }
        }
    }
    return 0;
}

/* ---- version 1 */

static int join_1(const model *m, const layout *q, const node *x, uint64_t *area)
{
    const node *l = &q->node[x->left], *r = &q->node[x->right];
    int shared = 0, chain[CHAINS], i[CHAINS];

    for (int k = 0; k < m->chains; k++) {
        if (l->partial & r->partial & 1u << k)
            chain[shared++] = k;
        i[k] = x->finished >> k & 1 ? q->window[k] : 0;
    }
    for (size_t c = 0; c < x->cells; c++) {
        uint64_t *result = &area[x->base + c];
        int j[CHAINS] = {0}, t;
        do {
            size_t left = l->base, right = r->base;
            uint64_t product;
            for (t = 0; t < l->many; t++) {
                int k = l->chain[t];
                left += (r->partial >> k & 1 ? j[k] : i[k]) * l->stride[k];
            }
            for (t = 0; t < r->many; t++) {
                int k = r->chain[t];
                right += (l->partial >> k & 1 ? i[k] - j[k] : i[k]) * r->stride[k];
            }
            if (__builtin_mul_overflow(area[left], area[right], &product) || __builtin_add_overflow(*result, product, result))
                return 14;
            for (t = shared - 1; t >= 0; t--) {
                int k = chain[t];
                if (j[k] < i[k]) {
                    j[k]++;
                    break;
                }
                j[k] = 0;
            }
        } while (t >= 0);
        for (t = x->many - 1; t >= 0; t--) {
            int k = x->chain[t];
            if (i[k] < q->window[k]) {
                i[k]++;
                break;
            }
            i[k] = 0;
        }
    }
    return 0;
}

/* ---- version 2 */

typedef struct {
    int many;
    size_t left[CHAINS], right[CHAINS]; /* strides of the shared chains */
    int end[CHAINS];                    /* j runs from 0 to this */
} shared_chains;

static inline int sum_last(const uint64_t *l, const uint64_t *r, size_t left, size_t right, int end, uint64_t *sum)
{
    uint64_t s = *sum, product;

    for (int t = 0; t <= end; t++, l += left, r -= right)
        if (__builtin_mul_overflow(*l, *r, &product) || __builtin_add_overflow(s, product, &s))
            return 1;
    *sum = s;
    return 0;
}

static int sum_cell(const shared_chains *s, int d, const uint64_t *l, const uint64_t *r, uint64_t *sum)
{
    if (d == s->many - 1)
        return sum_last(l, r, s->left[d], s->right[d], s->end[d], sum);
    for (int t = 0; t <= s->end[d]; t++, l += s->left[d], r -= s->right[d])
        if (sum_cell(s, d + 1, l, r, sum))
            return 1;
    return 0;
}

static int join_2(const model *m, const layout *q, const node *x, uint64_t *area)
{
    const node *ln = &q->node[x->left], *rn = &q->node[x->right];
    const uint64_t *l = area + ln->base, *r = area + rn->base;
    uint64_t *result = area + x->base;
    size_t left[CHAINS], right[CHAINS]; /* strides of the result's chains in the children */
    int place[CHAINS], i[CHAINS] = {0}; /* place: among the shared chains, or -1 */
    shared_chains s;

    s.many = 0;
    for (int k = 0; k < m->chains; k++) {
        place[k] = -1;
        if (ln->partial & rn->partial & 1u << k) {
            place[k] = s.many;
            s.left[s.many] = ln->stride[k];
            s.right[s.many] = rn->stride[k];
            s.end[s.many] = x->finished >> k & 1 ? q->window[k] : 0;
            r += s.end[s.many] * rn->stride[k];
            s.many++;
        }
    }
    for (int t = 0; t < x->many; t++) {
        int k = x->chain[t];
        left[t] = place[k] >= 0 ? 0 : ln->stride[k];
        right[t] = rn->stride[k];
    }
    for (size_t c = 0; c < x->cells; c++) {
        uint64_t sum = result[c], product;
        if (s.many == 0) {
            if (__builtin_mul_overflow(*l, *r, &product) || __builtin_add_overflow(sum, product, &sum))
                return 14;
        } else if (sum_cell(&s, 0, l, r, &sum)) {
            return 14;
        }
        result[c] = sum;
        for (int t = x->many - 1; t >= 0; t--) {
            int k = x->chain[t];
            if (i[t] < q->window[k]) {
                i[t]++;
                l += left[t];
                r += right[t];
                if (place[k] >= 0)
                    s.end[place[k]]++;
                break;
            }
            l -= left[t] * i[t];
            r -= right[t] * i[t];
            if (place[k] >= 0)
                s.end[place[k]] = 0;
            i[t] = 0;
        }
    }
    return 0;
}

/* ---- */

static int whole_run(int version, const model *m, int lower, uint64_t *area, layout *q, uint64_t *value)
{
    int refusal;

    lay_out(m, lower, q);
    if (q->cells > ROOM)
        return 12;
    if ((refusal = write_leaves(m, q, area)) != 0)
        return refusal;
    for (int i = 0; i < m->nodes; i++) {
        const node *x = &q->node[i];
        if (x->centre >= 0)
            continue;
        if ((refusal = version == 1 ? join_1(m, q, x, area) : join_2(m, q, x, area)) != 0)
            return refusal;
    }
    *value = area[q->cells - 1];
    return 0;
}

int plain_run(int version, const uint8_t *file, size_t file_len, uint64_t *area, uint64_t *value)
{
    model m;
    layout q;

    if (read_model(file, file_len, &m) != 0)
        return -1;
    return whole_run(version, &m, -1, area, &q, value);
}

int plain_sheet(int version, const uint8_t *file, size_t file_len, uint64_t *area, plain_sheet_answer *answer)
{
    model m;
    layout q;
    int refusal;
    unsigned largest = 0;

    memset(answer, 0, sizeof *answer);
    if (read_model(file, file_len, &m) != 0)
        return -1;
    if ((refusal = whole_run(version, &m, -1, area, &q, &answer->value)) != 0)
        return refusal;
    answer->pairs = q.pairs;
    answer->cells = q.cells;
    answer->chains = m.chains;
    for (int k = 0; k < m.chains; k++)
        if (m.window[k] > 0 && (refusal = whole_run(version, &m, k, area, &q, &answer->numerators[k])) != 0)
            return refusal == 14 ? 15 : refusal;
    memset(area, 0, answer->cells * sizeof *area);
    for (int c = 0; c < m.centres; c++) {
        unsigned sum = 0;
        for (int k = 0; k < m.chains; k++)
            sum += m.load[c][k];
        if (c == 0 || sum > largest) {
            largest = sum;
            answer->busiest = c + 1;
        }
    }
    return 0;
}
