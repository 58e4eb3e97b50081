/* Plans a rectangular pocket with one island, and asks one leaf what the tool's rim touches in its final map. */
#include "pocket.h"

#include <stdio.h>
#include <stdlib.h>

/* The pocket, 20 by 14 mm, and an island of 3 by 3 mm. */
static const double vertices[] = {0, 0, 20, 0, 20, 14, 0, 14, 12, 5, 15, 5, 15, 8, 12, 8};
static const uint32_t lengths[] = {4, 4};
static const uint32_t regions[] = {2};

#define CELL 0.0625
enum { MOST_ROWS = 4096, MOST_TRIPLES = 65536 };

typedef struct {
    size_t n; /* cells */
    uint8_t *bytes;
    uint32_t *words;
    float *singles;
    double *doubles;
    uint32_t *rows;
    double *triples;
} lent;

static pocket_params parameters(void) {
    pocket_params p = {0};
    p.tool_diameter = 4;
    p.max_engagement_deg = 70;
    p.step_down = 4;
    p.top = 0;
    p.bottom = -4;
    p.safe_z = 5;
    p.feed = 1000;
    p.plunge_feed = 300;
    p.link_feed = 1000;
    p.helix_ramp_deg = 2;
    p.resolution.given = true;
    p.resolution.value = CELL;
    p.keep_tool_down = true;
    return p;
}

/* The raster over the pocket's bounds with two cells around them; the sides of this one come out whole. */
static pocket_grid raster(double cell) {
    pocket_grid g = {{-2 * cell, -2 * cell}, cell, (size_t)(20 / cell) + 5, (size_t)(14 / cell) + 5};
    return g;
}

static lent lend(size_t n) {
    lent l;
    l.n = n;
    l.bytes = malloc(8 * n * sizeof *l.bytes);
    l.words = malloc((32 * n + 8192) * sizeof *l.words);
    l.singles = malloc(2 * n * sizeof *l.singles);
    l.doubles = malloc((32 * n + 8192) * sizeof *l.doubles);
    l.rows = malloc(3 * MOST_ROWS * sizeof *l.rows);
    l.triples = malloc(3 * MOST_TRIPLES * sizeof *l.triples);
    return l;
}

static bool all_lent(const lent *l) {
    return l->bytes && l->words && l->singles && l->doubles && l->rows && l->triples;
}

static void give_back(lent *l) {
    free(l->bytes);
    free(l->words);
    free(l->singles);
    free(l->doubles);
    free(l->rows);
    free(l->triples);
}

static pocket_answer plan(lent *l) {
    return pocket_adaptive_clear(parameters(), true, vertices, sizeof vertices / sizeof *vertices, lengths,
                                 sizeof lengths / sizeof *lengths, regions, sizeof regions / sizeof *regions, l->bytes,
                                 8 * l->n, l->words, 32 * l->n + 8192, l->singles, 2 * l->n, l->doubles,
                                 32 * l->n + 8192, l->rows, 3 * MOST_ROWS, l->triples, 3 * MOST_TRIPLES);
}

/* A row of the list has a kind above 0; behind it are zeros. */
static size_t rows_used(const lent *l) {
    size_t k = 0;
    while (k < MOST_ROWS && l->rows[3 * k] != 0) k++;
    return k;
}

static bool show(const lent *l, pocket_report r) {
    size_t rows = rows_used(l);
    size_t triples = rows == 0 ? 0 : (size_t)l->rows[3 * rows - 2] + l->rows[3 * rows - 1];
    printf("planned: %zu passes, %zu links, %zu helix entries\n", r.passes, r.links, r.helix_entries);
    printf("contact at most %.2f degrees, removed %.2f square mm\n", r.planned_max_engagement_deg, r.removed_area);
    printf("list: %zu rows, %zu triples\n", rows, triples);
    pocket_grid g = raster(CELL);
    pocket_point corner = {2, 2};
    pocket_count standing = pocket_standing(g.nx, g.ny, l->bytes, l->n);
    pocket_rim contact = pocket_contact(g, l->bytes, l->n, corner, 2.6, 360);
    pocket_number angle = pocket_contact_angle(contact.hits, contact.samples);
    if (standing.refused || contact.refused || angle.refused) {
        printf("the final map is refused: %u, %u\n", (unsigned)standing.refused, (unsigned)contact.refused);
        return false;
    }
    printf("stock left: %zu cells\n", standing.count);
    printf("contact of a radius of 2.6 mm in a corner: %zu of %zu rim points, %.4f\n", contact.hits, contact.samples,
           angle.value);
    return standing.count == r.standing_cells;
}

int main(void) {
    pocket_grid g = raster(CELL);
    lent l = lend(g.nx * g.ny);
    bool good = all_lent(&l);
    if (good) {
        pocket_answer answer = plan(&l);
        good = answer.refused == 0;
        if (good) {
            good = show(&l, answer.report);
        } else {
            printf("refused by question %u\n", (unsigned)answer.refused);
        }
    }
    give_back(&l);
    return good ? 0 : 1;
}
