/* pocket.h: the proved pocket planner, as a station links it.
 *
 * The library is target/staticlib/libpocket.a (`rust/staticlib pocket`), for x86-64 Linux. Every function here is
 * proved, for all arguments: it ends, touches nothing outside what it is lent, and answers as its comment says.
 * docs/PROMISES.md leads from each sentence to the definition that is proved.
 *
 * Lengths are in mm, angles of a job in degrees, all other angles in radians, feeds in mm a minute. What is lent is a
 * pointer and a number of elements behind it; where that is 0 the pointer is not looked at. A `bool` is true or false.
 *
 * `refused` is 0 where there is an answer, else the number of the question of document 01 that is answered no; then
 * the other fields are 0. A function that refuses changes nothing, but for 16 to 18 of pocket_adaptive_clear. */
#ifndef POCKET_H
#define POCKET_H

#include <stdbool.h>
#include <stddef.h>
#include <stdint.h>

#ifdef __cplusplus
extern "C" {
#endif

typedef struct {
    double x, y;
} pocket_point;

/* A raster. Cell (i, j), column i and row j, has number j * nx + i; `origin` is the lower left corner of cell (0, 0). */
typedef struct {
    pocket_point origin;
    double cell;
    size_t nx, ny;
} pocket_grid;

/* ---- a job ---- */

/* What may be left out; `value` counts only where it is given. */
typedef struct {
    bool given;
    double value;
} pocket_setting;

typedef struct {
    double tool_diameter;
    double max_engagement_deg;
    double step_down;
    double top;
    double bottom;
    double stock_to_leave;
    double safe_z;
    double feed;
    double plunge_feed;
    double link_feed;
    double helix_ramp_deg;
    pocket_setting helix_radius;
    pocket_setting chip_thinning_max;
    pocket_setting resolution;
    bool keep_tool_down;
} pocket_params;

/* Areas are in square mm, of whole cells. */
typedef struct {
    size_t layers;
    size_t passes;
    size_t helix_entries;
    size_t retracts;
    size_t links;
    double planned_max_engagement_deg;
    double removed_area;
    double remaining_reachable_area;
    double unreachable_area;
    size_t starting_cells;
    size_t standing_cells;
    size_t helix_given_up;
    bool spent_budget;   /* planning ended because its work was spent */
    bool left_reachable; /* more than 0.05 of the starting area is left reachable */
} pocket_report;

typedef struct {
    uint32_t refused;
    pocket_report report;
} pocket_answer;

/* Plans a job: document 01's questions 1 to 18, the first no is the answer.
 *
 * vertices: x, y of each vertex, loop after loop, the pocket's first; lengths: how many vertices each loop has;
 * regions: how many loops each region has, the outer loop and its islands, the pocket first, then the stock's.
 * whole: there is no list of stock regions, and all of the pocket is stock. Else the regions after the first are the
 * stock, and none means no stock.
 *
 * Workspace, for a raster of N cells: 8 N bytes, 32 N + 8,192 words, 2 N singles, 32 N + 8,192 doubles. What it holds
 * before does not matter. rows and triples are as long as the caller likes: three numbers each.
 * Of the stack a plan takes some 100 KB (docs/PERFORMANCE.md): measured, not proved.
 *
 * A row is kind, first triple, count. Kinds: 1 helix (centre, radius), 2 plunge (point, 0), 3 link (point, 0),
 * 4 cut (point, angle of contact in radians; the first is 0, unmeasured).
 *
 * After 1 to 15 nothing is changed. After 16 to 18 all that is lent is zero. Else the first N bytes are the final
 * stock map (1 stock, 0 none), rows and triples begin with the list, and all else that is lent is zero. */
pocket_answer pocket_adaptive_clear(pocket_params params, bool whole, const double *vertices, size_t vertices_len,
                                    const uint32_t *lengths, size_t lengths_len, const uint32_t *regions,
                                    size_t regions_len, uint8_t *bytes, size_t bytes_len, uint32_t *words,
                                    size_t words_len, float *singles, size_t singles_len, double *doubles,
                                    size_t doubles_len, uint32_t *rows, size_t rows_len, double *triples,
                                    size_t triples_len);

/* ---- the stock map ----
 *
 * A map has a byte a cell, 1 where there is stock; any other byte is none, and stays as it is. Bytes beyond N are not
 * looked at. Refusals of all: 12, a coordinate (of the origin too) beyond +-20,000, a radius outside 0 to 2,000, a cell
 * outside 0.0001 to 100, or one that is no number; 14, a side of 0 or above 4,096, more than 1,048,576 cells; 15, a map
 * shorter than N. In that order. */

typedef struct {
    uint32_t refused;
    size_t count;
} pocket_count;

typedef struct {
    uint32_t refused;
    double value;
} pocket_number;

typedef struct {
    uint32_t refused;
    float value;
} pocket_single;

/* Points of a tool's rim: how many are over stock, of how many sampled. */
typedef struct {
    uint32_t refused;
    size_t hits, samples;
} pocket_rim;

typedef struct {
    uint32_t refused;
    bool found;
    size_t column, row;
} pocket_cell;

/* Clears the disk; how many cells were stock. */
pocket_count pocket_clear_disk(pocket_grid grid, uint8_t *map, size_t map_len, pocket_point center, double radius);

/* Clears the crescent: the stock of the disk at `center` that is not in that at `before`. The numbers of these cells
 * are appended to the log, which has `used` entries; `count` is how many it has then. What the log held beyond them
 * stays. 15 also where the log is shorter than N, or has less room behind its used part than the map has stock. */
pocket_count pocket_clear_crescent(pocket_grid grid, uint8_t *map, size_t map_len, pocket_point before,
                                   pocket_point center, double radius, uint32_t *log, size_t log_len, size_t used);

/* Sets the first `used` logged cells back to stock, or clears them again. 14 also where one of them is not below N or
 * `used` is more than the log has. The answer is `refused`. */
uint32_t pocket_undo(size_t nx, size_t ny, uint8_t *map, size_t map_len, const uint32_t *log, size_t log_len,
                     size_t used);
uint32_t pocket_clear_again(size_t nx, size_t ny, uint8_t *map, size_t map_len, const uint32_t *log, size_t log_len,
                            size_t used);

/* How many stock cells are in the disk, and in the whole map. */
pocket_count pocket_count_disk(pocket_grid grid, const uint8_t *map, size_t map_len, pocket_point center,
                               double radius);
pocket_count pocket_standing(size_t nx, size_t ny, const uint8_t *map, size_t map_len);

/* How many points of a tool's rim are over stock, by samples of the rim: at least 8; above 4,096 is 12. */
pocket_rim pocket_contact(pocket_grid grid, const uint8_t *map, size_t map_len, pocket_point center, double radius,
                          size_t samples);

/* The angle that so many hits of so many samples stand for, TAU where all are hit; every contact that is not refused
 * has one. 12: fewer than 8 or above 4,096 samples, more hits than those. */
pocket_number pocket_contact_angle(size_t hits, size_t samples);

/* The cell that holds a point; `found` is false off the grid. */
pocket_cell pocket_cell_of(pocket_grid grid, pocket_point point);

/* Sets the cells whose centres are in a region: in its outer loop and in no island, within each loop by the even-odd
 * rule; the other cells stay. 12 also for a vertex beyond +-20,000; then 13: 1 to 65 loops of 3 or more vertices, 4,096
 * vertices in all, as many as are lent. The answer is `refused`. */
uint32_t pocket_fill_region(pocket_grid grid, uint8_t *map, size_t map_len, const double *vertices,
                            size_t vertices_len, const uint32_t *lengths, size_t lengths_len);

/* The distance, in cells, of each cell to the nearest whose byte is `mark`: the least exact square in `squares`
 * (4,294,967,295 where nothing is marked), its rounded root in `distances` (infinite there). squares has N places and
 * 3 nx behind them that are zero afterwards, distances N: 15 where they are shorter. What lies beyond stays. The
 * answer is `refused`. */
uint32_t pocket_distance_map(size_t nx, size_t ny, const uint8_t *marks, size_t marks_len, uint8_t mark,
                             uint32_t *squares, size_t squares_len, double *distances, size_t distances_len);

/* ---- numbers: 12 where the argument is no number or out of range ---- */

/* IEEE 754's root, of 0 or more; the nearest float. */
pocket_number pocket_sqrt(double x);
pocket_single pocket_narrow(double x);

/* Document 01's sine and cosine, of 0 to TAU. */
pocket_number pocket_sin(double angle);
pocket_number pocket_cos(double angle);

/* How many cells a pass of such a length is to remove at least. 12: a length that is no number, a cell out of range. */
pocket_count pocket_wanted(double length, double cell);

#ifdef __cplusplus
}
#endif

#endif
