/* Hoarbale: grid placement and cell occupancy, proved. Link with libhoarbale_c.a, which `tools/staticlib` makes.
 *
 * No call asks anything of its caller but that a pointer is good for the length beside it. A refusal is told by document 01's
 * number; 0 is no refusal. What a call may write is named with it; a refusal writes nothing unless that is said. */
#ifndef HOARBALE_H
#define HOARBALE_H

#include <stdbool.h>
#include <stddef.h>
#include <stdint.h>

#ifdef __cplusplus
extern "C" {
#endif

/* How many tracks an axis has: before the explicit grid, in it, and behind it. At most 10000 before, at most 10000 in the other two. */
typedef struct {
    uint16_t negative;
    uint16_t explicit_tracks;
    uint16_t positive;
} hoarbale_counts;

/* A line, or a refusal's number; the line is 0 on refusal. */
typedef struct {
    uint8_t number;
    int16_t line;
} hoarbale_line;

/* A line's place in the track vector, or that it has none, or a refusal's number. */
typedef struct {
    uint8_t number;
    bool present;
    uint32_t index;
} hoarbale_index;

/* Where a search goes on, or that nothing is in the way (found is false), or a refusal's number. */
typedef struct {
    uint8_t number;
    bool found;
    int16_t line;
} hoarbale_jump;

/* A part of a lent list: the place of its first number, and how many numbers it has. An empty part starts at 0. */
typedef struct {
    size_t start;
    size_t length;
} hoarbale_part;

/* The final counts, or a refusal's number and the index that goes with it; counts are 0 on refusal. */
typedef struct {
    uint8_t number;
    size_t index;
    hoarbale_counts columns;
    hoarbale_counts rows;
} hoarbale_placed;

/* The origin-zero line of a CSS line, limited to -10000..10000. Refusal 11: line 0, or an explicit count over 10000. */
hoarbale_line hoarbale_origin_zero_line(int16_t css_line, uint16_t explicit_tracks);

/* The CSS line of an origin-zero line. Refusal 11: an explicit count over 10000, or a line outside -10000..10000. */
hoarbale_line hoarbale_css_line(int16_t line, uint16_t explicit_tracks);

/* A line's place in the track vector; not present outside the grid. Refusal 3: counts outside the limits. */
hoarbale_index hoarbale_track_index(uint16_t negative, uint16_t explicit_tracks, uint16_t positive, int16_t line);

/* Paints the tracks track_start..track_end and the lines start..end of a list with a state, 1 or 2. A list has records of four
 * numbers: track, start, end, state. 0, or a refusal, which changes nothing: 5 its length is wrong (a multiple of 4, at most
 * 1048576), 9 it breaks the list rules, 10 a bad area, 7 the records do not fit. */
uint8_t hoarbale_paint(int16_t *list, size_t length, int16_t track_start, int16_t track_end, int16_t start, int16_t end,
                       int16_t state);

/* The largest, over the crossed tracks, of the end of the last overlapping record; not found if the area is free.
 * Refusals 5, 9, 10. */
hoarbale_jump hoarbale_collision_jump(const int16_t *list, size_t length, int16_t track_start, int16_t track_end, int16_t start,
                                      int16_t end);

/* One past the last track of the span that has a record; not found if none has. Refusals 5, 9, 10. */
hoarbale_jump hoarbale_occupied_track_jump(const int16_t *list, size_t length, int16_t track_start, int16_t track_end);

/* Where the records of a track stand in the list that the axis names: 0 the column list, 1 the row list. Empty if the track has
 * none, the axis is another number, or the named list is not good; the other list is not looked at. */
hoarbale_part hoarbale_records_of_track(const int16_t *rows, size_t rows_length, const int16_t *columns, size_t columns_length,
                                        uint8_t axis, int16_t track);

/* Places items, six numbers each (column kind, a, b, row kind, a, b; kind 0 is the lines a..b, kind 1 a span of a with b = 0), by
 * flow: 0 row, 1 column, 2 row dense, 3 column dense. Writes five numbers an item (column start, column end, row start, row end,
 * mark) to the first places of answers, and both lists; places past the last item are never touched. The mark's bits: 1 pressed
 * into the limited grid, 2 fixed in both axes, 4 wider than the grid and laid untested.
 * Refusals that change nothing: 1 flow, 2 items not whole or over 2000, 3 counts, 4 answers too short, 5 a list's length, 6 an item
 * (its index is given). Refusals that leave the items' answer places and both lists zero, with the item's index: 7 the row list is
 * too short, 8 the column list. */
hoarbale_placed hoarbale_place(uint8_t flow, hoarbale_counts columns, hoarbale_counts rows, const int16_t *items,
                               size_t items_length, int16_t *answers, size_t answers_length, int16_t *row_list,
                               size_t row_list_length, int16_t *column_list, size_t column_list_length);

#ifdef __cplusplus
}
#endif

#endif
