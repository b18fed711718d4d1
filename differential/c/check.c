/* Every call of hoarbale.h, with values that would show a wrong order or width of an argument. Nothing else holds the header
 * against the library's source. */
#include <stdio.h>
#include <string.h>

#include "hoarbale.h"

static int bad;

static void same(const char *what, long got, long wanted)
{
    if (got != wanted) {
        printf("%s: %ld, not %ld\n", what, got, wanted);
        bad++;
    }
}

int main(void)
{
    hoarbale_line line = hoarbale_origin_zero_line(-5, 3);
    same("origin-zero number", line.number, 0);
    same("origin-zero line", line.line, -1);
    same("origin-zero of 0", hoarbale_origin_zero_line(0, 3).number, 11);

    line = hoarbale_css_line(-1, 7);
    same("css number", line.number, 0);
    same("css line", line.line, -9);
    same("css of 10001", hoarbale_css_line(10001, 7).number, 11);

    hoarbale_index place = hoarbale_track_index(2, 3, 5, 4);
    same("index number", place.number, 0);
    same("index present", place.present, 1);
    same("index", (long)place.index, 12);
    same("index before the grid", hoarbale_track_index(2, 3, 5, -3).present, 0);
    same("index of counts over the limit", hoarbale_track_index(10001, 0, 0, 0).number, 3);

    int16_t rows[16] = {0};
    int16_t columns[12] = {0};
    same("paint", hoarbale_paint(rows, 16, 1, 3, 4, 8, 2), 0);
    const int16_t painted[16] = {1, 4, 8, 2, 2, 4, 8, 2};
    same("painted", memcmp(rows, painted, sizeof rows), 0);
    same("paint with state 3", hoarbale_paint(rows, 16, 1, 3, 4, 8, 3), 10);
    same("paint on 15 numbers", hoarbale_paint(rows, 15, 1, 3, 4, 8, 2), 5);

    hoarbale_jump jump = hoarbale_collision_jump(rows, 16, 2, 5, 0, 5);
    same("collision number", jump.number, 0);
    same("collision found", jump.found, 1);
    same("collision line", jump.line, 8);
    same("collision beside", hoarbale_collision_jump(rows, 16, 2, 5, 8, 9).found, 0);

    jump = hoarbale_occupied_track_jump(rows, 16, -5, 6);
    same("occupied found", jump.found, 1);
    same("occupied line", jump.line, 3);
    same("occupied past", hoarbale_occupied_track_jump(rows, 16, 3, 6).found, 0);

    hoarbale_part part = hoarbale_records_of_track(rows, 16, columns, 12, 1, 2);
    same("part start", (long)part.start, 4);
    same("part length", (long)part.length, 4);
    same("part of the other list", (long)hoarbale_records_of_track(rows, 16, columns, 12, 0, 2).length, 0);

    /* Under column flow the second tile, fixed to column 0, is searched from the first row of the grid, which is -1. */
    const hoarbale_counts two = {0, 1, 0};
    const hoarbale_counts three = {1, 2, 0};
    const int16_t items[12] = {0, 0, 1, 0, 0, 1, 0, 0, 1, 1, 1, 0};
    int16_t answers[12] = {9, 9, 9, 9, 9, 9, 9, 9, 9, 9, 9, 9};
    hoarbale_placed placed = hoarbale_place(1, two, three, items, 12, answers, 12, rows, 16, columns, 12);
    same("place number", placed.number, 0);
    same("place index", (long)placed.index, 0);
    const int16_t wanted[12] = {0, 1, 0, 1, 2, 0, 1, -1, 0, 0, 9, 9};
    same("answers", memcmp(answers, wanted, sizeof answers), 0);
    same("columns negative", placed.columns.negative, 0);
    same("columns explicit", placed.columns.explicit_tracks, 1);
    same("rows negative", placed.rows.negative, 1);
    same("rows explicit", placed.rows.explicit_tracks, 2);
    same("row list", rows[0] == -1 && rows[3] == 2 && rows[4] == 0 && rows[7] == 1, 1);
    placed = hoarbale_place(1, two, three, items, 12, answers, 12, rows, 4, columns, 12);
    same("short row list", placed.number, 7);
    same("its index", (long)placed.index, 1);
    same("its counts", placed.rows.explicit_tracks, 0);
    same("zeroed", answers[0] == 0 && answers[9] == 0 && answers[10] == 9 && rows[0] == 0, 1);
    placed = hoarbale_place(0, two, three, items, 12, answers, 12, rows, 16, columns, 4);
    same("short column list", placed.number, 8);

    printf("C: %s\n", bad ? "differs" : "every call as declared");
    return bad != 0;
}
