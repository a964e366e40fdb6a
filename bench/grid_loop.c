/* The library's side of bench/array_throughput: fills a list of records by the grid, 119 a call. The run must need no
   history. Hands back the number of the refusal that stopped it, 0 if none did. */
#include "parvusek.h"

uint32_t grid_loop(const uint8_t *run, parvusek_point_t *points, size_t count)
{
    for (size_t at = 0; at + PARVUSEK_GRID <= count; at += PARVUSEK_GRID) {
        parvusek_refusal_t refusal = parvusek_grid(run, PARVUSEK_RUN_LENGTH, NULL, 0, points + at, PARVUSEK_GRID);
        if (refusal.number != 0)
            return refusal.number;
    }
    return 0;
}
