/* Opens the small map, places two vans, asks for the nearest to vertex 0, lets two desks claim it, and looks up a road.
 *
 *     cc -Iinclude examples/c/ask.c target/staticlib/libhailtrellis_c.a -o target/ask && target/ask
 */
#include <stdio.h>

#include "hailtrellis.h"

static const uint8_t map[102] = {
    /* record 1: 5 vertices, 7 roads, 3 parts */
    8, 0, 0, 0, 1, 0, 5, 0, 7, 0, 3, 0,
    /* record 2: the parents */
    8, 0, 0, 0, 2, 0, 255, 255, 0, 0, 0, 0,
    /* record 3: the leaves */
    12, 0, 0, 0, 3, 0, 1, 0, 1, 0, 1, 0, 2, 0, 2, 0,
    /* record 4: from, to, weight */
    58, 0, 0, 0, 4, 0,
    0, 0, 1, 0, 4, 0, 0, 0,
    1, 0, 0, 0, 4, 0, 0, 0,
    1, 0, 2, 0, 3, 0, 0, 0,
    2, 0, 3, 0, 5, 0, 0, 0,
    3, 0, 2, 0, 5, 0, 0, 0,
    3, 0, 4, 0, 2, 0, 0, 0,
    4, 0, 1, 0, 6, 0, 0, 0,
};

static uint32_t memory[8413];

int main(void)
{
    uint32_t answer[3 * 8];
    hailtrellis_reply reply;
    uint32_t i;

    reply = hailtrellis_open(map, sizeof map, memory, 8413, 100);
    if (reply.code != HAILTRELLIS_ACCEPTED) {
        printf("the map is refused: %u\n", (unsigned)reply.code);
        return 1;
    }
    reply = hailtrellis_add(memory, 8413, 7, 2, 3, 1);
    printf("van 7 on 2->3, 1 left: %u, stamp %u\n", (unsigned)reply.code, (unsigned)reply.value);
    reply = hailtrellis_add(memory, 8413, 2, 3, 4, 2);
    printf("van 2 on 3->4, 2 left: %u, stamp %u\n", (unsigned)reply.code, (unsigned)reply.value);

    reply = hailtrellis_question(memory, 8413, 0, 8, answer, 3 * 8);
    printf("nearest to 0: %u vans\n", (unsigned)reply.value);
    for (i = 0; i < reply.value; i++) {
        printf("  van %u at distance %u, stamp %u\n", (unsigned)answer[3 * i], (unsigned)answer[3 * i + 1],
               (unsigned)answer[3 * i + 2]);
    }

    reply = hailtrellis_claim(memory, 8413, answer[0], answer[2], 1);
    printf("claimed by desk 1: %u, stamp %u\n", (unsigned)reply.code, (unsigned)reply.value);
    reply = hailtrellis_claim(memory, 8413, answer[0], reply.value, 2);
    if (reply.code == HAILTRELLIS_VAN_HELD) {
        printf("desk 2 comes too late: the van is held\n");
    }
    reply = hailtrellis_release(memory, 8413, answer[0], 2);
    if (reply.code == HAILTRELLIS_NOT_HELD_BY_DESK) {
        printf("desk 2 cannot release it: another desk holds it\n");
    }

    reply = hailtrellis_road(memory, 8413, 1, 4);
    if (reply.code == HAILTRELLIS_WRONG_WAY) {
        printf("1->4 is no road, only 4->1 is\n");
    }
    return 0;
}
