/* The matching core as C functions: libhailtrellis_c.a.
 *
 * Opening takes a map, memory in 32-bit words and a start number; the later calls of that opening are lent the same
 * memory, always from its first word, and never as answer words. The map is not needed after the opening. The functions
 * keep nothing of their own and take no locks: a caller with threads guards each call.
 *
 * Every function takes any numbers and any memory. A refused call changes no word.
 */
#ifndef HAILTRELLIS_H
#define HAILTRELLIS_H

#include <stddef.h>
#include <stdint.h>

#ifdef __cplusplus
extern "C" {
#endif

/* What a call answers. */
typedef struct hailtrellis_reply {
    uint32_t code;  /* 0 if the call was accepted, otherwise the number of the refusal */
    uint32_t value; /* the start number, the new stamp or the length of the list; 0 of a road, and if the call was refused */
} hailtrellis_reply;

/* The answer of an accepted call, and the refusals. */
enum {
    HAILTRELLIS_ACCEPTED = 0,
    HAILTRELLIS_MAP_RECORD = 1,           /* a map record has a wrong length or kind, is cut, or bytes follow */
    HAILTRELLIS_MAP_COUNTS = 2,           /* a count in record 1 is outside its limits */
    HAILTRELLIS_MAP_PARTS = 3,            /* a rule for parts, leaves or the 128 borders is broken */
    HAILTRELLIS_MAP_ROADS = 4,            /* a rule for roads is broken */
    HAILTRELLIS_TOO_FEW_WORDS = 5,        /* memory is below the need, or answer words below 3 * k */
    HAILTRELLIS_NOT_OPENED = 6,           /* memory has no opened head */
    HAILTRELLIS_OUT_OF_RANGE = 7,         /* van, desk, k or the asked vertex is outside its range */
    HAILTRELLIS_NO_SUCH_VAN = 8,          /* no such van */
    HAILTRELLIS_VAN_PRESENT = 9,          /* van already present */
    HAILTRELLIS_NO_ROAD = 10,             /* neither (u, v) nor (v, u) is a road, also where u or v is no vertex */
    HAILTRELLIS_OFFSET_ABOVE_WEIGHT = 11, /* offset above the weight */
    HAILTRELLIS_VAN_HELD = 12,            /* van is held */
    HAILTRELLIS_NOT_HELD_BY_DESK = 13,    /* van is not held by this desk */
    HAILTRELLIS_STAMP_DIFFERS = 14,       /* stamp differs from the van's */
    HAILTRELLIS_COUNT_FULL = 15,          /* change count is 4,294,967,295 */
    HAILTRELLIS_WRONG_WAY = 20            /* (u, v) is no road but (v, u) is */
};

/* Van numbers are 0 to 1,023, desks 1 to 255, k 1 to 32. */
enum {
    HAILTRELLIS_VANS = 1024,
    HAILTRELLIS_DESKS = 255,
    HAILTRELLIS_MOST_LISTED = 32
};

/* Opens a map of map_len bytes on memory_len words. The value is the start number. Refusals: 1 to 5. */
hailtrellis_reply hailtrellis_open(const uint8_t *map, size_t map_len, uint32_t *memory, size_t memory_len,
                                   uint32_t start);

/* Places a free van on the road (from, to), offset left to `to`. The value is the new stamp.
 * Refusals: 6, 7, 9, 10 or 20, 11, 15. */
hailtrellis_reply hailtrellis_add(uint32_t *memory, size_t memory_len, uint32_t van, uint32_t from, uint32_t to,
                                  uint32_t offset);

/* Changes the place of a van, free or held. The value is the new stamp. Refusals: 6, 7, 8, 10 or 20, 11, 15. */
hailtrellis_reply hailtrellis_move(uint32_t *memory, size_t memory_len, uint32_t van, uint32_t from, uint32_t to,
                                   uint32_t offset);

/* Takes out a free van. The value is the new change count. Refusals: 6, 7, 8, 12, 15. */
hailtrellis_reply hailtrellis_remove(uint32_t *memory, size_t memory_len, uint32_t van);

/* Makes a free van held by a desk, if the stamp is the van's. The value is the new stamp.
 * Refusals: 6, 7, 8, 12, 14, 15. */
hailtrellis_reply hailtrellis_claim(uint32_t *memory, size_t memory_len, uint32_t van, uint32_t stamp, uint32_t desk);

/* Frees a van that this desk holds. The value is the new stamp. Refusals: 6, 7, 8, 13, 15. */
hailtrellis_reply hailtrellis_release(uint32_t *memory, size_t memory_len, uint32_t van, uint32_t desk);

/* Lists the k nearest free vans that can reach a vertex, in order of distance and then van number: van, distance and
 * stamp, three words each. The value is the length of the list. Answer words after the list and all words of the memory
 * stay. Refusals: 6, 7, 5. */
hailtrellis_reply hailtrellis_question(const uint32_t *memory, size_t memory_len, uint32_t vertex, uint32_t k,
                                       uint32_t *answer, size_t answer_len);

/* Tells of the road (from, to): accepted with the value 0 if it is one. Refusals: 6, 10 or 20. */
hailtrellis_reply hailtrellis_road(const uint32_t *memory, size_t memory_len, uint32_t from, uint32_t to);

#ifdef __cplusplus
}
#endif

#endif
