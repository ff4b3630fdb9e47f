/* wy50_counter.h: how many text parts an alert takes, for C99 and C++. Link with libwy50_counter.a; libwy50.a is not needed.
 *
 * Texts are counted in the GSM 7-bit alphabet of 3GPP TS 23.038: ^ { } \ [ ~ ] | are two units, every other byte from 20h to 7Eh but the
 * backquote is one. Trailing spaces are dropped. No unit is 0 parts, 1 to 160 units are one, and beyond that a part holds at most 153 units
 * and no character is cut; this is the fewest.
 *
 * Every call returns, whatever it is handed. It keeps nothing, writes nothing and allocates nothing, and calls no other function, so any
 * threads may call it. A pointer goes with a count of bytes and points to that many; NULL goes with 0.
 */
#ifndef WY50_COUNTER_H
#define WY50_COUNTER_H

#include <stddef.h>
#include <stdint.h>

/* The version of this header. Its number is for #if, and to be compared with that of the library. */
#define WY50_COUNTER_VERSION "0.13.0"
#define WY50_COUNTER_VERSION_MAJOR 0
#define WY50_COUNTER_VERSION_MINOR 13
#define WY50_COUNTER_VERSION_PATCH 0
#define WY50_COUNTER_VERSION_NUMBER (1000000 * WY50_COUNTER_VERSION_MAJOR + 1000 * WY50_COUNTER_VERSION_MINOR + WY50_COUNTER_VERSION_PATCH)

#ifdef __cplusplus
extern "C" {
#endif

/* The version of the library that is linked: the WY50_COUNTER_VERSION_NUMBER of its header. In every version this call is as it is here. */
uint32_t wy50_counter_version(void);

/* Why a text is not counted. */
enum {
    WY50_COUNTED = 0,   /* it is */
    WY50_NO_RETURN = 1, /* the reply has no final CR */
    WY50_BAD_FIRST = 2, /* the first number is 0 or above the last */
    WY50_BAD_LAST = 3,  /* the last number is beyond the pieces */
    WY50_BAD_BYTE = 4   /* a byte is outside the alphabet */
};

/* A count. Members that do not apply are 0. */
typedef struct wy50_count {
    uint64_t units;  /* at most UINT64_MAX; of a text of up to 2^63 - 1 bytes they are exact */
    uint64_t parts;
    uint64_t place;  /* of WY50_BAD_BYTE: which byte of the whole, from 0 */
    uint8_t refusal; /* WY50_COUNTED to WY50_BAD_BYTE, the first that applies */
} wy50_count;

/* The parts of a text; UINT64_MAX if it has a byte outside the alphabet (FS, US and CR are such bytes). No text has UINT64_MAX parts. */
uint64_t wy50_count_parts(const uint8_t *text, size_t count);

/* The same text's units and parts, or the place of its first byte outside the alphabet. */
wy50_count wy50_count_text(const uint8_t *text, size_t count);

/* The units and parts of some pieces of a reply to ESC 5. What stands before its final CR is cut at each FS and US into pieces numbered from
 * 1; those from number first to number last are joined with nothing between, and make the whole. */
wy50_count wy50_count_reply(const uint8_t *reply, size_t count, size_t first, size_t last);

#ifdef __cplusplus
}
#endif

#endif
