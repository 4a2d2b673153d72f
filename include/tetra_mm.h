/* The reader and rewriter of three messages of TETRA mobility management, as libexports.a has them
 * (`host/run library`). */
#ifndef TETRA_MM_H
#define TETRA_MM_H

#include <stddef.h>
#include <stdint.h>

#ifdef __cplusplus
extern "C" {
#endif

/* Messages, by their 4-bit type. */
enum {
    TETRA_MM_DEMAND = 2,        /* U-LOCATION UPDATE DEMAND */
    TETRA_MM_ACCEPT = 5,        /* D-LOCATION UPDATE ACCEPT */
    TETRA_MM_ATTACH_DETACH = 10 /* D-ATTACH/DETACH GROUP IDENTITY */
};

/* Readings: a skipping one passes over whole outer elements that the message's table lacks, and counts them. */
enum { TETRA_MM_STRICT = 0, TETRA_MM_SKIPPING = 1 };

/* Refusals; the first one met is the answer. A reading asks 1 before all, 2 to 7 as the fields and elements come up, and
 * 16 last; the order of a rewriting stands at tetra_mm_rewrite. */
enum {
    TETRA_MM_BAD_CALL = 1,            /* unknown message or reading, over 4,096 octets, or no window of them */
    TETRA_MM_BUFFER_ENDED = 2,        /* a field, identifier or content ends outside the window */
    TETRA_MM_INVALID_PDU_TYPE = 3,    /* the 4-bit type is not the message's */
    TETRA_MM_INVALID_VALUE = 4,       /* the reserved bit of a location demand is 1 */
    TETRA_MM_TYPE4_LENGTH = 5,        /* a type 4 length is below the 6 bits of its count */
    TETRA_MM_INCONSISTENT_LENGTH = 6, /* a structure or list does not end where its length said */
    TETRA_MM_TRAILING_MBIT = 7,       /* the closing M-bit is 1 */
    TETRA_MM_VALUE_TOO_LARGE = 8,     /* a generic element is longer than the 64 bits that a record holds */
    TETRA_MM_ADDRESS_FORM = 11,       /* an uplink group has no address */
    TETRA_MM_TYPE4_NOT_WRITTEN = 14,  /* a generic type 4 element is present */
    TETRA_MM_TOO_SHORT = 16           /* the flat buffer, or the output's window, is too short; asked last */
};

/* Octets of the flat form with n groups, n at most 63. TETRA_MM_FLAT_MAX is enough for every message. */
#define TETRA_MM_DEMAND_OCTETS(n) (371 + 46 * (n))
#define TETRA_MM_ACCEPT_OCTETS(n) (245 + 56 * (n))
#define TETRA_MM_ATTACH_DETACH_OCTETS(n) (108 + 56 * (n))
#define TETRA_MM_FLAT_MAX TETRA_MM_ACCEPT_OCTETS(63)

/*
 * Reads the message in bits first..end (bit 0 is the top bit of octet 0) into the flat buffer.
 *
 * The result is 64 x the bits consumed plus the refusal's number; one of the two is 0.
 * With a record, the flat form stands at the buffer's front: fields of a presence octet (0 or 1) and
 * 8 octets, high octet first, the count skipped before all; octets past the form are kept.
 * A refusal keeps the whole buffer. The lent octets are never changed.
 *
 * The two lent buffers must not overlap, nor change during the call; nothing is kept after it. A pointer
 * must not be null, not even with a length of 0.
 */
uint64_t tetra_mm_read(uint64_t message, uint64_t reading, const uint8_t *octets, size_t octets_len, uint64_t first,
                       uint64_t end, uint8_t *flat, size_t flat_len);

/*
 * Reads the message strictly in bits first..end of the octets, and writes its record to the front of bits
 * out_first..out_end of out.
 *
 * The result is 64 x the bits written plus the refusal's number; one of the two is 0.
 * With a record, the message's bits stand in out from bit out_first on; every other bit of out is kept,
 * those of the window too. They are not always the bits read: where nothing optional is present the O-bit is
 * 0 and the last one; the last bit of an LA, the reserved bit of a location accept and the frames of
 * StayAlive are 0.
 * A refusal keeps all of out. The lent octets are never changed.
 *
 * Asked in this order: octets, first and end (1), the strict reading (2 to 7), out, out_first and out_end
 * (1: over 4,096 octets, or no window of them), the record (8, 11, 14), the space (16). The numbers between
 * are of records that no reading gives.
 *
 * The two lent buffers must not overlap, nor change during the call, but for what it writes; nothing is kept
 * after it. A pointer must not be null, not even with a length of 0.
 */
uint64_t tetra_mm_rewrite(uint64_t message, const uint8_t *octets, size_t octets_len, uint64_t first, uint64_t end,
                          uint8_t *out, size_t out_len, uint64_t out_first, uint64_t out_end);

#ifdef __cplusplus
}
#endif

#endif
