/*
 * dfsc_host.h - dfsc.h over structs, for hosts in C and C++: what cannot be the right argument is not compiled. All of it is `static inline`; what it
 * calls is proved, it is not.
 *
 *     static dfsch_referrals refs;  // zero: empty caches
 *     static dfsch_domains doms;
 *     dfsch_walk walk;
 *     dfsch_question q;
 *     dfsch_end end;
 *     dfsch_settings settings = {boot, 16, 8192};
 *     uint32_t refused = dfsch_start(&refs, &doms, &walk, path, settings, now());
 *     while (!refused && dfsch_waits(&walk) && !(refused = dfsch_ask(&refs, &doms, &walk, &q))) {
 *         if (q.kind == DFSC_ASK_IO) {
 *             refused = dfsch_answer_io(&refs, &doms, &walk, open_on(&q.name), now());
 *         } else {
 *             dfsch_bytes reply = {buffer, 0};
 *             uint32_t status = get_referral(&q.party, q.request, q.size, buffer, &reply.bytes);
 *             refused = dfsch_answer_referral(&refs, &doms, &walk, status, reply, now());
 *         }
 *     }
 *     if (!refused && !(refused = dfsch_ended(&walk, &end))) ... end.number, end.status, end.moves, end.path
 *
 * Every call that can be refused gives back 0 or the number of the refusal, 27 of dfsch_ask too. dfsc.h says what each call does; dfsc_domain_request and
 * dfsc_version are used as they are.
 */
#ifndef DFSC_HOST_H
#define DFSC_HOST_H

#include "dfsc.h"
#include <errno.h>
#include <string.h>

/* The places of each cache, 1 to 32: the same in all files of a program. */
#ifndef DFSCH_PLACES
#define DFSCH_PLACES DFSC_MOST_PLACES
#endif

typedef struct { uint16_t units[DFSCH_PLACES * DFSC_PLACE_UNITS]; } dfsch_referrals;
typedef struct { uint16_t units[DFSCH_PLACES * DFSC_PLACE_UNITS]; } dfsch_domains;

/* Text and bytes that are only looked at, with their number. */
typedef struct { const uint16_t *at; size_t units; } dfsch_text;
typedef struct { const uint8_t *at; size_t bytes; } dfsch_bytes;

/* A name or path that is shown. */
typedef struct { uint16_t at[256]; size_t units; } dfsch_name;

/* A walk, and the request that it waits to be sent. */
typedef struct { uint16_t units[DFSC_WALK_UNITS]; uint8_t request[DFSC_REQUEST_BYTES]; } dfsch_walk;

/* The name of the bootstrap DC; the most moves, 1 to 64; the bytes that a reply may have at first, 1,024 to 57,344. */
typedef struct { dfsch_text boot; uint32_t limit, size; } dfsch_settings;

/* A question: its kind, the bytes that its reply may have, the moves made with it, whom it is for, the name asked or the path to try, and the request to
 * be sent, which lies in the walk (none for I/O). */
typedef struct { uint32_t kind, size, moves; dfsch_name party, name; dfsch_bytes request; } dfsch_question;

typedef struct { uint32_t number, status, moves; dfsch_name path; } dfsch_end;

static inline uint32_t dfsch_start(const dfsch_referrals *refs, const dfsch_domains *doms, dfsch_walk *walk, dfsch_text path, dfsch_settings settings,
                                   uint32_t clock) {
    static const uint16_t none = 0; /* a pointer that may be lent where there is no text */
    return dfsc_start(refs->units, DFSCH_PLACES * DFSC_PLACE_UNITS, doms->units, DFSCH_PLACES * DFSC_PLACE_UNITS, walk->units, DFSC_WALK_UNITS,
                      path.units ? path.at : &none, path.units, settings.boot.units ? settings.boot.at : &none, settings.boot.units, settings.limit,
                      settings.size, clock, walk->request, DFSC_REQUEST_BYTES);
}

static inline uint32_t dfsch_answer_referral(dfsch_referrals *refs, dfsch_domains *doms, dfsch_walk *walk, uint32_t status, dfsch_bytes reply,
                                             uint32_t clock) {
    static const uint8_t none = 0;
    return dfsc_answer_referral(refs->units, DFSCH_PLACES * DFSC_PLACE_UNITS, doms->units, DFSCH_PLACES * DFSC_PLACE_UNITS, walk->units, DFSC_WALK_UNITS,
                                status, reply.bytes ? reply.at : &none, reply.bytes, clock, walk->request, DFSC_REQUEST_BYTES);
}

static inline uint32_t dfsch_answer_io(dfsch_referrals *refs, const dfsch_domains *doms, dfsch_walk *walk, uint32_t status, uint32_t clock) {
    return dfsc_answer_io(refs->units, DFSCH_PLACES * DFSC_PLACE_UNITS, doms->units, DFSCH_PLACES * DFSC_PLACE_UNITS, walk->units, DFSC_WALK_UNITS, status,
                          clock, walk->request, DFSC_REQUEST_BYTES);
}

/* Whether a question waits: 1 or 0. */
static inline int dfsch_waits(const dfsch_walk *walk) {
    uint32_t numbers[3];
    return !DFSC_IS_REFUSED(SHOWS, dfsc_question(walk->units, DFSC_WALK_UNITS, numbers, 3));
}

/* The question that waits. 0, or a refusal: 4, 5, 27. */
static inline uint32_t dfsch_ask(const dfsch_referrals *refs, const dfsch_domains *doms, const dfsch_walk *walk, dfsch_question *q) {
    uint32_t numbers[3];
    uint32_t n = dfsc_question(walk->units, DFSC_WALK_UNITS, numbers, 3);
    if (DFSC_IS_REFUSED(SHOWS, n))
        return DFSC_REFUSAL(SHOWS, n);
    q->kind = numbers[0], q->size = numbers[1], q->moves = numbers[2];
    n = dfsc_question_party(refs->units, DFSCH_PLACES * DFSC_PLACE_UNITS, doms->units, DFSCH_PLACES * DFSC_PLACE_UNITS, walk->units, DFSC_WALK_UNITS,
                            q->party.at, 256);
    if (DFSC_IS_REFUSED(SHOWS, n))
        return DFSC_REFUSAL(SHOWS, n);
    q->party.units = n;
    n = dfsc_question_name(walk->units, DFSC_WALK_UNITS, q->name.at, 256);
    if (DFSC_IS_REFUSED(SHOWS, n))
        return DFSC_REFUSAL(SHOWS, n);
    q->name.units = n;
    q->request.at = walk->request;
    q->request.bytes = q->kind == DFSC_ASK_IO ? 0 : 4 + 2 * (size_t)n;
    return 0;
}

/* The end. 0, or the refusal 5: the walk has not ended. */
static inline uint32_t dfsch_ended(const dfsch_walk *walk, dfsch_end *end) {
    uint32_t numbers[3];
    uint32_t n = dfsc_end(walk->units, DFSC_WALK_UNITS, numbers, 3);
    if (DFSC_IS_REFUSED(SHOWS, n))
        return DFSC_REFUSAL(SHOWS, n);
    end->number = numbers[0], end->status = numbers[1], end->moves = numbers[2];
    n = dfsc_end_path(walk->units, DFSC_WALK_UNITS, end->path.at, 256);
    end->path.units = DFSC_IS_REFUSED(SHOWS, n) ? 0 : n;
    return DFSC_REFUSAL(SHOWS, n);
}

static inline uint32_t dfsch_read_domains(dfsch_domains *doms, dfsch_bytes reply, uint32_t size) {
    static const uint8_t none = 0;
    return dfsc_read_domains(reply.bytes ? reply.at : &none, reply.bytes, size, doms->units, DFSCH_PLACES * DFSC_PLACE_UNITS);
}

/* The listing into room for `room` units; its length. 0, or a refusal: 4, 10. */
static inline uint32_t dfsch_list(const dfsch_referrals *refs, uint16_t *out, size_t room, size_t *units) {
    uint64_t n = dfsc_list(refs->units, DFSCH_PLACES * DFSC_PLACE_UNITS, out, room);
    *units = DFSC_IS_REFUSED(LISTS, n) ? 0 : (size_t)n;
    return DFSC_REFUSAL(LISTS, n);
}

static inline uint32_t dfsch_read(dfsch_referrals *refs, dfsch_text listing) {
    static const uint16_t none = 0;
    return dfsc_read(listing.units ? listing.at : &none, listing.units, refs->units, DFSCH_PLACES * DFSC_PLACE_UNITS);
}

/* Expires every entry: the next walk that uses one asks for it anew. 0, or the refusal 4. */
static inline uint32_t dfsch_expire_all(dfsch_referrals *refs) {
    return dfsc_expire_all(refs->units, DFSCH_PLACES * DFSC_PLACE_UNITS);
}

/* Expires the entry of this prefix. 0, or a refusal: 4, 1, 2, 27. */
static inline uint32_t dfsch_expire(dfsch_referrals *refs, dfsch_text prefix) {
    static const uint16_t none = 0;
    return dfsc_expire(refs->units, DFSCH_PLACES * DFSC_PLACE_UNITS, prefix.units ? prefix.at : &none, prefix.units);
}

/* The hint of a domain to its next DC. 0, or a refusal: 4, 27. */
static inline uint32_t dfsch_next_dc(dfsch_domains *doms, dfsch_text domain) {
    static const uint16_t none = 0;
    return dfsc_next_dc(doms->units, DFSCH_PLACES * DFSC_PLACE_UNITS, domain.units ? domain.at : &none, domain.units);
}

/* What the network says, an errno of a socket, as the status to answer: one of the six that lead to the next target. */
static inline uint32_t dfsch_status_of_errno(int error) {
    switch (error) {
    case ECONNREFUSED:
        return DFSC_STATUS_CONNECTION_REFUSED;
    case EHOSTUNREACH:
    case ENETUNREACH:
    case ENETDOWN:
        return DFSC_STATUS_HOST_UNREACHABLE;
    case ETIMEDOUT:
    case EAGAIN: /* the time-out of a socket that has one */
        return DFSC_STATUS_IO_TIMEOUT;
    case ECONNRESET:
    case ECONNABORTED:
    case ENOTCONN:
    case EPIPE:
        return DFSC_STATUS_NETWORK_NAME_DELETED;
    default:
        return DFSC_STATUS_BAD_NETWORK_PATH;
    }
}

/* No UTF-8. */
#define DFSCH_BAD_UTF8 ((size_t)-1)

/*
 * UTF-8 as units: how many it takes, of which at most `room` are written; DFSCH_BAD_UTF8 for bytes that are no UTF-8 (cut, overlong, surrogates, past
 * 10FFFF), since another name than the one that was meant must not be opened.
 */
static inline size_t dfsch_units_of_utf8(const char *text, size_t bytes, uint16_t *out, size_t room) {
    static const uint32_t least[] = {0, 0, 0x80, 0x800, 0x10000};
    size_t n = 0;
    for (size_t i = 0; i < bytes;) {
        uint8_t first = (uint8_t)text[i];
        size_t length = first < 0x80 ? 1 : first >> 5 == 6 ? 2 : first >> 4 == 14 ? 3 : first >> 3 == 30 ? 4 : 0;
        if (length == 0 || bytes - i < length)
            return DFSCH_BAD_UTF8;
        uint32_t c = length == 1 ? first : first & (0x7Fu >> length);
        for (size_t k = 1; k < length; k++) {
            uint8_t b = (uint8_t)text[i + k];
            if (b >> 6 != 2)
                return DFSCH_BAD_UTF8;
            c = c << 6 | (b & 0x3F);
        }
        if (c < least[length] || c > 0x10FFFF || (c >= 0xD800 && c <= 0xDFFF))
            return DFSCH_BAD_UTF8;
        if (c >= 0x10000) {
            if (n < room)
                out[n] = (uint16_t)(0xD7C0 + (c >> 10));
            n++;
            c = 0xDC00 + (c & 0x3FF);
        }
        if (n < room)
            out[n] = (uint16_t)c;
        n++;
        i += length;
    }
    return n;
}

/*
 * Units as UTF-8, for people to read: how many bytes it takes without the 0 that ends it, of which at most room - 1 are written. A surrogate without
 * its other half, which no UTF-8 spells, becomes EF BF BD. 769 bytes hold every name and path.
 */
static inline size_t dfsch_utf8_of_units(const uint16_t *text, size_t units, char *out, size_t room) {
    size_t n = 0;
    for (size_t i = 0; i < units; i++) {
        uint32_t c = text[i];
        if (c >= 0xD800 && c <= 0xDBFF && i + 1 < units && text[i + 1] >= 0xDC00 && text[i + 1] <= 0xDFFF)
            c = 0x10000 + ((c & 0x3FF) << 10 | (text[++i] & 0x3FFu));
        else if (c >= 0xD800 && c <= 0xDFFF)
            c = 0xFFFD;
        size_t length = c < 0x80 ? 1 : c < 0x800 ? 2 : c < 0x10000 ? 3 : 4;
        for (size_t k = 0; k < length; k++, n++) {
            uint32_t b = length == 1 ? c : k == 0 ? (0xF00u >> length & 0xFF) | c >> 6 * (length - 1) : 0x80 | (c >> 6 * (length - 1 - k) & 0x3F);
            if (n + 1 < room)
                out[n] = (char)(uint8_t)b;
        }
    }
    if (room > 0)
        out[n < room ? n : room - 1] = 0;
    return n;
}

#endif
