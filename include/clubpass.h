/*
 * clubpass: passes for C.
 *
 * A pass is a macaroon without third-party caveats. A pass has an identifier, caveats and a
 * signature. Each caveat narrows the requests that the pass allows. Making a pass needs a secret,
 * the root. Anybody who has a pass can add a caveat to the pass. Removing one requires forging an
 * HMAC. This library reads, writes and narrows passes in the three forms of libmacaroons. The library
 * also tests whether a root signed a pass.
 *
 *     #include <clubpass.h>
 *
 *     clubpass pass = CLUBPASS_INIT;
 *     if (clubpass_read(text, text_len, &pass) == CLUBPASS_OK
 *             && clubpass_is_signed(&pass, root, root_len)) { ... }
 *
 * Rules of every call:
 *
 * - A `clubpass` is a plain object of about 8 KiB. The caller allocates the object on the stack, in
 *   another struct or on the heap, with the alignment of the type. No call frees an object, and an
 *   assignment copies the object. Before its first use, set an object to CLUBPASS_INIT or to zeros.
 *   Don't read the members of an object.
 * - A call takes bytes as a pointer and a length. The pointer must not be NULL, even for a length
 *   of 0. A length must be below 2^63, and the caller must own the memory of the whole length.
 * - Memory that a call writes must not overlap memory that the same call reads or writes through
 *   another argument.
 * - No call keeps a pointer or other state, prints or aborts. Calls in different threads share no
 *   data. Two threads may use an object at the same time if both threads only read the object.
 * - Bytes may have any value, including 0. A text needs no NUL at its end, and the library writes
 *   no NUL.
 * - Only clubpass_read and clubpass_write use the heap. Both calls free this memory before they
 *   return.
 */
#ifndef CLUBPASS_H
#define CLUBPASS_H

#include <stdbool.h>
#include <stddef.h>
#include <stdint.h>

#ifdef __cplusplus
extern "C" {
#endif

#if defined(__GNUC__)
#define CLUBPASS_NONNULL __attribute__((nonnull))
#define CLUBPASS_CHECK __attribute__((nonnull, warn_unused_result))
#else
#define CLUBPASS_NONNULL
#define CLUBPASS_CHECK
#endif

/* Limits, in bytes unless a comment says otherwise. */
enum {
    CLUBPASS_MAX_TEXT = 8192,      /* the longest text of a pass */
    CLUBPASS_MAX_CAVEATS = 64,     /* the largest number of caveats */
    CLUBPASS_ROOM = 8192,          /* location, identifier and caveats together */
    CLUBPASS_SIGNATURE = 32,       /* a signature */
    CLUBPASS_MAX_NAME = 24         /* the name of a facility */
};

/* The result of a call: success, or the first fault that applies. */
typedef enum clubpass_fault {
    CLUBPASS_OK = 0,               /* success */
    CLUBPASS_TOO_LONG = 1,         /* a text would have more than CLUBPASS_MAX_TEXT bytes */
    CLUBPASS_MALFORMED = 2,        /* the text isn't a pass */
    CLUBPASS_THIRD_PARTY = 3,      /* a caveat is a third-party caveat */
    CLUBPASS_TOO_MANY = 4,         /* more than CLUBPASS_MAX_CAVEATS caveats */
    CLUBPASS_MEMORY = 5,           /* out of memory, or the object has no room */
    CLUBPASS_SHORT_BUFFER = 6,     /* the buffer is too short; *len is the length that it needs */
    CLUBPASS_NO_CAVEAT = 7,        /* the pass has no caveat with this index */
    CLUBPASS_NO_FORM = 8,          /* no form has this number */
    CLUBPASS_BAD_ASK = 9,          /* a value of the ask is out of range */
    CLUBPASS_NOT_UNDERSTOOD = 10,  /* a caveat isn't a line of the caveat language */
    CLUBPASS_DENIED = 11           /* a caveat denies the ask */
} clubpass_fault;

/* The forms of a text. V1 and V2 are written in base64 (RFC 4648, URL-safe, without padding). */
typedef enum clubpass_form_number {
    CLUBPASS_NO_TEXT = 0,          /* the object is empty */
    CLUBPASS_V1 = 1,               /* libmacaroons' packets */
    CLUBPASS_V2 = 2,               /* libmacaroons' binary form */
    CLUBPASS_JSON = 3              /* libmacaroons' V2 JSON */
} clubpass_form_number;

/* A pass. Programs must not use its members. */
typedef struct clubpass {
    uint32_t form_;
    uint32_t location_len_;
    uint32_t identifier_len_;
    uint32_t caveat_count_;
    uint16_t caveat_lens_[CLUBPASS_MAX_CAVEATS];
    uint8_t signature_[CLUBPASS_SIGNATURE];
    uint8_t bytes_[CLUBPASS_ROOM];
} clubpass;

#ifdef __cplusplus
#define CLUBPASS_INIT {}
#else
#define CLUBPASS_INIT {0}
#endif

/*
 * Reads a pass from a text in any form: JSON, or base64 of V1, V2 or JSON. The text must not
 * have a line feed at its end.
 *
 * Returns CLUBPASS_OK if the text is a pass. Otherwise the call returns the first fault in this
 * list that applies: CLUBPASS_TOO_LONG, CLUBPASS_MALFORMED, CLUBPASS_THIRD_PARTY,
 * CLUBPASS_TOO_MANY. The call returns CLUBPASS_MEMORY only if the heap runs out, since the object
 * has room for every valid text. After a fault the object is empty. An empty object has no fields,
 * and a signature of zeros.
 */
CLUBPASS_CHECK
clubpass_fault clubpass_read(const uint8_t *text, size_t text_len, clubpass *pass);

/* Returns the form that the pass was read from, or CLUBPASS_V2 for a minted pass. */
CLUBPASS_NONNULL
clubpass_form_number clubpass_form(const clubpass *pass);

/*
 * Copies the location, the identifier, or the caveat with an index (from 0) to the front of a
 * buffer of `room` bytes. The rest of the buffer is unchanged. The call sets *len to the length of
 * the copied part, and returns CLUBPASS_OK. The location is an unsigned hint.
 *
 * Returns CLUBPASS_SHORT_BUFFER if the part is longer than the buffer. Then the buffer is
 * unchanged, and *len is the length that the part needs. Returns CLUBPASS_NO_CAVEAT, with *len 0,
 * if the pass has no caveat with this index.
 */
CLUBPASS_CHECK
clubpass_fault clubpass_location(const clubpass *pass, uint8_t *out, size_t room, size_t *len);
CLUBPASS_CHECK
clubpass_fault clubpass_identifier(const clubpass *pass, uint8_t *out, size_t room, size_t *len);
CLUBPASS_CHECK
clubpass_fault clubpass_caveat(const clubpass *pass, size_t index, uint8_t *out, size_t room,
                               size_t *len);

/* Returns the number of caveats, at most CLUBPASS_MAX_CAVEATS. */
CLUBPASS_NONNULL
size_t clubpass_caveat_count(const clubpass *pass);

/* Copies the signature, CLUBPASS_SIGNATURE bytes. */
CLUBPASS_NONNULL
void clubpass_signature(const clubpass *pass, uint8_t *out);

/*
 * Writes the text of a pass to the front of a buffer of `room` bytes. `form` is the
 * clubpass_form_number of the text. The call sets *len to the length of the text, and returns
 * CLUBPASS_OK. A text has at most CLUBPASS_MAX_TEXT bytes. After a fault the buffer is unchanged.
 *
 * - CLUBPASS_SHORT_BUFFER: the text is longer than the buffer. *len is the length of the text.
 * - CLUBPASS_TOO_LONG: the text in this form would be longer than CLUBPASS_MAX_TEXT. *len is 0.
 * - CLUBPASS_NO_FORM: no form has this number. *len is 0.
 * - CLUBPASS_MEMORY: the heap refused an allocation of the call. *len is 0. This fault is possible
 *   for any pass, since the call first copies the pass.
 */
CLUBPASS_CHECK
clubpass_fault clubpass_write(const clubpass *pass, uint32_t form, uint8_t *out, size_t room,
                              size_t *len);

/*
 * Makes a new pass without caveats, signed under a root of any length.
 *
 * Returns CLUBPASS_OK, or CLUBPASS_MEMORY if the location and the identifier together have more
 * than CLUBPASS_ROOM bytes. After CLUBPASS_MEMORY the object is empty.
 */
CLUBPASS_CHECK
clubpass_fault clubpass_mint(const uint8_t *root, size_t root_len, const uint8_t *location,
                             size_t location_len, const uint8_t *identifier,
                             size_t identifier_len, clubpass *pass);

/*
 * Adds a caveat of any bytes to a pass, and signs the caveat without the root.
 *
 * Returns CLUBPASS_OK, or the first fault in this list that applies. After a fault the pass is
 * unchanged.
 *
 * - CLUBPASS_TOO_MANY: the pass already has CLUBPASS_MAX_CAVEATS caveats.
 * - CLUBPASS_MEMORY: the location, the identifier and all caveats together would have more than
 *   CLUBPASS_ROOM bytes.
 */
CLUBPASS_CHECK
clubpass_fault clubpass_narrow(clubpass *pass, const uint8_t *caveat, size_t caveat_len);

/*
 * Returns whether a root signed the pass with all its caveats. The duration of the call may depend
 * on the bytes. A signed pass allows only what each of its caveats allows: see
 * clubpass_first_fault.
 */
CLUBPASS_CHECK
bool clubpass_is_signed(const clubpass *pass, const uint8_t *root, size_t root_len);

/* Returns whether a text is a caveat that the desk understands, such as "kind = court". */
CLUBPASS_NONNULL
bool clubpass_is_caveat(const uint8_t *text, size_t text_len);

/* The actions that a request may ask for, and the kinds of facilities. */
enum {
    CLUBPASS_VIEW = 1,
    CLUBPASS_BOOK = 2,
    CLUBPASS_CANCEL = 3,
    CLUBPASS_ACCOUNT = 4
};
enum {
    CLUBPASS_NO_KIND = 0,          /* the kind is unknown, or there is no slot */
    CLUBPASS_COURT = 1,
    CLUBPASS_BOAT = 2,
    CLUBPASS_ROOM_KIND = 3
};

/* The values of a request that caveats restrict. */
typedef struct clubpass_ask {
    uint64_t owed;                 /* the points that the request would charge */
    uint64_t spent;                /* the points that the key has spent before */
    uint32_t action;               /* CLUBPASS_VIEW to CLUBPASS_ACCOUNT */
    uint32_t kind;                 /* CLUBPASS_NO_KIND to CLUBPASS_ROOM_KIND */
    uint32_t moment;               /* minutes of local time since 1970, in 2000 to 2099 */
    uint16_t day;                  /* the slot's day: days since 1970-01-01, in 2000 to 2099 */
    uint8_t hour;                  /* the slot's hour, 0 to 23 */
    uint8_t guests;                /* the number of guests of a booking; 0 for any other action */
    uint8_t facility_len;          /* the length of the facility's name; 0 if there is no slot */
    uint8_t facility[CLUBPASS_MAX_NAME]; /* a to z, 0 to 9 and -; doesn't begin with - */
} clubpass_ask;

/*
 * Tests the caveats of a pass against a request, one after another. This call doesn't test the
 * signature. The call ignores `day` and `hour` if there is no slot.
 *
 * Returns CLUBPASS_OK, with *number 0, if each caveat is understood and allows the request.
 * Otherwise the call returns the fault of the first caveat that isn't understood or denies the
 * request. The fault is CLUBPASS_NOT_UNDERSTOOD or CLUBPASS_DENIED, and *number is the number of
 * the caveat, from 1. Returns CLUBPASS_BAD_ASK, with *number 0, if a value is out of range.
 */
CLUBPASS_CHECK
clubpass_fault clubpass_first_fault(const clubpass *pass, const clubpass_ask *ask,
                                    size_t *number);

#ifdef __cplusplus
}
#endif

#endif
