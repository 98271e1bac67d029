/*
 * Tests the library of passes with libFuzzer. tests/peers/passes_fuzzed.sh runs this program. The first byte of an input determines what the other
 * bytes are: a text, bytes to encode in base64, a caveat, or an object. The program aborts if a call doesn't do what clubpass.h describes. If the
 * library can read a text as a pass, the program writes this pass and reads it again. The result must be the same pass. A narrowed pass must be
 * signed under the root with which it was minted. After a fault, each object must be as clubpass.h describes.
 *
 * The library isn't compiled with libFuzzer's counters of branches. So this file has a branch for each fault, form, number of caveats and length, and
 * these branches guide libFuzzer. Each text is at the end of a page of memory, before an inaccessible page.
 */
#include <clubpass.h>
#include <stdio.h>
#include <stdlib.h>
#include <string.h>
#include <sys/mman.h>
#include <unistd.h>

#define MUST(what) \
    do { \
        if (!(what)) { \
            fprintf(stderr, "not so, line %d: %s\n", __LINE__, #what); \
            abort(); \
        } \
    } while (0)

static uint8_t *end_of_page;
static const uint8_t root[32] = "0123456789abcdef0123456789abcde";
static volatile unsigned seen;

/* Copies the text before an inaccessible page, so that a read beyond the text ends the program. */
static const uint8_t *at_the_edge(const uint8_t *text, size_t len) {
    if (!end_of_page) {
        size_t page = (size_t)sysconf(_SC_PAGESIZE), whole = 16 * page;
        uint8_t *map = mmap(NULL, whole + page, PROT_READ | PROT_WRITE, MAP_PRIVATE | MAP_ANONYMOUS, -1, 0);
        MUST(map != MAP_FAILED && mprotect(map + whole, page, PROT_NONE) == 0);
        end_of_page = map + whole;
    }
    return memcpy(end_of_page - len, text, len);
}

/* Has a branch for each value of this number from 0 to 71. */
static void tell(unsigned number) {
    switch (number) {
#define CASE(n) case n: seen += n; break;
#define CASES(n) CASE(n) CASE(n + 1) CASE(n + 2) CASE(n + 3) CASE(n + 4) CASE(n + 5) CASE(n + 6) CASE(n + 7)
        CASES(0) CASES(8) CASES(16) CASES(24) CASES(32) CASES(40) CASES(48) CASES(56) CASES(64)
    }
}

static unsigned bits_of(size_t number) {
    unsigned bits = 0;
    for (; number > 0; number >>= 1)
        bits++;
    return bits;
}

static size_t in_base64(const uint8_t *bytes, size_t len, uint8_t *text) {
    static const char letters[] = "ABCDEFGHIJKLMNOPQRSTUVWXYZabcdefghijklmnopqrstuvwxyz0123456789-_";
    size_t out = 0;
    for (size_t i = 0; i < len; i += 3) {
        unsigned group = (unsigned)bytes[i] << 16 | (i + 1 < len ? (unsigned)bytes[i + 1] << 8 : 0) | (i + 2 < len ? bytes[i + 2] : 0u);
        for (size_t k = 0; k < (len - i > 2 ? 4 : len - i + 1); k++)
            text[out++] = (uint8_t)letters[group >> (18 - 6 * k) & 63];
    }
    return out;
}

static bool same_pass(const clubpass *one, const clubpass *other) {
    static uint8_t a[CLUBPASS_ROOM], b[CLUBPASS_ROOM];
    size_t count = clubpass_caveat_count(one), len = 0, other_len = 0;
    clubpass_signature(one, a);
    clubpass_signature(other, b);
    if (count != clubpass_caveat_count(other) || memcmp(a, b, 32) != 0)
        return false;
    for (size_t i = 0; i < count + 2; i++) {
        MUST((i == 0 ? clubpass_location(one, a, sizeof a, &len) : i == 1 ? clubpass_identifier(one, a, sizeof a, &len) : clubpass_caveat(one, i - 2, a, sizeof a, &len)) == CLUBPASS_OK);
        MUST((i == 0 ? clubpass_location(other, b, sizeof b, &other_len) : i == 1 ? clubpass_identifier(other, b, sizeof b, &other_len) : clubpass_caveat(other, i - 2, b, sizeof b, &other_len)) == CLUBPASS_OK);
        tell(bits_of(len));
        if (len != other_len || memcmp(a, b, len) != 0)
            return false;
    }
    return true;
}

static void try_pass(const clubpass *pass) {
    static uint8_t out[CLUBPASS_MAX_TEXT];
    clubpass again = CLUBPASS_INIT, narrowed = *pass;
    size_t len = 0, count = clubpass_caveat_count(pass), number = 0;
    MUST(count <= CLUBPASS_MAX_CAVEATS && clubpass_form(pass) >= CLUBPASS_V1 && clubpass_form(pass) <= CLUBPASS_JSON);
    tell((unsigned)count);
    for (uint32_t form = CLUBPASS_V1; form <= CLUBPASS_JSON; form++) {
        clubpass_fault fault = clubpass_write(pass, form, out, sizeof out, &len);
        MUST(fault == CLUBPASS_OK || (fault == CLUBPASS_TOO_LONG && len == 0));
        if (fault == CLUBPASS_OK)
            MUST(clubpass_read(at_the_edge(out, len), len, &again) == CLUBPASS_OK && clubpass_form(&again) == form && same_pass(pass, &again));
    }
    MUST(!clubpass_is_signed(pass, root, sizeof root));
    clubpass_fault fault = clubpass_narrow(&narrowed, (const uint8_t *)"kind = court", 12);
    MUST(fault == CLUBPASS_OK ? clubpass_caveat_count(&narrowed) == count + 1 : (count == CLUBPASS_MAX_CAVEATS || fault == CLUBPASS_MEMORY) && same_pass(pass, &narrowed));
    clubpass_ask ask = {.action = CLUBPASS_BOOK, .kind = CLUBPASS_COURT, .moment = 29627639, .day = 20575, .hour = 18, .facility_len = 7, .facility = "court-1"};
    fault = clubpass_first_fault(pass, &ask, &number);
    MUST(fault == CLUBPASS_OK ? number == 0 : (fault == CLUBPASS_NOT_UNDERSTOOD || fault == CLUBPASS_DENIED) && number >= 1 && number <= count);
    tell((unsigned)fault + 12);
}

static void try_text(const uint8_t *text, size_t len) {
    clubpass pass;
    memset(&pass, 0x5a, sizeof pass);
    clubpass_fault fault = clubpass_read(at_the_edge(text, len), len, &pass);
    tell(fault);
    MUST(fault <= CLUBPASS_TOO_MANY && (fault == CLUBPASS_TOO_LONG) == (len > CLUBPASS_MAX_TEXT));
    if (fault == CLUBPASS_OK)
        try_pass(&pass);
    else
        MUST(clubpass_form(&pass) == CLUBPASS_NO_TEXT && clubpass_caveat_count(&pass) == 0 && !clubpass_is_signed(&pass, root, sizeof root));
}

static void try_caveat(const uint8_t *text, size_t len) {
    clubpass pass = CLUBPASS_INIT;
    size_t number = 0;
    bool is = clubpass_is_caveat(at_the_edge(text, len), len);
    clubpass_ask ask = {.action = CLUBPASS_VIEW, .moment = 29627639};
    MUST(clubpass_mint(root, sizeof root, (const uint8_t *)"", 0, (const uint8_t *)"key:a", 5, &pass) == CLUBPASS_OK);
    clubpass_fault fault = clubpass_narrow(&pass, at_the_edge(text, len), len);
    MUST(fault == (len <= CLUBPASS_ROOM - 5 ? CLUBPASS_OK : CLUBPASS_MEMORY) && clubpass_is_signed(&pass, root, sizeof root));
    fault = clubpass_first_fault(&pass, &ask, &number);
    MUST(len > CLUBPASS_ROOM - 5 ? fault == CLUBPASS_OK : is ? fault == CLUBPASS_OK || fault == CLUBPASS_DENIED : fault == CLUBPASS_NOT_UNDERSTOOD);
    tell(is ? 40 + (unsigned)fault : 39);
}

static void try_object(const uint8_t *bytes, size_t len) {
    static uint8_t out[CLUBPASS_ROOM];
    clubpass pass = CLUBPASS_INIT;
    clubpass_ask ask = {.action = CLUBPASS_VIEW, .moment = 29627639};
    size_t said = 0;
    memcpy(&pass, bytes, len < sizeof pass ? len : sizeof pass);
    for (size_t i = 0; i < CLUBPASS_MAX_CAVEATS + 1; i++)
        (void)!clubpass_caveat(&pass, i, out, sizeof out, &said);
    for (uint32_t form = 0; form < 5; form++)
        (void)!clubpass_write(&pass, form, out, sizeof out, &said);
    (void)!clubpass_location(&pass, out, sizeof out, &said);
    (void)!clubpass_identifier(&pass, out, sizeof out, &said);
    (void)!clubpass_is_signed(&pass, root, sizeof root);
    (void)!clubpass_first_fault(&pass, &ask, &said);
    (void)!clubpass_narrow(&pass, bytes, len);
}

int LLVMFuzzerTestOneInput(const uint8_t *data, size_t size) {
    static uint8_t text[3 * 65536];
    if (size == 0 || size > 40000)
        return 0;
    switch (data[0] % 4) {
    case 0: try_text(data + 1, size - 1); break;
    case 1: try_text(text, in_base64(data + 1, size - 1, text)); break;
    case 2: try_caveat(data + 1, size - 1); break;
    default: try_object(data + 1, size - 1);
    }
    return 0;
}
