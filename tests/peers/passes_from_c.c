/*
 * Calls each function of clubpass.h with normal values, with values at its limits, and with values that cause each fault. With the argument
 * `threads`, the program narrows passes in eight threads at the same time. Each thread has its own passes, and all threads read a shared pass.
 * tests/peers/passes_from_c.sh runs this program without tools, under valgrind and with AddressSanitizer. The texts and signatures come from
 * docs/vectors.json and from libmacaroons' README.
 *
 * Each input is at the end of a page of memory, before an inaccessible page. A call that reads a byte beyond the input ends the program. Some inputs
 * begin at the start of a page of memory, after an inaccessible page. A call that reads a byte before one of these inputs also ends the program.
 */
#define _GNU_SOURCE
#include <clubpass.h>
#include <pthread.h>
#include <stdio.h>
#include <stdlib.h>
#include <string.h>
#include <sys/mman.h>
#include <unistd.h>

#define COUNT(a) (sizeof(a) / sizeof *(a))

static const uint8_t ROOT[16] = {0x00, 0x11, 0x22, 0x33, 0x44, 0x55, 0x66, 0x77, 0x88, 0x99, 0xaa, 0xbb, 0xcc, 0xdd, 0xee, 0xff};
static const char TEXT[] = "AgEJY2x1Yi1kZXNrAglrZXk6YW15LTEAAAYgDsU-vMVpq3Ex5_BQk6D5VX6TimC0IfCk7Dn6nv7TIJk";
static const char SIGNATURE[] = "0ec53ebcc569ab7131e7f05093a0f9557e938a60b421f0a4ec39fa9efed32099";
static const char NARROWED[] = "cccc840ccb15014b6c09c0c5372be2ffdeea1be13fe6360ed406ace0980a61e4";
/* of libmacaroons' README */
static const char BANK_ROOT[] = "this is our super secret key; only we should know it";
static const char BANK_V1[] = "MDAxY2xvY2F0aW9uIGh0dHA6Ly9teWJhbmsvCjAwMjZpZGVudGlmaWVyIHdlIHVzZWQgb3VyIHNlY3JldCBrZXkKMDAxNmNpZCB0ZXN0ID0gY2F2ZWF0CjAwMmZzaWduYXR1"
                              "cmUgGXusegRK8zMyhluSZuJtSTvdZopmDkTYjOGpmMI9vWcK";
static const char BANK_JSON[] = "{\"c\":[{\"i\":\"test = caveat\"}],\"i\":\"we used our secret key\",\"l\":\"http://mybank/\",\"s64\":\"GXusegRK8zMyhluSZuJtSTvdZopmDkTYjOGpmMI9vWc\",\"v\":2}";

static int failures;

#define HOLDS(what) \
    do { \
        if (!(what)) { \
            fprintf(stderr, "%s:%d: not so: %s\n", __FILE__, __LINE__, #what); \
            failures++; \
        } \
    } while (0)

/* ---- inputs at the edge of a page */

static size_t page;

typedef struct {
    uint8_t *map;
    size_t size;
    uint8_t *bytes;
    size_t len;
} edge;

static edge edge_of(const void *bytes, size_t len, bool at_end) {
    edge made;
    size_t whole = (len + page - 1) / page * page + page;
    made.size = whole + page;
    made.map = mmap(NULL, made.size, PROT_NONE, MAP_PRIVATE | MAP_ANONYMOUS, -1, 0);
    if (made.map == MAP_FAILED || mprotect(made.map + page, whole - page, PROT_READ | PROT_WRITE) != 0) {
        perror("mmap");
        exit(2);
    }
    made.bytes = at_end ? made.map + whole - len : made.map + page;
    made.len = len;
    if (len > 0)
        memcpy(made.bytes, bytes, len);
    return made;
}

static void drop_edge(edge made) { munmap(made.map, made.size); }

static clubpass_fault read_at(const void *text, size_t len, clubpass *pass) {
    edge first = edge_of(text, len, true), second = edge_of(text, len, false);
    clubpass other = CLUBPASS_INIT;
    clubpass_fault fault = clubpass_read(first.bytes, len, pass), again = clubpass_read(second.bytes, len, &other);
    HOLDS(fault == again);
    drop_edge(first);
    drop_edge(second);
    return fault;
}

static clubpass_fault read_text(const char *text, clubpass *pass) { return read_at(text, strlen(text), pass); }

static clubpass_fault narrow_text(clubpass *pass, const char *caveat) {
    edge made = edge_of(caveat, strlen(caveat), true);
    clubpass_fault fault = clubpass_narrow(pass, made.bytes, made.len);
    drop_edge(made);
    return fault;
}

static bool signed_by(const clubpass *pass, const void *root, size_t len) {
    edge made = edge_of(root, len, true);
    bool is = clubpass_is_signed(pass, made.bytes, made.len);
    drop_edge(made);
    return is;
}

static const char *signature_of(const clubpass *pass) {
    static _Thread_local char text[65];
    uint8_t bytes[32];
    clubpass_signature(pass, bytes);
    for (int i = 0; i < 32; i++)
        snprintf(text + 2 * i, 3, "%02x", bytes[i]);
    return text;
}

static bool is_zero(const clubpass *pass) {
    uint8_t out[1];
    size_t len = 9;
    return clubpass_form(pass) == CLUBPASS_NO_TEXT && clubpass_caveat_count(pass) == 0 && clubpass_location(pass, out, 0, &len) == CLUBPASS_OK &&
           len == 0 && clubpass_identifier(pass, out, 0, &len) == CLUBPASS_OK && len == 0 && strspn(signature_of(pass), "0") == 64;
}

/* ---- each call */

static void reads(void) {
    clubpass pass = CLUBPASS_INIT;
    HOLDS(is_zero(&pass));
    HOLDS(read_text(TEXT, &pass) == CLUBPASS_OK && clubpass_form(&pass) == CLUBPASS_V2);
    HOLDS(strcmp(signature_of(&pass), SIGNATURE) == 0 && clubpass_caveat_count(&pass) == 0);
    HOLDS(read_text(BANK_V1, &pass) == CLUBPASS_OK && clubpass_form(&pass) == CLUBPASS_V1 && clubpass_caveat_count(&pass) == 1);
    HOLDS(signed_by(&pass, BANK_ROOT, strlen(BANK_ROOT)));
    HOLDS(read_text(BANK_JSON, &pass) == CLUBPASS_OK && clubpass_form(&pass) == CLUBPASS_JSON && signed_by(&pass, BANK_ROOT, strlen(BANK_ROOT)));
}

static void refuses(void) {
    static char long_text[CLUBPASS_MAX_TEXT + 1];
    static const char *const malformed[] = {"", "{", "{}", "A", "!", "AgEJY2x1Yi1kZXNr", "null", "[]"};
    clubpass pass = CLUBPASS_INIT;
    memset(long_text, 'A', sizeof long_text);
    HOLDS(read_text(TEXT, &pass) == CLUBPASS_OK && read_at(long_text, sizeof long_text, &pass) == CLUBPASS_TOO_LONG && is_zero(&pass));
    HOLDS(read_at(long_text, CLUBPASS_MAX_TEXT, &pass) == CLUBPASS_MALFORMED);
    for (size_t i = 0; i < COUNT(malformed); i++)
        HOLDS(read_text(TEXT, &pass) == CLUBPASS_OK && read_text(malformed[i], &pass) == CLUBPASS_MALFORMED && is_zero(&pass));
    for (size_t len = 0; len < strlen(TEXT); len++)
        HOLDS(read_at(TEXT, len, &pass) == CLUBPASS_MALFORMED);
    HOLDS(read_text("{\"v\":2,\"i\":\"a\",\"c\":[{\"i\":\"b\",\"v64\":\"AA\",\"l\":\"c\"}],\"s64\":\"AAAAAAAAAAAAAAAAAAAAAAAAAAAAAAAAAAAAAAAAAAA\"}", &pass) ==
              CLUBPASS_THIRD_PARTY && is_zero(&pass));
    char json[4096] = "{\"i\":\"a\",\"s64\":\"AAAAAAAAAAAAAAAAAAAAAAAAAAAAAAAAAAAAAAAAAAA\",\"c\":[{\"i\":\"b\"}";
    for (int i = 1; i < 64; i++)
        strcat(json, ",{\"i\":\"b\"}");
    size_t len = strlen(json);
    strcpy(json + len, "]}");
    HOLDS(read_text(json, &pass) == CLUBPASS_OK && clubpass_caveat_count(&pass) == 64);
    strcpy(json + len, ",{\"i\":\"b\"}]}");
    HOLDS(read_text(json, &pass) == CLUBPASS_TOO_MANY && is_zero(&pass));
}

static void tells(void) {
    clubpass pass = CLUBPASS_INIT;
    uint8_t out[32];
    size_t len = 0;
    HOLDS(read_text(BANK_V1, &pass) == CLUBPASS_OK);
    memset(out, '.', sizeof out);
    HOLDS(clubpass_location(&pass, out, 14, &len) == CLUBPASS_OK && len == 14 && memcmp(out, "http://mybank/..", 16) == 0);
    memset(out, '.', sizeof out);
    HOLDS(clubpass_location(&pass, out, 13, &len) == CLUBPASS_SHORT_BUFFER && len == 14 && memcmp(out, "..............", 14) == 0);
    HOLDS(clubpass_identifier(&pass, out, sizeof out, &len) == CLUBPASS_OK && len == 22 && memcmp(out, "we used our secret key..", 24) == 0);
    HOLDS(clubpass_identifier(&pass, out, 0, &len) == CLUBPASS_SHORT_BUFFER && len == 22);
    HOLDS(clubpass_caveat(&pass, 0, out, sizeof out, &len) == CLUBPASS_OK && len == 13 && memcmp(out, "test = caveatecr", 16) == 0);
    HOLDS(clubpass_caveat(&pass, 0, out, 12, &len) == CLUBPASS_SHORT_BUFFER && len == 13);
    HOLDS(clubpass_caveat(&pass, 1, out, sizeof out, &len) == CLUBPASS_NO_CAVEAT && len == 0);
    HOLDS(clubpass_caveat(&pass, SIZE_MAX, out, sizeof out, &len) == CLUBPASS_NO_CAVEAT && len == 0 && memcmp(out, "test", 4) == 0);
}

static void writes(void) {
    clubpass pass = CLUBPASS_INIT;
    uint8_t out[CLUBPASS_MAX_TEXT];
    size_t len = 0;
    HOLDS(read_text(BANK_JSON, &pass) == CLUBPASS_OK);
    HOLDS(clubpass_write(&pass, CLUBPASS_V1, out, sizeof out, &len) == CLUBPASS_OK && len == strlen(BANK_V1) && memcmp(out, BANK_V1, len) == 0);
    HOLDS(clubpass_write(&pass, CLUBPASS_JSON, out, strlen(BANK_JSON), &len) == CLUBPASS_OK && len == strlen(BANK_JSON) && memcmp(out, BANK_JSON, len) == 0);
    memset(out, '.', sizeof out);
    HOLDS(clubpass_write(&pass, CLUBPASS_V1, out, strlen(BANK_V1) - 1, &len) == CLUBPASS_SHORT_BUFFER && len == strlen(BANK_V1) && out[0] == '.');
    HOLDS(clubpass_write(&pass, 0, out, sizeof out, &len) == CLUBPASS_NO_FORM && len == 0 && out[0] == '.');
    HOLDS(clubpass_write(&pass, 4, out, sizeof out, &len) == CLUBPASS_NO_FORM && len == 0);
    HOLDS(clubpass_write(&pass, UINT32_MAX, out, sizeof out, &len) == CLUBPASS_NO_FORM);
}

static void mints(void) {
    static uint8_t many[CLUBPASS_ROOM + 1];
    clubpass pass = CLUBPASS_INIT;
    uint8_t out[CLUBPASS_MAX_TEXT];
    size_t len = 0;
    HOLDS(clubpass_mint(ROOT, 16, (const uint8_t *)"club-desk", 9, (const uint8_t *)"key:amy-1", 9, &pass) == CLUBPASS_OK);
    HOLDS(clubpass_form(&pass) == CLUBPASS_V2 && strcmp(signature_of(&pass), SIGNATURE) == 0 && signed_by(&pass, ROOT, 16));
    HOLDS(clubpass_write(&pass, CLUBPASS_V2, out, sizeof out, &len) == CLUBPASS_OK && len == strlen(TEXT) && memcmp(out, TEXT, len) == 0);
    HOLDS(clubpass_mint(ROOT, 16, many, 4096, many, 4096, &pass) == CLUBPASS_OK && signed_by(&pass, ROOT, 16));
    HOLDS(clubpass_write(&pass, CLUBPASS_V2, out, sizeof out, &len) == CLUBPASS_TOO_LONG && len == 0);
    HOLDS(narrow_text(&pass, "") == CLUBPASS_OK && clubpass_caveat_count(&pass) == 1 && signed_by(&pass, ROOT, 16));
    HOLDS(narrow_text(&pass, "x") == CLUBPASS_MEMORY && clubpass_caveat_count(&pass) == 1 && signed_by(&pass, ROOT, 16));
    HOLDS(clubpass_mint(ROOT, 16, many, 4096, many, 4097, &pass) == CLUBPASS_MEMORY && is_zero(&pass));
    HOLDS(clubpass_mint(ROOT, 16, many, CLUBPASS_ROOM + 1, many, 0, &pass) == CLUBPASS_MEMORY && is_zero(&pass));
    HOLDS(clubpass_mint(many, 0, many, 0, many, 0, &pass) == CLUBPASS_OK && signed_by(&pass, many, 0) && !signed_by(&pass, ROOT, 16));
}

static void narrows(void) {
    clubpass pass = CLUBPASS_INIT;
    HOLDS(read_text(TEXT, &pass) == CLUBPASS_OK);
    HOLDS(narrow_text(&pass, "kind = court") == CLUBPASS_OK && narrow_text(&pass, "until < 2026-05-01T18:00") == CLUBPASS_OK);
    HOLDS(strcmp(signature_of(&pass), NARROWED) == 0 && signed_by(&pass, ROOT, 16) && !signed_by(&pass, ROOT, 15));
    for (int i = 2; i < CLUBPASS_MAX_CAVEATS; i++)
        HOLDS(narrow_text(&pass, "guests <= 1") == CLUBPASS_OK);
    clubpass before = pass;
    HOLDS(narrow_text(&pass, "guests <= 1") == CLUBPASS_TOO_MANY && memcmp(&before, &pass, sizeof pass) == 0 && signed_by(&pass, ROOT, 16));
    pass.signature_[31] ^= 1;
    HOLDS(!signed_by(&pass, ROOT, 16));
}

static void asks(void) {
    clubpass pass = CLUBPASS_INIT, other = CLUBPASS_INIT;
    /* 2026-05-01 18:00 is minute 29,627,640, and 2026-05-02 is day 20,575 */
    clubpass_ask ask = {.owed = 200, .action = CLUBPASS_BOOK, .kind = CLUBPASS_COURT, .moment = 29627639, .day = 20575, .hour = 18, .facility_len = 7, .facility = "court-1"};
    size_t number = 9;
    HOLDS(read_text(TEXT, &pass) == CLUBPASS_OK && clubpass_first_fault(&pass, &ask, &number) == CLUBPASS_OK && number == 0);
    HOLDS(narrow_text(&pass, "kind = court") == CLUBPASS_OK && narrow_text(&pass, "until < 2026-05-01T18:00") == CLUBPASS_OK);
    HOLDS(clubpass_first_fault(&pass, &ask, &number) == CLUBPASS_OK && number == 0);
    ask.moment++;
    HOLDS(clubpass_first_fault(&pass, &ask, &number) == CLUBPASS_DENIED && number == 2);
    ask.kind = CLUBPASS_BOAT;
    HOLDS(clubpass_first_fault(&pass, &ask, &number) == CLUBPASS_DENIED && number == 1);
    other = pass;
    HOLDS(narrow_text(&other, "no line") == CLUBPASS_OK && read_text(TEXT, &pass) == CLUBPASS_OK && narrow_text(&pass, "no line") == CLUBPASS_OK);
    HOLDS(clubpass_first_fault(&pass, &ask, &number) == CLUBPASS_NOT_UNDERSTOOD && number == 1);
    ask.kind = CLUBPASS_COURT;
    ask.moment--;
    HOLDS(clubpass_first_fault(&other, &ask, &number) == CLUBPASS_NOT_UNDERSTOOD && number == 3);
    ask.facility_len = 0;
    HOLDS(clubpass_first_fault(&other, &ask, &number) == CLUBPASS_DENIED && number == 1);
    ask.hour = 24, ask.day = 0; /* not looked at */
    HOLDS(clubpass_first_fault(&other, &ask, &number) == CLUBPASS_DENIED && number == 1);
    clubpass_ask bad[8];
    for (size_t i = 0; i < COUNT(bad); i++)
        bad[i] = ask, bad[i].facility_len = 7, bad[i].hour = 23, bad[i].day = 10957;
    HOLDS(clubpass_first_fault(&pass, &bad[0], &number) == CLUBPASS_NOT_UNDERSTOOD);
    bad[0].action = 5, bad[1].kind = 4, bad[2].moment = 15778079, bad[3].day = 10956, bad[4].hour = 24, bad[5].facility_len = 25;
    bad[6].facility[0] = '-', bad[7].action = 0;
    for (size_t i = 0; i < COUNT(bad); i++)
        HOLDS(clubpass_first_fault(&pass, &bad[i], &number) == CLUBPASS_BAD_ASK && number == 0);
}

static void knows_caveats(void) {
    static const char *const lines[] = {"kind = court", "hours = 18-20", "guests <= 0", "weekday = tue,thu"};
    static const char *const others[] = {"", "kind = Court", "kind = court ", "hours = 20-18", "guests <= 50", "weekday = thu,tue"};
    for (size_t i = 0; i < COUNT(lines); i++)
        HOLDS(clubpass_is_caveat((const uint8_t *)lines[i], strlen(lines[i])));
    for (size_t i = 0; i < COUNT(others); i++)
        HOLDS(!clubpass_is_caveat((const uint8_t *)others[i], strlen(others[i])));
}

/* If an object contains random bytes, each call treats the object as a pass, and doesn't read
 * beyond the object. */
static void bears_any_object(void) {
    clubpass pass;
    uint8_t out[CLUBPASS_MAX_TEXT];
    size_t len;
    unsigned state = 1;
    clubpass_ask ask = {.action = CLUBPASS_ACCOUNT, .moment = 29627640};
    for (int round = 0; round < 200; round++) {
        for (size_t i = 0; i < sizeof pass; i++)
            ((uint8_t *)&pass)[i] = (uint8_t)((state = state * 1103515245 + 12345) >> 16);
        if (round % 2)
            pass.location_len_ %= 4000, pass.identifier_len_ %= 4000, pass.caveat_count_ %= 70;
        (void)!clubpass_location(&pass, out, sizeof out, &len);
        (void)!clubpass_identifier(&pass, out, sizeof out, &len);
        HOLDS(clubpass_caveat_count(&pass) <= CLUBPASS_MAX_CAVEATS);
        for (size_t i = 0; i < 66; i++)
            (void)!clubpass_caveat(&pass, i, out, sizeof out, &len);
        for (uint32_t form = 1; form < 4; form++)
            (void)!clubpass_write(&pass, form, out, sizeof out, &len);
        (void)!clubpass_is_signed(&pass, ROOT, sizeof ROOT);
        (void)!clubpass_first_fault(&pass, &ask, &len);
        (void)!clubpass_narrow(&pass, ROOT, sizeof ROOT);
    }
}

/* ---- eight threads */

static clubpass shared;

static void *narrow_and_verify(void *rounds) {
    for (long round = 0; round < *(long *)rounds; round++) {
        clubpass pass = CLUBPASS_INIT, again = CLUBPASS_INIT;
        uint8_t out[CLUBPASS_MAX_TEXT];
        size_t len = 0;
        uint32_t form = (uint32_t)(round % 3 + 1);
        bool fine = clubpass_write(&shared, form, out, sizeof out, &len) == CLUBPASS_OK && clubpass_read(out, len, &pass) == CLUBPASS_OK &&
                    clubpass_narrow(&pass, (const uint8_t *)"kind = court", 12) == CLUBPASS_OK &&
                    clubpass_narrow(&pass, (const uint8_t *)"until < 2026-05-01T18:00", 24) == CLUBPASS_OK &&
                    clubpass_write(&pass, form, out, sizeof out, &len) == CLUBPASS_OK && clubpass_read(out, len, &again) == CLUBPASS_OK &&
                    clubpass_is_signed(&again, ROOT, sizeof ROOT) && strcmp(signature_of(&again), NARROWED) == 0;
        if (!fine)
            return "a round failed";
    }
    return NULL;
}

static void in_threads(long rounds) {
    pthread_t threads[8];
    HOLDS(clubpass_read((const uint8_t *)TEXT, strlen(TEXT), &shared) == CLUBPASS_OK);
    for (size_t i = 0; i < COUNT(threads); i++)
        HOLDS(pthread_create(&threads[i], NULL, narrow_and_verify, &rounds) == 0);
    for (size_t i = 0; i < COUNT(threads); i++) {
        void *said = NULL;
        HOLDS(pthread_join(threads[i], &said) == 0 && said == NULL);
    }
}

int main(int argc, char **argv) {
    page = (size_t)sysconf(_SC_PAGESIZE);
    if (argc > 1 && strcmp(argv[1], "threads") == 0) {
        in_threads(argc > 2 ? atol(argv[2]) : 20000);
    } else {
        reads();
        refuses();
        tells();
        writes();
        mints();
        narrows();
        asks();
        knows_caveats();
        bears_any_object();
    }
    if (failures == 0)
        puts("all hold");
    return failures != 0;
}
