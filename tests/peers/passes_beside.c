/* Measures how long C libraries take to read and verify a pass with three caveats: passes_beside
 * ROUNDS. tests/peers/passes_beside.py runs this program. Prints a line for each kind, with the
 * kind's name and the mean nanoseconds of a round. The kinds are our library with V1, V2 and JSON,
 * and Debian's libmacaroons with V1. Each round reads the pass from its text. */
#include <clubpass.h>
#include <macaroons.h>
#include <stdio.h>
#include <stdlib.h>
#include <string.h>
#include <time.h>

static const uint8_t ROOT[] = "0123456789abcdef0123456789abcdef";
static const char *const CAVEATS[] = {"kind = court", "until < 2026-05-01T18:00", "guests <= 2"};
static uint8_t texts[4][CLUBPASS_MAX_TEXT + 1];
static size_t lens[4];

static void must(int holds, const char *what) {
    if (!holds) {
        fprintf(stderr, "%s failed\n", what);
        exit(1);
    }
}

static double now(void) {
    struct timespec at;
    clock_gettime(CLOCK_PROCESS_CPUTIME_ID, &at);
    return 1e9 * (double)at.tv_sec + (double)at.tv_nsec;
}

static void by_us(int form) {
    clubpass pass = CLUBPASS_INIT;
    must(clubpass_read(texts[form], lens[form], &pass) == CLUBPASS_OK && clubpass_is_signed(&pass, ROOT, sizeof ROOT - 1), "ours");
}

static void by_libmacaroons(void) {
    enum macaroon_returncode fault;
    struct macaroon *pass = macaroon_deserialize((const char *)texts[1], &fault);
    struct macaroon_verifier *verifier = macaroon_verifier_create();
    for (int i = 0; i < 3; i++)
        macaroon_verifier_satisfy_exact(verifier, (const unsigned char *)CAVEATS[i], strlen(CAVEATS[i]), &fault);
    must(pass && macaroon_verify(verifier, pass, ROOT, sizeof ROOT - 1, NULL, 0, &fault) == 0, "libmacaroons");
    macaroon_verifier_destroy(verifier);
    macaroon_destroy(pass);
}

int main(int argc, char **argv) {
    int rounds = argc > 1 ? atoi(argv[1]) : 20000;
    clubpass pass = CLUBPASS_INIT;
    must(clubpass_mint(ROOT, sizeof ROOT - 1, (const uint8_t *)"club-desk", 9, (const uint8_t *)"key:amy-1", 9, &pass) == CLUBPASS_OK, "mint");
    for (int i = 0; i < 3; i++)
        must(clubpass_narrow(&pass, (const uint8_t *)CAVEATS[i], strlen(CAVEATS[i])) == CLUBPASS_OK, "narrow");
    for (uint32_t form = 1; form < 4; form++)
        must(clubpass_write(&pass, form, texts[form], CLUBPASS_MAX_TEXT, &lens[form]) == CLUBPASS_OK, "write");
    static const char *const names[] = {"libmacaroons", "v1", "v2", "json"};
    for (int kind = 0; kind < 4; kind++) {
        double start = now();
        for (int i = 0; i < rounds; i++) {
            if (kind > 0)
                by_us(kind);
            else
                by_libmacaroons();
        }
        printf("%s %.0f\n", names[kind], (now() - start) / rounds);
    }
    return 0;
}
