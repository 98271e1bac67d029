/*
 * Calls the library for each line of standard input, and prints the results. Each word of a line is a string of bytes in hexadecimal. The word `-`
 * has no bytes.
 *
 *     pass ROOT TEXT         fault N, or form, location, identifier, caveats separated by commas, signature, the texts in V1, V2 and JSON,
 *                            the signature of a pass that is minted under the root and narrowed with the same caveats, and `signed` or
 *                            `not signed`
 *     caveat TEXT            yes, or no
 *     ask TEXT ACTION KIND MOMENT FACILITY DAY HOUR GUESTS OWED SPENT
 *                            `allows`, `denies N`, `not understood N`, or `no ask`. The words after TEXT aren't in hexadecimal.
 */
#define _GNU_SOURCE
#include <clubpass.h>
#include <ctype.h>
#include <stdio.h>
#include <stdlib.h>
#include <string.h>
#include <time.h>

#define COUNT(a) (sizeof(a) / sizeof *(a))

static uint8_t out[CLUBPASS_MAX_TEXT];

static void put_hex(const uint8_t *bytes, size_t len) {
    if (len == 0)
        putchar('-');
    for (size_t i = 0; i < len; i++)
        printf("%02x", bytes[i]);
}

static size_t from_hex(const char *text, uint8_t *bytes) {
    size_t len = 0;
    for (unsigned byte; isxdigit((unsigned char)text[2 * len]) && sscanf(text + 2 * len, "%2x", &byte) == 1; len++)
        bytes[len] = (uint8_t)byte;
    return len;
}

/* After a failed call, the object must contain no pass. */
static bool is_empty(const clubpass *pass) {
    static const uint8_t zeros[CLUBPASS_SIGNATURE];
    uint8_t signature[CLUBPASS_SIGNATURE], byte[1];
    size_t len = 1;
    clubpass_signature(pass, signature);
    return clubpass_form(pass) == CLUBPASS_NO_TEXT && clubpass_caveat_count(pass) == 0 && memcmp(signature, zeros, sizeof zeros) == 0 &&
           clubpass_location(pass, byte, 0, &len) == CLUBPASS_OK && clubpass_identifier(pass, byte, 0, &len) == CLUBPASS_OK && len == 0;
}

/* Mints a new pass with the given pass's fields under this root, and adds the given pass's caveats.
 * */
static clubpass minted_again(const clubpass *pass, const uint8_t *root, size_t root_len) {
    static uint8_t identifier[CLUBPASS_ROOM];
    clubpass made = CLUBPASS_INIT;
    size_t len = 0, identifier_len = 0;
    bool fine = clubpass_location(pass, out, sizeof out, &len) == CLUBPASS_OK &&
                clubpass_identifier(pass, identifier, sizeof identifier, &identifier_len) == CLUBPASS_OK &&
                clubpass_mint(root, root_len, out, len, identifier, identifier_len, &made) == CLUBPASS_OK;
    for (size_t i = 0; i < clubpass_caveat_count(pass); i++)
        fine = fine && clubpass_caveat(pass, i, out, sizeof out, &len) == CLUBPASS_OK && clubpass_narrow(&made, out, len) == CLUBPASS_OK;
    if (!fine)
        fputs("a pass can't be minted again\n", stderr);
    return made;
}

static void tell(const clubpass *pass, const uint8_t *root, size_t root_len) {
    static const char *const names[] = {"none", "v1", "v2", "json"};
    size_t len = 0, count = clubpass_caveat_count(pass);
    printf("%s ", names[clubpass_form(pass)]);
    if (clubpass_location(pass, out, sizeof out, &len) == CLUBPASS_OK)
        put_hex(out, len);
    putchar(' ');
    if (clubpass_identifier(pass, out, sizeof out, &len) == CLUBPASS_OK)
        put_hex(out, len);
    putchar(' ');
    if (count == 0)
        putchar('-');
    for (size_t i = 0; i < count; i++) {
        if (i > 0)
            putchar(',');
        if (clubpass_caveat(pass, i, out, sizeof out, &len) == CLUBPASS_OK)
            put_hex(out, len);
    }
    putchar(' ');
    clubpass_signature(pass, out);
    put_hex(out, CLUBPASS_SIGNATURE);
    for (uint32_t form = CLUBPASS_V1; form <= CLUBPASS_JSON; form++) {
        clubpass_fault fault = clubpass_write(pass, form, out, sizeof out, &len);
        if (fault == CLUBPASS_OK)
            putchar(' '), put_hex(out, len);
        else
            printf(len == 0 ? " fault-%d" : " fault-%d-with-a-length", fault);
    }
    clubpass again = minted_again(pass, root, root_len);
    clubpass_signature(&again, out);
    putchar(' ');
    put_hex(out, CLUBPASS_SIGNATURE);
    puts(clubpass_is_signed(pass, root, root_len) ? " signed" : " not signed");
}

static void tell_pass(char **words) {
    uint8_t root[64], text[CLUBPASS_MAX_TEXT + 64];
    size_t root_len = from_hex(words[1], root), len = from_hex(words[2], text);
    clubpass pass;
    memset(&pass, 0x5a, sizeof pass);
    clubpass_fault fault = clubpass_read(text, len, &pass);
    if (fault == CLUBPASS_OK)
        tell(&pass, root, root_len);
    else
        printf(is_empty(&pass) ? "fault %d\n" : "fault %d, and a pass is left\n", fault);
}

static void tell_caveat(char **words) {
    size_t len = from_hex(words[1], out);
    puts(clubpass_is_caveat(out, len) ? "yes" : "no");
}

/* Returns the place of a word in a list, counted from 1, or 0 if the list doesn't contain the word.
 * */
static uint32_t place_of(const char *word, const char *const *list) {
    for (uint32_t i = 0; list[i]; i++)
        if (strcmp(word, list[i]) == 0)
            return i + 1;
    return 0;
}

static uint32_t minutes_of(const char *text, const char *format) {
    struct tm civil = {0};
    return strptime(text, format, &civil) ? (uint32_t)(timegm(&civil) / 60) : 0;
}

static void tell_verdict(char **words) {
    static const char *const actions[] = {"view", "book", "cancel", "account", NULL}, *const kinds[] = {"court", "boat", "room", NULL};
    clubpass pass = CLUBPASS_INIT;
    clubpass_ask ask = {.action = place_of(words[2], actions), .kind = place_of(words[3], kinds), .moment = minutes_of(words[4], "%Y-%m-%dT%H:%M")};
    size_t len = from_hex(words[1], out), number = 0;
    if (strcmp(words[5], "-") != 0) {
        ask.facility_len = (uint8_t)strlen(words[5]);
        memcpy(ask.facility, words[5], ask.facility_len < CLUBPASS_MAX_NAME ? ask.facility_len : CLUBPASS_MAX_NAME);
    }
    ask.day = (uint16_t)(minutes_of(words[6], "%Y-%m-%d") / 1440);
    ask.hour = (uint8_t)(atoi(words[7]) < 24 ? atoi(words[7]) : 24);
    ask.guests = (uint8_t)atoi(words[8]);
    ask.owed = strtoull(words[9], NULL, 10);
    ask.spent = strtoull(words[10], NULL, 10);
    clubpass_fault fault = clubpass_read(out, len, &pass);
    if (fault == CLUBPASS_OK)
        fault = clubpass_first_fault(&pass, &ask, &number);
    if (fault == CLUBPASS_DENIED || fault == CLUBPASS_NOT_UNDERSTOOD)
        printf("%s %zu\n", fault == CLUBPASS_DENIED ? "denies" : "not understood", number);
    else
        puts(fault == CLUBPASS_OK ? "allows" : fault == CLUBPASS_BAD_ASK ? "no ask" : "no pass");
}

int main(void) {
    char *line = NULL;
    size_t room = 0;
    while (getline(&line, &room, stdin) > 0) {
        char *words[11] = {NULL};
        size_t count = 0;
        for (char *word = strtok(line, " \n"); word && count < COUNT(words); word = strtok(NULL, " \n"))
            words[count++] = word;
        if (count == 3)
            tell_pass(words);
        else if (count == 2)
            tell_caveat(words);
        else
            tell_verdict(words);
    }
    free(line);
    return 0;
}
