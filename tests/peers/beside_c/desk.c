// A desk in C with SQLite's library. tests/peers/beside.py compares the times of this desk with
// those of clubdesk. The desk has the same file, statements and replies as clubdesk, and serves one
// connection after the other. The desk reads the row of the key, then checks the signature, and
// reads other rows only if the pass is signed. The desk understands only the caveats that beside.py
// writes: guests, until, spend, actions.
//   desk FILE MOMENT < STATEMENTS      beside.py explains these arguments
//   desk                               runs the minimal server, which reads once, writes 133 bytes and closes the connection
#include <arpa/inet.h>
#include <nettle/base64.h>
#include <nettle/hmac.h>
#include <sqlite3.h>
#include <stdarg.h>
#include <stdbool.h>
#include <stdint.h>
#include <stdio.h>
#include <stdlib.h>
#include <string.h>
#include <sys/socket.h>
#include <time.h>
#include <unistd.h>

enum { MAX_REQUEST = 16640, MAX_TEXT = 8192, MAX_REPLY = 512, MAX_ROOT = 64, SIGNATURE = 32, NAME = 25, WINDOW = 86400, DAY = 1440 };

// ---- SQLite ----

enum statement {
    KEY, OLDER_ROOT, MEMBER, FACILITY, SLOT, BOOKING, COSTS, OPEN, ADD_BOOKING, ADD_TAKEN, CHARGE,
    BEGIN, COMMIT, STATEMENTS
};

static char *texts[STATEMENTS] = {[BEGIN] = "BEGIN", [COMMIT] = "COMMIT"};

static sqlite3 *database;
static sqlite3_stmt *statements[STATEMENTS];

static void fail(const char *what) {
    fprintf(stderr, "%s: %s\n", what, database ? sqlite3_errmsg(database) : "");
    exit(1);
}

static void open_file(const char *path) {
    int flags = SQLITE_OPEN_READWRITE | SQLITE_OPEN_NOMUTEX;
    if (sqlite3_open_v2(path, &database, flags, NULL) != SQLITE_OK) fail(path);
    const char *pragmas = "PRAGMA locking_mode = EXCLUSIVE; PRAGMA journal_mode = WAL;"
        " PRAGMA synchronous = FULL; PRAGMA foreign_keys = ON; PRAGMA cache_size = 2000";
    if (sqlite3_exec(database, pragmas, NULL, NULL, NULL) != SQLITE_OK) fail(pragmas);
    for (int n = 0; n < STATEMENTS; n++) {
        size_t room = 0;
        if (n < BEGIN && getline(&texts[n], &room, stdin) < 0) fail("statements");
        if (sqlite3_prepare_v3(database, texts[n], -1, SQLITE_PREPARE_PERSISTENT, &statements[n], NULL)) fail(texts[n]);
    }
}

struct root { uint8_t at[MAX_ROOT]; size_t len; };

static void copy_root(enum statement s, int column, struct root *to) {
    memcpy(to->at, sqlite3_column_blob(statements[s], column), to->len = (size_t)sqlite3_column_bytes(statements[s], column));
}

// Binds the values of a statement. `kinds` has a letter for each value: t for a text, n for a
// number.
static void set(enum statement s, const char *kinds, ...) {
    va_list values;
    va_start(values, kinds);
    for (int place = 1; kinds[place - 1]; place++)
        if (kinds[place - 1] == 't') sqlite3_bind_text(statements[s], place, va_arg(values, const char *), -1, SQLITE_STATIC);
        else sqlite3_bind_int64(statements[s], place, va_arg(values, int));
    va_end(values);
}

// Returns whether a statement has another row, and reads the row's columns. `kinds` has a letter
// for each column: t for a text, n for a number, r for a root.
static bool next_row(enum statement s, const char *kinds, ...) {
    int status = sqlite3_step(statements[s]);
    if (status == SQLITE_DONE) return sqlite3_reset(statements[s]), false;
    if (status != SQLITE_ROW) fail(texts[s]);
    va_list places;
    va_start(places, kinds);
    for (int column = 0; kinds[column]; column++) {
        if (kinds[column] == 't') snprintf(va_arg(places, char *), NAME, "%s", (const char *)sqlite3_column_text(statements[s], column));
        if (kinds[column] == 'n') *va_arg(places, int *) = sqlite3_column_int(statements[s], column);
        if (kinds[column] == 'r') copy_root(s, column, va_arg(places, struct root *));
    }
    va_end(places);
    return true;
}

static void run(enum statement s) {
    if (next_row(s, "")) fail(texts[s]);
}

// ---- Passes in V2, in URL-safe base64 without padding ----

struct bytes { const uint8_t *at; size_t len; };

struct pass {
    uint8_t room[MAX_TEXT / 4 * 3];
    struct bytes identifier, caveats[64];
    int count;
    uint8_t signature[SIGNATURE];
};

// Reads a field of this type from the rest of the pass. The end of a section is a field of type 0
// without bytes.
static bool take(struct bytes *rest, uint8_t type, struct bytes *field) {
    const uint8_t *at = rest->at, *end = at + rest->len;
    size_t length = 0;
    if (at == end || *at++ != type) return false;
    for (int shift = 0, more = type; more; shift += 7) {
        if (at == end || shift == 21) return false;
        length |= (size_t)(*at & 127) << shift;
        more = *at++ & 128;
    }
    if (length > (size_t)(end - at)) return false;
    *field = (struct bytes){at, length};
    *rest = (struct bytes){at + length, (size_t)(end - at) - length};
    return true;
}

static bool read_pass(const char *text, size_t len, struct pass *pass) {
    struct base64_decode_ctx base64;
    struct bytes rest = {pass->room, 0}, field;
    base64url_decode_init(&base64);
    if (len > MAX_TEXT || !base64_decode_update(&base64, &rest.len, pass->room, len, text)) return false;
    if (!rest.len || *rest.at++ != 2) return false;
    rest.len--;
    take(&rest, 1, &field);
    if (!take(&rest, 2, &pass->identifier) || !take(&rest, 0, &field)) return false;
    for (pass->count = 0; rest.len && *rest.at == 2; pass->count++)
        if (pass->count == 64 || !take(&rest, 2, &pass->caveats[pass->count]) || !take(&rest, 0, &field)) return false;
    if (!take(&rest, 0, &field) || !take(&rest, 6, &field) || field.len != SIGNATURE || rest.len) return false;
    memcpy(pass->signature, field.at, SIGNATURE);
    return true;
}

static void sign(const uint8_t *key, size_t key_len, struct bytes text, uint8_t to[SIGNATURE]) {
    struct hmac_sha256_ctx hmac;
    hmac_sha256_set_key(&hmac, key_len, key);
    hmac_sha256_update(&hmac, text.len, text.at);
    hmac_sha256_digest(&hmac, SIGNATURE, to);
}

// Like clubdesk, the desk stores the 64 keys that it derived last, each with its name and its root.
struct kept { char key[NAME]; struct root root; uint8_t derived[SIGNATURE]; uint64_t used; };
static struct kept kept[64];

static const uint8_t *derived_key(const char *key, const struct root *root) {
    static const char maker[] = "macaroons-key-generator";
    static uint64_t now;
    struct kept *oldest = kept, *it = kept;
    while (it < kept + 64 && (it->root.len != root->len || strcmp(it->key, key) || memcmp(it->root.at, root->at, root->len))) {
        if (it->used < oldest->used) oldest = it;
        it++;
    }
    if (it == kept + 64) {
        it = oldest;
        snprintf(it->key, NAME, "%s", key);
        it->root = *root;
        sign((const uint8_t *)maker, sizeof maker - 1, (struct bytes){root->at, root->len}, it->derived);
    }
    it->used = ++now;
    return it->derived;
}

static bool is_signed(const struct pass *pass, const char *key, const struct root *root) {
    uint8_t signature[SIGNATURE];
    sign(derived_key(key, root), SIGNATURE, pass->identifier, signature);
    for (int n = 0; n < pass->count; n++) sign(signature, SIGNATURE, pass->caveats[n], signature);
    return !memcmp(signature, pass->signature, SIGNATURE);
}

// ---- Requests and replies ----

enum action { VIEW, BOOK, ACCOUNT };

struct request {
    enum action action;
    const char *pass;
    size_t pass_len;
    char facility[NAME];
    int day, hour, number, guests;
};

static char reply[MAX_REPLY];
static int reply_len;

// Formats the values as the reply's body.
static void respond(const char *status, const char *more, const char *format, ...) {
    char body[256];
    va_list values;
    va_start(values, format);
    int len = vsnprintf(body, sizeof body, format, values);
    va_end(values);
    reply_len = snprintf(reply, MAX_REPLY, "HTTP/1.1 %s\r\nContent-Type: application/json\r\nContent-Length: %d\r\n%s"
        "Connection: close\r\n\r\n%s", status, len, more, body);
}

static void refuse(int fault, int caveat) {
    static const struct { const char *status, *text; } refusals[] = {
        [1] = {"400 Bad Request", "bad request"}, [2] = {"404 Not Found", "no such path"}, [4] = {"401 Unauthorized", "no pass"},
        [6] = {"400 Bad Request", "pass malformed"}, [9] = {"401 Unauthorized", "not verified"}, [10] = {"403 Forbidden", "key revoked"},
        [11] = {"403 Forbidden", "caveat not understood"}, [12] = {"403 Forbidden", "caveat denies"}, [13] = {"409 Conflict", "number used"},
        [14] = {"404 Not Found", "no such facility"}, [16] = {"409 Conflict", "not bookable"}, [17] = {"409 Conflict", "slot closed"},
        [18] = {"409 Conflict", "no places"}, [19] = {"409 Conflict", "quota reached"}, [20] = {"402 Payment Required", "balance too low"},
    };
    char of_caveat[24] = "";
    if (caveat) snprintf(of_caveat, sizeof of_caveat, ",\"caveat\":%d", caveat);
    respond(refusals[fault].status, strstr(refusals[fault].status, "401") ? "WWW-Authenticate: Bearer\r\n" : "",
        "{\"fault\":%d,\"text\":\"%s\"%s}", fault, refusals[fault].text, of_caveat);
}

static int day_number(int year, int month, int day) {
    return (int)(timegm(&(struct tm){.tm_year = year - 1900, .tm_mon = month - 1, .tm_mday = day}) / 86400);
}

// Reads the head and the body of a request. The desk refuses only those malformed requests that the
// test sends.
static bool read_request(char *bytes, struct request *it) {
    char method[8], path[96];
    int year, month, date;
    if (sscanf(bytes, "%7s %95s HTTP/1.1\r\n", method, path) != 2) return refuse(1, 0), false;
    char *field = strstr(bytes, "\r\nAuthorization: Bearer ");
    if (!field) return refuse(4, 0), false;
    it->pass = field + 24;
    it->pass_len = strcspn(it->pass, "\r");
    it->number = it->guests = 0;
    it->action = ACCOUNT;
    if (!strcmp(path, "/account")) return true;
    int found = sscanf(path, "/slots/%24[a-z0-9-]/%4d-%2d-%2d/%2d/bookings/%9d",
        it->facility, &year, &month, &date, &it->hour, &it->number);
    if (found < 5) return refuse(2, 0), false;
    it->day = day_number(year, month, date);
    it->action = found == 5 ? VIEW : BOOK;
    char *body = strstr(bytes, "\r\n\r\n") + 4;
    if (it->action == BOOK && sscanf(body, "{\"guests\":%2d}", &it->guests) != 1) return refuse(1, 0), false;
    return true;
}

// ---- The rules ----

static int moment;

struct row { char key[NAME], member[NAME]; int revoked; };

// Returns the key that a pass names, if one of the key's valid roots signed the pass.
static bool verify(const struct pass *pass, struct row *row) {
    char name[NAME];
    struct root root;
    int until;
    bool is_known = false, is_good = false;
    if (pass->identifier.len < 5 || pass->identifier.len > 28 || memcmp(pass->identifier.at, "key:", 4)) return false;
    snprintf(name, NAME, "%.*s", (int)pass->identifier.len - 4, pass->identifier.at + 4);
    set(KEY, "t", name);
    while (next_row(KEY, "ttrn", row->key, row->member, &root, &row->revoked)) is_known = true;
    if (!is_known || is_signed(pass, name, &root)) return is_known;
    set(OLDER_ROOT, "t", name);
    while (next_row(OLDER_ROOT, "rn", &root, &until)) is_good = moment < until && is_signed(pass, name, &root);
    return is_good;
}

static int spent_by(const char *key) {
    int spent = 0, charge, refund;
    set(COSTS, "t", key);
    while (next_row(COSTS, "nn", &charge, &refund)) spent += charge - refund;
    return spent;
}

static int open_of(const char *member) {
    int open = 0;
    set(OPEN, "tnn", member, moment, moment / DAY);
    while (next_row(OPEN, "")) open++;
    return open;
}

struct member { int credited, quota, used; };

static struct member member_of(const char *name) {
    struct member it = {0};
    set(MEMBER, "t", name);
    while (next_row(MEMBER, "-nnn", &it.credited, &it.quota, &it.used)) {}
    return it;
}

// Returns whether a key has spent more than `most` points. Adds up the costs of the key's bookings
// only if the member has used more than `most` points.
static bool has_spent_above(const struct row *row, int most) {
    return most < 0 || (member_of(row->member).used > most && spent_by(row->key) > most);
}

struct facility { bool known; char kind[NAME]; int places, price, opens, shuts; };

static struct facility facility_of(const char *name) {
    struct facility it = {0};
    set(FACILITY, "t", name);
    while (next_row(FACILITY, "-tnnnn", it.kind, &it.places, &it.price, &it.opens, &it.shuts)) it.known = true;
    return it;
}

struct slot { int closed, taken; };

static struct slot slot_of(const struct request *request) {
    struct slot it = {0};
    set(SLOT, "tnn", request->facility, request->day, request->hour);
    while (next_row(SLOT, "nn", &it.closed, &it.taken)) {}
    return it;
}

struct booking { bool known; char facility[NAME]; int day, hour, guests, charge, left, cancelled, refund; };

static struct booking booking_of(const char *key, int number) {
    struct booking it = {0};
    set(BOOKING, "tn", key, number);
    while (next_row(BOOKING, "--tnnnnnnn", it.facility, &it.day, &it.hour, &it.guests, &it.charge, &it.left, &it.cancelled, &it.refund))
        it.known = true;
    return it;
}

// Returns the number of the first caveat that denies the request, or minus the number of the first
// caveat that isn't understood. Returns 0 if all caveats allow the request.
static int first_fault(const struct pass *pass, const struct request *request, const struct row *row, int owed) {
    static const char *const actions[] = {"view", "book", "account"};
    for (int n = 0; n < pass->count; n++) {
        char text[257];
        int limit, year, month, date, hour, minute;
        if (pass->caveats[n].len > 256) return -(n + 1);
        snprintf(text, sizeof text, "%.*s", (int)pass->caveats[n].len, pass->caveats[n].at);
        bool denies;
        if (sscanf(text, "guests <= %d", &limit) == 1) denies = request->guests > limit;
        else if (sscanf(text, "until < %d-%d-%dT%d:%d", &year, &month, &date, &hour, &minute) == 5)
            denies = moment >= day_number(year, month, date) * DAY + hour * 60 + minute;
        else if (sscanf(text, "spend <= %d", &limit) == 1) denies = owed && has_spent_above(row, limit - owed);
        else if (!strncmp(text, "actions = ", 10)) denies = !strstr(text + 10, actions[request->action]);
        else return -(n + 1);
        if (denies) return n + 1;
    }
    return 0;
}

static void write_booking(const struct row *row, const struct request *it, int charge, int left) {
    run(BEGIN);
    set(ADD_BOOKING, "tntnnnnnnn", row->key, it->number, it->facility, it->day, it->hour, it->guests, charge, left, 0, 0);
    run(ADD_BOOKING);
    set(ADD_TAKEN, "tnnn", it->facility, it->day, it->hour, it->guests + 1);
    run(ADD_TAKEN);
    set(CHARGE, "tnttnn", row->member, charge, row->key, it->facility, it->day, it->hour);
    run(CHARGE);
    if (sqlite3_changes(database) == 0) fail("not charged");
    run(COMMIT);
}

static void booked(const char *key, int number, int charge, int left) {
    respond("200 OK", "", "{\"booking\":\"%s/%d\",\"charge\":%d,\"left\":%d}", key, number, charge, left);
}

static void book(const struct row *row, const struct request *it, const struct facility *facility) {
    int start = it->day * DAY + it->hour * 60;
    if (it->hour < facility->opens || it->hour >= facility->shuts || start <= moment || start - moment > WINDOW)
        return refuse(16, 0);
    struct slot slot = slot_of(it);
    if (slot.closed) return refuse(17, 0);
    if (slot.taken + it->guests + 1 > facility->places) return refuse(18, 0);
    int open = open_of(row->member);
    struct member member = member_of(row->member);
    if (open >= member.quota) return refuse(19, 0);
    int charge = facility->price * (it->guests + 1);
    if (member.credited - member.used < charge) return refuse(20, 0);
    int left = facility->places - slot.taken - it->guests - 1;
    write_booking(row, it, charge, left);
    booked(row->key, it->number, charge, left);
}

static void repeat(const struct row *row, const struct request *it, const struct booking *record) {
    if (strcmp(record->facility, it->facility) || record->day != it->day || record->hour != it->hour
        || record->guests != it->guests) return refuse(13, 0);
    booked(row->key, it->number, record->charge, record->left);
}

static void show_slot(const struct request *it, const struct facility *facility, const char *date) {
    struct slot slot = slot_of(it);
    respond("200 OK", "", "{\"facility\":\"%s\",\"day\":\"%.10s\",\"hour\":%d,\"kind\":\"%s\",\"price\":%d,"
        "\"places\":%d,\"taken\":%d,\"closed\":%s}", it->facility, date, it->hour, facility->kind,
        facility->price, facility->places, slot.taken, slot.closed ? "true" : "false");
}

static void show_account(const struct row *row) {
    int spent = spent_by(row->key), open = open_of(row->member);
    struct member member = member_of(row->member);
    respond("200 OK", "", "{\"member\":\"%s\",\"balance\":%d,\"quota\":%d,\"open\":%d,\"spent\":%d}",
        row->member, member.credited - member.used, member.quota, open, spent);
}

static void answer(char *bytes) {
    static struct pass pass;
    struct request it;
    struct row row;
    struct facility facility = {0};
    struct booking record = {0};
    if (!read_request(bytes, &it)) return;
    if (!read_pass(it.pass, it.pass_len, &pass)) return refuse(6, 0);
    if (!verify(&pass, &row)) return refuse(9, 0);
    if (row.revoked) return refuse(10, 0);
    if (it.number) record = booking_of(row.key, it.number);
    if (it.action != ACCOUNT && !record.known) facility = facility_of(it.facility);
    int owed = it.action == BOOK && facility.known ? facility.price * (it.guests + 1) : 0;
    int fault = first_fault(&pass, &it, &row, owed);
    if (fault) return refuse(fault < 0 ? 11 : 12, abs(fault));
    if (it.action == ACCOUNT) return show_account(&row);
    if (record.known) return repeat(&row, &it, &record);
    if (!facility.known) return refuse(14, 0);
    if (it.action == BOOK) return book(&row, &it, &facility);
    show_slot(&it, &facility, strstr(bytes, it.facility) + strlen(it.facility) + 1);
}

// ---- Connections ----

static bool is_whole(const char *bytes, size_t len) {
    const char *end = strstr(bytes, "\r\n\r\n");
    if (!end) return false;
    const char *field = strstr(bytes, "\r\nContent-Length: ");
    return len >= (size_t)(end + 4 - bytes) + (field && field < end ? strtoul(field + 18, NULL, 10) : 0);
}

static void serve(int connection, bool is_plain) {
    static char bytes[MAX_REQUEST + 1];
    size_t len = 0;
    do {
        ssize_t came = read(connection, bytes + len, MAX_REQUEST - len);
        if (came <= 0) break;
        bytes[len += (size_t)came] = 0;
    } while (!is_plain && !is_whole(bytes, len));
    if (is_plain) memset(reply, 'x', (size_t)(reply_len = 133));
    else answer(bytes);
    if (write(connection, reply, (size_t)reply_len) != reply_len) fprintf(stderr, "short write\n");
    close(connection);
}

int main(int count, char **words) {
    if (count != 1 && count != 3) return fprintf(stderr, "usage: desk [FILE MOMENT]\n"), 2;
    if (count == 3) {
        open_file(words[1]);
        moment = atoi(words[2]);
    }
    struct sockaddr_in address = {.sin_family = AF_INET, .sin_addr.s_addr = htonl(INADDR_LOOPBACK)};
    socklen_t len = sizeof address;
    int listener = socket(AF_INET, SOCK_STREAM, 0);
    if (bind(listener, (struct sockaddr *)&address, len) || listen(listener, 128)) return perror("listen"), 1;
    getsockname(listener, (struct sockaddr *)&address, &len);
    printf("listening on 127.0.0.1:%d\n", ntohs(address.sin_port));
    fflush(stdout);
    for (;;) {
        int connection = accept(listener, NULL, NULL);
        if (connection >= 0) serve(connection, count == 1);
    }
}
