/* The library of passes for Node.js, through Node-API. Functions take and return Buffers. An object
 * is a Buffer of the size of `clubpass`. */
#define NAPI_VERSION 8
#include <clubpass.h>
#include <node_api.h>
#include <stdlib.h>
#include <string.h>

typedef struct {
    uint8_t *at;
    size_t len;
} bytes;

static uint8_t none[1];

/* Reads a Buffer or another Uint8Array. The length is that of the memory, whatever JavaScript says
 * about it. Refuses memory that another thread may write during a call. */
static bool bytes_of(napi_env env, napi_value value, bytes *into) {
    napi_typedarray_type type;
    napi_value memory = NULL;
    void *at = NULL;
    bool is = false;
    if (napi_is_typedarray(env, value, &is) != napi_ok || !is ||
        napi_get_typedarray_info(env, value, &type, &into->len, &at, &memory, NULL) != napi_ok ||
        type != napi_uint8_array || napi_is_arraybuffer(env, memory, &is) != napi_ok || !is)
        return false;
    into->at = into->len > 0 ? at : none;
    return true;
}

/* Reads `count` arguments, which must be Buffers. Returns false, with an exception, if an argument
 * isn't a Buffer. */
static bool buffers(napi_env env, napi_callback_info info, size_t count, napi_value *values,
                    bytes *into) {
    size_t given = count;
    napi_get_cb_info(env, info, &given, values, NULL, NULL);
    for (size_t i = 0; i < count; i++) {
        if (i >= given || !bytes_of(env, values[i], &into[i])) {
            napi_throw_type_error(env, NULL, "a Buffer is missing, or shared with a thread");
            return false;
        }
    }
    return true;
}

/* Returns the object in an argument's memory. This memory must have the alignment of `clubpass`. */
static clubpass *object_of(napi_env env, bytes of) {
    if (of.len == sizeof(clubpass) && (uintptr_t)of.at % _Alignof(clubpass) == 0)
        return (clubpass *)(void *)of.at;
    napi_throw_type_error(env, NULL, "no pass");
    return NULL;
}

static napi_value number(napi_env env, uint32_t of) {
    napi_value made = NULL;
    napi_create_uint32(env, of, &made);
    return made;
}

static napi_value truth(napi_env env, bool of) {
    napi_value made = NULL;
    napi_get_boolean(env, of, &made);
    return made;
}

/* Returns the fault's number, or a Buffer with the written bytes. */
static napi_value told(napi_env env, clubpass_fault fault, const uint8_t *out, size_t len) {
    napi_value made = NULL;
    if (fault != CLUBPASS_OK)
        return number(env, fault);
    napi_create_buffer_copy(env, len, out, NULL, &made);
    return made;
}

static uint32_t number_at(napi_env env, napi_value value) {
    uint32_t found = UINT32_MAX;
    napi_get_value_uint32(env, value, &found);
    return found;
}

static napi_value read_text(napi_env env, napi_callback_info info) {
    napi_value values[2];
    bytes given[2];
    clubpass *pass;
    if (!buffers(env, info, 2, values, given) || !(pass = object_of(env, given[1])))
        return NULL;
    return number(env, clubpass_read(given[0].at, given[0].len, pass));
}

static napi_value mint(napi_env env, napi_callback_info info) {
    napi_value values[4];
    bytes given[4];
    clubpass *pass;
    if (!buffers(env, info, 4, values, given) || !(pass = object_of(env, given[3])))
        return NULL;
    bytes root = given[0], location = given[1], identifier = given[2];
    return number(env, clubpass_mint(root.at, root.len, location.at, location.len, identifier.at,
                                     identifier.len, pass));
}

static napi_value narrow(napi_env env, napi_callback_info info) {
    napi_value values[2];
    bytes given[2];
    clubpass *pass;
    if (!buffers(env, info, 2, values, given) || !(pass = object_of(env, given[0])))
        return NULL;
    return number(env, clubpass_narrow(pass, given[1].at, given[1].len));
}

static napi_value is_signed(napi_env env, napi_callback_info info) {
    napi_value values[2];
    bytes given[2];
    clubpass *pass;
    if (!buffers(env, info, 2, values, given) || !(pass = object_of(env, given[0])))
        return NULL;
    return truth(env, clubpass_is_signed(pass, given[1].at, given[1].len));
}

static napi_value is_caveat(napi_env env, napi_callback_info info) {
    napi_value values[1];
    bytes given[1];
    if (!buffers(env, info, 1, values, given))
        return NULL;
    return truth(env, clubpass_is_caveat(given[0].at, given[0].len));
}

/* Takes an object and the number of a part. 0 is the location, 1 the identifier, 2 the signature,
 * and 3 the first caveat. */
static napi_value part(napi_env env, napi_callback_info info) {
    napi_value values[2] = {NULL, NULL};
    bytes given[1];
    size_t count = 2, len = 0;
    uint8_t out[CLUBPASS_ROOM];
    clubpass *pass;
    napi_get_cb_info(env, info, &count, values, NULL, NULL);
    if (!buffers(env, info, 1, values, given) || !(pass = object_of(env, given[0])))
        return NULL;
    napi_get_cb_info(env, info, &(size_t){2}, values, NULL, NULL);
    uint32_t which = number_at(env, values[1]);
    if (which == 2) {
        clubpass_signature(pass, out);
        return told(env, CLUBPASS_OK, out, CLUBPASS_SIGNATURE);
    }
    clubpass_fault fault = which == 0   ? clubpass_location(pass, out, sizeof out, &len)
                           : which == 1 ? clubpass_identifier(pass, out, sizeof out, &len)
                                        : clubpass_caveat(pass, which - 3, out, sizeof out, &len);
    return told(env, fault, out, len);
}

static napi_value write_text(napi_env env, napi_callback_info info) {
    napi_value values[2] = {NULL, NULL};
    bytes given[1];
    size_t len = 0;
    uint8_t out[CLUBPASS_MAX_TEXT];
    clubpass *pass;
    if (!buffers(env, info, 1, values, given) || !(pass = object_of(env, given[0])))
        return NULL;
    napi_get_cb_info(env, info, &(size_t){2}, values, NULL, NULL);
    clubpass_fault fault = clubpass_write(pass, number_at(env, values[1]), out, sizeof out, &len);
    return told(env, fault, out, len);
}

static napi_value form(napi_env env, napi_callback_info info) {
    napi_value values[1];
    bytes given[1];
    clubpass *pass;
    if (!buffers(env, info, 1, values, given) || !(pass = object_of(env, given[0])))
        return NULL;
    return number(env, clubpass_form(pass));
}

static napi_value caveat_count(napi_env env, napi_callback_info info) {
    napi_value values[1];
    bytes given[1];
    clubpass *pass;
    if (!buffers(env, info, 1, values, given) || !(pass = object_of(env, given[0])))
        return NULL;
    return number(env, (uint32_t)clubpass_caveat_count(pass));
}

/* Reads an argument that must be a whole number of at most `most`. */
static bool whole_at(napi_env env, napi_value value, uint64_t most, uint64_t *into) {
    double found = -1;
    if (napi_get_value_double(env, value, &found) != napi_ok ||
        !(found >= 0 && found < 9007199254740992.0))
        return false;
    *into = (uint64_t)found;
    return (double)*into == found && *into <= most;
}

/* Takes an object, a facility's name, and the numbers of a request in the order below. Returns the
 * number of the fault and the number of the caveat. */
static napi_value first_fault(napi_env env, napi_callback_info info) {
    enum { ACTION = 2, KIND, MOMENT, DAY, HOUR, GUESTS, OWED, SPENT, COUNT };
    static const uint64_t most[COUNT] = {[ACTION] = UINT32_MAX, [KIND] = UINT32_MAX,
                                         [MOMENT] = UINT32_MAX, [DAY] = UINT16_MAX,
                                         [HOUR] = UINT8_MAX,    [GUESTS] = UINT8_MAX,
                                         [OWED] = UINT64_MAX,   [SPENT] = UINT64_MAX};
    napi_value values[COUNT] = {NULL}, made = NULL;
    uint64_t found[COUNT] = {0};
    bytes given[2];
    size_t at = 0;
    clubpass *pass;
    if (!buffers(env, info, 2, values, given) || !(pass = object_of(env, given[0])))
        return NULL;
    napi_get_cb_info(env, info, &(size_t){COUNT}, values, NULL, NULL);
    bool fine = given[1].len <= CLUBPASS_MAX_NAME;
    for (size_t i = ACTION; i < COUNT; i++)
        fine = fine && whole_at(env, values[i], most[i], &found[i]);
    clubpass_fault fault = CLUBPASS_BAD_ASK;
    if (fine) {
        clubpass_ask ask = {.owed = found[OWED],
                            .spent = found[SPENT],
                            .action = (uint32_t)found[ACTION],
                            .kind = (uint32_t)found[KIND],
                            .moment = (uint32_t)found[MOMENT],
                            .day = (uint16_t)found[DAY],
                            .hour = (uint8_t)found[HOUR],
                            .guests = (uint8_t)found[GUESTS],
                            .facility_len = (uint8_t)given[1].len};
        memcpy(ask.facility, given[1].at, given[1].len);
        fault = clubpass_first_fault(pass, &ask, &at);
    }
    napi_create_array_with_length(env, 2, &made);
    napi_set_element(env, made, 0, number(env, fault));
    napi_set_element(env, made, 1, number(env, (uint32_t)at));
    return made;
}

NAPI_MODULE_INIT() {
    static const struct {
        const char *name;
        napi_callback call;
    } calls[] = {{"read", read_text},          {"mint", mint},
                 {"narrow", narrow},           {"isSigned", is_signed},
                 {"isCaveat", is_caveat},      {"part", part},
                 {"write", write_text},        {"form", form},
                 {"caveatCount", caveat_count}, {"firstFault", first_fault}};
    for (size_t i = 0; i < sizeof calls / sizeof *calls; i++) {
        napi_value made = NULL;
        napi_create_function(env, calls[i].name, NAPI_AUTO_LENGTH, calls[i].call, NULL, &made);
        napi_set_named_property(env, exports, calls[i].name, made);
    }
    napi_set_named_property(env, exports, "size", number(env, sizeof(clubpass)));
    return exports;
}
