/* The Nth allocation of the library fails, for each N: it is told once, nothing is lost, and the call can be made again.
 * Link with -Wl,--wrap=malloc,--wrap=realloc */
#include "txnobj.h"
#include <assert.h>
#include <stdio.h>
#include <stdlib.h>
#include <string.h>

void *__real_malloc(size_t);
void *__real_realloc(void *, size_t);
static long left = -1, made; /* fails when it comes to 0; how many were asked for */
static bool fails(void) {
    made++;
    return left > 0 && --left == 0;
}
void *__wrap_malloc(size_t n) { return fails() ? NULL : __real_malloc(n); }
void *__wrap_realloc(void *p, size_t n) { return fails() ? NULL : __real_realloc(p, n); }

enum { FILES = 64 };
static struct {
    uint8_t bytes[64];
    size_t len;
    uint64_t token;
    bool stands;
} files[FILES];
static uint64_t tokens;
static int told_7, told_9;
static bool recorded;
static uint64_t now;
static size_t taken; /* so many bytes of rows */

/* a call that is told want of memory is made again */
static bool again(uint8_t code) {
    if (code == TXNOBJ_NO_MEMORY) told_7++;
    else assert(code == TXNOBJ_OK);
    return code == TXNOBJ_NO_MEMORY;
}
#define AGAIN(call) while (again(call)) {}

static void put(txnobj_client *c, uint64_t op, const txnobj_asked_t *a) {
    uint64_t v = a->version;
    uint8_t error = 0, bytes[64];
    assert(a->len <= sizeof bytes && txnobj_asked_bytes(c, op, bytes, a->len));
    if (a->mode == TXNOBJ_CREATE && files[v].stands) error = TXNOBJ_ALREADY_EXISTS;
    if (a->mode == TXNOBJ_UPDATE && (!files[v].stands || files[v].token != a->token)) error = TXNOBJ_PRECONDITION;
    if (!error) {
        memcpy(files[v].bytes, bytes, a->len);
        files[v].len = a->len;
        files[v].token = ++tokens;
        files[v].stands = true;
    }
    AGAIN(txnobj_put(c, op, error, tokens))
}

static void get(txnobj_client *c, uint64_t op, const txnobj_asked_t *a) {
    uint64_t v = a->version;
    uint8_t error = 0;
    if (!files[v].stands) error = TXNOBJ_NOT_FOUND;
    else if (a->mode == 1 && files[v].token == a->token) error = TXNOBJ_NOT_MODIFIED;
    AGAIN(txnobj_got(c, op, error, files[v].token, files[v].bytes, error ? 0 : files[v].len))
}

static void list(txnobj_client *c, uint64_t op, const txnobj_asked_t *a) {
    txnobj_listed_t found[FILES];
    size_t n = 0;
    bool more = false;
    for (uint64_t k = a->version + 1; k < FILES && !more; k++) {
        if (!files[k].stands) continue;
        if (n == a->limit) more = true;
        else found[n++] = (txnobj_listed_t){k, files[k].token, files[k].len};
    }
    AGAIN(txnobj_listed_files(c, op, 0, found, n, more))
}

/* the rows that wait are taken off, where the client is recorded */
static void take_off(txnobj_client *c) {
    static uint8_t rows[1 << 14];
    size_t len = 0;
    AGAIN(txnobj_rows_len(c, &len))
    assert(len < sizeof rows);
    AGAIN(txnobj_rows_take(c, rows, len))
    assert(len == 0 || rows[len - 1] == '\n');
    taken += len;
}

static void step(txnobj_client *c, uint64_t op, const txnobj_asked_t *a) {
    assert(a->version < FILES);
    if (a->kind != TXNOBJ_ASKS_LOOK) {
        AGAIN(txnobj_at(c, ++now))
        AGAIN(txnobj_asking(c, op))
        take_off(c);
    }
    switch (a->kind) {
    case TXNOBJ_ASKS_LOOK: AGAIN(txnobj_look(c, op)) return;
    case TXNOBJ_ASKS_PUT: put(c, op, a); return;
    case TXNOBJ_ASKS_GET: get(c, op, a); return;
    case TXNOBJ_ASKS_LIST: list(c, op, a); return;
    default:
        files[a->version].stands = false;
        AGAIN(txnobj_deleted(c, op, 0))
    }
}

/* runs an operation to its end; bytes of what it answered */
static txnobj_answered_t run(txnobj_client *c, uint64_t op, uint8_t *bytes) {
    txnobj_asked_t a;
    txnobj_answered_t r;
    for (;;) {
        AGAIN(txnobj_asked(c, op, &a))
        if (a.kind == TXNOBJ_ASKS_NOTHING) break;
        step(c, op, &a);
    }
    AGAIN(txnobj_answered(c, op, &r))
    if (r.kind >= TXNOBJ_VIEW) assert(r.len < 64 && txnobj_answered_bytes(c, op, bytes, r.len));
    take_off(c);
    AGAIN(txnobj_end(c, op))
    AGAIN(txnobj_forget(c, 8))
    return r;
}

/* a call that is refused for want of memory begins again */
static bool lacks(txnobj_answered_t r) {
    bool so = r.kind == TXNOBJ_REFUSED && r.refusal == TXNOBJ_R_NO_MEMORY;
    if (so) told_9++;
    return so;
}
#define CALL(begins)            \
    do {                        \
        AGAIN(begins)           \
        r = run(&c, op, bytes); \
    } while (lacks(r))

/* after a refusal 9 the write may stand, and the same write made again is a conflict */
static void is_written(txnobj_answered_t r) {
    assert(r.kind == TXNOBJ_VIEW || (r.kind == TXNOBJ_REFUSED && r.refusal == TXNOBJ_R_CONFLICT && told_9));
}

static void scenario(void) {
    memset(files, 0, sizeof files);
    tokens = 0;
    txnobj_client c = {0};
    uint64_t op = 0;
    uint8_t bytes[64] = {0};
    txnobj_answered_t r;
    if (recorded) AGAIN(txnobj_open_recorded(&c, 1, 2))
    else AGAIN(txnobj_open(&c, 1, 2))
    CALL(txnobj_init(&c, 1, (const uint8_t *)"a", 1, &op));
    is_written(r);
    for (int i = 0; i < 4; i++) {
        CALL(txnobj_load(&c, &op));
        assert(r.kind == TXNOBJ_VIEW);
        uint64_t view = r.view;
        CALL(txnobj_update(&c, view, r.epoch, (const uint8_t *)"b", 1, &op));
        is_written(r);
        AGAIN(txnobj_end_view(&c, view))
    }
    CALL(txnobj_load(&c, &op));
    assert(r.kind == TXNOBJ_VIEW && r.id == 5 && r.len == 1 && bytes[0] == 'b');
    CALL(txnobj_write(&c, r.id, r.epoch, (const uint8_t *)"c", 1, &op));
    assert(r.kind == TXNOBJ_WROTE || (r.kind == TXNOBJ_REFUSED && told_9));
    do { /* a claim that is not held ends its view */
        CALL(txnobj_load(&c, &op));
        AGAIN(txnobj_claim(&c, r.view, &op))
        r = run(&c, op, bytes);
    } while (lacks(r));
    assert(r.kind == TXNOBJ_HELD);
    CALL(txnobj_advance(&c, 3, &op));
    assert(r.kind == TXNOBJ_DONE);
    for (uint64_t k = 1; k <= 3; k++) {
        CALL(txnobj_delete(&c, k, &op));
        assert(r.kind == TXNOBJ_DONE);
    }
    CALL(txnobj_list(&c, 0, 0, 0, 0, &op));
    assert(r.kind == TXNOBJ_IDS && r.len >= 4);
    CALL(txnobj_read_latest_unchecked(&c, &op));
    assert(r.kind == TXNOBJ_READ && r.id >= 7);
    CALL(txnobj_delete_unchecked(&c, 4, &op));
    assert(r.kind == TXNOBJ_DONE && !files[4].stands);
    txnobj_close(&c);
}

/* each allocation of the scenario fails, or the one of this number: false where it was not told once */
static bool all_fail(long one) {
    made = taken = 0;
    scenario();
    long all = made;
    assert(recorded == (taken != 0));
    for (long n = one ? one : 1; n <= (one ? one : all); n++) {
        left = n;
        told_7 = told_9 = 0;
        scenario();
        if (left != 0 || told_7 + told_9 != 1) {
            printf("allocation %ld: told %d + %d\n", n, told_7, told_9);
            return false;
        }
    }
    printf("%ld allocations, each failed once\n", all);
    return true;
}

int main(int argc, char **argv) {
    long one = argc > 1 ? atol(argv[1]) : 0;
    if (!all_fail(one)) return 1;
    recorded = true;
    if (!all_fail(one)) return 1;
    puts("ok");
    return 0;
}
