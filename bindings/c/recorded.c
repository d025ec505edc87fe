/* A client that is recorded: its rows are taken off before each store call and behind each operation, and say what it did. They are
 * written to a file, where one is named, for `txnobj audit`. */
#include "txnobj.h"
#include <assert.h>
#include <inttypes.h>
#include <stdio.h>
#include <string.h>

enum { FILES = 64 };
static struct {
    uint8_t bytes[64];
    size_t len;
    uint64_t token;
    bool stands;
} files[FILES];
static uint64_t tokens, now;
static char text[1 << 16];
static size_t written;

static void take_off(txnobj_client *c) {
    size_t len = 0, left = 1;
    uint8_t *out = (uint8_t *)text + written;
    assert(txnobj_rows_len(c, &len) == TXNOBJ_OK && written + len + 1 < sizeof text);
    assert(txnobj_rows_take(c, out, len + 1) == TXNOBJ_UNKNOWN && out[0] == 0);
    assert(txnobj_rows_take(c, out, len) == TXNOBJ_OK && (len == 0 || out[len - 1] == '\n'));
    assert(txnobj_rows_len(c, &left) == TXNOBJ_OK && left == 0);
    written += len;
}

static uint8_t put(txnobj_client *c, uint64_t op, const txnobj_asked_t *a) {
    bool stands = files[a->version].stands;
    if (a->mode == TXNOBJ_CREATE && stands) return txnobj_put(c, op, TXNOBJ_ALREADY_EXISTS, 0);
    if (a->mode == TXNOBJ_UPDATE && (!stands || files[a->version].token != a->token)) return txnobj_put(c, op, TXNOBJ_PRECONDITION, 0);
    assert(a->len <= sizeof files[0].bytes && txnobj_asked_bytes(c, op, files[a->version].bytes, a->len));
    files[a->version].len = a->len;
    files[a->version].token = ++tokens;
    files[a->version].stands = true;
    return txnobj_put(c, op, 0, tokens);
}

static uint8_t get(txnobj_client *c, uint64_t op, const txnobj_asked_t *a) {
    uint64_t v = a->version;
    if (!files[v].stands) return txnobj_got(c, op, TXNOBJ_NOT_FOUND, 0, files[v].bytes, 0);
    if (a->mode == 1 && files[v].token == a->token) return txnobj_got(c, op, TXNOBJ_NOT_MODIFIED, 0, files[v].bytes, 0);
    return txnobj_got(c, op, 0, files[v].token, files[v].bytes, files[v].len);
}

static uint8_t list(txnobj_client *c, uint64_t op, const txnobj_asked_t *a) {
    txnobj_listed_t found[FILES];
    size_t n = 0;
    bool more = false;
    for (uint64_t v = a->version + 1; v < FILES && !more; v++) {
        if (!files[v].stands) continue;
        if (n == a->limit) more = true;
        else found[n++] = (txnobj_listed_t){v, files[v].token, files[v].len};
    }
    return txnobj_listed_files(c, op, 0, found, n, more);
}

static uint8_t delete(txnobj_client *c, uint64_t op, const txnobj_asked_t *a) {
    files[a->version].stands = false;
    return txnobj_deleted(c, op, 0);
}

/* the operation is written down, the store is called, and the reply is handed in */
static void serve(txnobj_client *c, uint64_t op, const txnobj_asked_t *a) {
    uint8_t code;
    assert(a->version < FILES && txnobj_at(c, ++now) == TXNOBJ_OK && txnobj_asking(c, op) == TXNOBJ_OK);
    take_off(c);
    assert(txnobj_at(c, ++now) == TXNOBJ_OK);
    if (a->kind == TXNOBJ_ASKS_PUT) code = put(c, op, a);
    else if (a->kind == TXNOBJ_ASKS_GET) code = get(c, op, a);
    else if (a->kind == TXNOBJ_ASKS_LIST) code = list(c, op, a);
    else code = delete(c, op, a);
    assert(code == TXNOBJ_OK);
}

static txnobj_answered_t run(txnobj_client *c, uint64_t op) {
    txnobj_asked_t a;
    txnobj_answered_t r;
    for (;;) {
        assert(txnobj_asked(c, op, &a) == TXNOBJ_OK);
        if (a.kind == TXNOBJ_ASKS_NOTHING) break;
        if (a.kind == TXNOBJ_ASKS_LOOK) assert(txnobj_asking(c, op) == TXNOBJ_NOT_ASKED && txnobj_look(c, op) == TXNOBJ_OK);
        else serve(c, op, &a);
    }
    assert(txnobj_asking(c, op) == TXNOBJ_UNKNOWN);
    assert(txnobj_answered(c, op, &r) == TXNOBJ_OK);
    assert(txnobj_end(c, op) == TXNOBJ_OK && txnobj_forget(c, 8) == TXNOBJ_OK);
    take_off(c);
    return r;
}

/* these rows stand one behind another */
static void has(const char *rows) {
    if (strstr(text, rows)) return;
    printf("%s\nis not in\n%s", rows, text);
    assert(false);
}

static void calls(txnobj_client *c) {
    uint64_t op;
    assert(txnobj_init(c, 0, (const uint8_t *)"a b", 3, &op) == TXNOBJ_OK);
    txnobj_answered_t r = run(c, op);
    assert(r.kind == TXNOBJ_VIEW && r.id == 1);
    has("client 7 page 2\nbegin 1 init 0:a%20b\n");
    has("\nask 1 1 create root/test/00000000000000000001.val 303a612062\nreply 1 2 put 1\n");
    has("\nanswer 1 view 1 at 1 0:a%20b\n");
    for (int i = 0; i < 3; i++) {
        assert(txnobj_update(c, r.view, 0, (const uint8_t *)"c", 1, &op) == TXNOBJ_OK);
        assert(run(c, op).id == (uint64_t)i + 2);
    }
    assert(txnobj_advance(c, 2, &op) == TXNOBJ_OK && run(c, op).kind == TXNOBJ_DONE);
    assert(txnobj_delete(c, 1, &op) == TXNOBJ_OK && run(c, op).kind == TXNOBJ_DONE);
    assert(txnobj_list(c, 0, 0, 0, 0, &op) == TXNOBJ_OK && run(c, op).len == 3);
    has(" list more root/test/00000000000000000002.val:2:3 root/test/00000000000000000003.val:3:3\n");
    has("\nanswer 7 ids 2 3 4\n");
    assert(txnobj_read(c, &op) == TXNOBJ_OK && txnobj_give_up(c, op) == TXNOBJ_OK);
    take_off(c);
    has("\nbegin 8 read\ngiveup 8\n");
}

int main(int argc, char **argv) {
    txnobj_client c = {0};
    size_t len = 5;
    assert(txnobj_at(&c, 1) == TXNOBJ_UNKNOWN && txnobj_rows_len(&c, &len) == TXNOBJ_UNKNOWN && len == 5);
    assert(txnobj_open_recorded(&c, 0, 2) == TXNOBJ_UNKNOWN && txnobj_open(&c, 7, 2) == TXNOBJ_OK);
    assert(txnobj_rows_len(&c, &len) == TXNOBJ_OK && len == 0);
    assert(txnobj_open_recorded(&c, 7, 2) == TXNOBJ_OK);
    calls(&c);
    txnobj_close(&c);
    if (argc > 1) {
        FILE *file = fopen(argv[1], "w");
        assert(file && fprintf(file, "of counter.val clock here ahead 0\n%s", text) > 0 && fclose(file) == 0);
    }
    puts("ok");
    return 0;
}
