/* One client makes 100000 updates, and once more one that is recorded, whose rows are taken off: what it keeps does not grow. Not for
 * the sanitizers, which have a malloc of their own. */
#include "txnobj.h"
#include <assert.h>
#include <malloc.h>
#include <stdio.h>
#include <string.h>

enum { UPDATES = 100000, FILES = UPDATES + 2 };
static struct {
    uint8_t bytes[16];
    size_t len; /* 0: no file */
    uint64_t token;
} files[FILES];
static uint64_t tokens;

/* makes the store call that an operation asks for: here puts of mode CREATE and gets alone */
static void serve(txnobj_client *c, uint64_t op, const txnobj_asked_t *a) {
    uint64_t v = a->version;
    assert(v < FILES);
    if (a->kind == TXNOBJ_ASKS_PUT) {
        assert(a->mode == TXNOBJ_CREATE && files[v].len == 0 && a->len <= sizeof files[v].bytes);
        assert(txnobj_asked_bytes(c, op, files[v].bytes, a->len));
        files[v].len = a->len;
        files[v].token = ++tokens;
        assert(txnobj_put(c, op, 0, tokens) == TXNOBJ_OK);
    } else {
        assert(a->kind == TXNOBJ_ASKS_GET);
        assert(txnobj_got(c, op, files[v].len ? 0 : TXNOBJ_NOT_FOUND, files[v].token, files[v].bytes, files[v].len) == TXNOBJ_OK);
    }
}

/* takes the rows off that wait: how many bytes they had */
static size_t take_off(txnobj_client *c) {
    static uint8_t rows[4096];
    size_t len = 0;
    assert(txnobj_rows_len(c, &len) == TXNOBJ_OK && len <= sizeof rows);
    assert(txnobj_rows_take(c, rows, len) == TXNOBJ_OK);
    return len;
}

/* runs an operation to its end, and lets go what is not needed: its view */
static uint64_t run(txnobj_client *c, uint64_t op) {
    txnobj_asked_t a;
    txnobj_answered_t r;
    for (;;) {
        assert(txnobj_asked(c, op, &a) == TXNOBJ_OK);
        if (a.kind == TXNOBJ_ASKS_NOTHING) break;
        if (a.kind == TXNOBJ_ASKS_LOOK) assert(txnobj_look(c, op) == TXNOBJ_OK);
        else {
            assert(txnobj_asking(c, op) == TXNOBJ_OK);
            serve(c, op, &a);
        }
    }
    assert(txnobj_answered(c, op, &r) == TXNOBJ_OK && r.kind == TXNOBJ_VIEW);
    assert(txnobj_end(c, op) == TXNOBJ_OK && txnobj_forget(c, 128) == TXNOBJ_OK);
    return r.view;
}

/* what a client keeps after a tenth of its updates, and after all; how many bytes its rows had */
static size_t update(bool recorded) {
    txnobj_client c = {0};
    uint64_t op, view;
    size_t tenth = 0, all, rows = 0;
    memset(files, 0, sizeof files);
    assert((recorded ? txnobj_open_recorded(&c, 1, 10) : txnobj_open(&c, 1, 10)) == TXNOBJ_OK);
    assert(txnobj_init(&c, 0, (const uint8_t *)"x", 1, &op) == TXNOBJ_OK);
    view = run(&c, op);
    for (int i = 1; i <= UPDATES; i++) {
        assert(txnobj_update(&c, view, 0, (const uint8_t *)"x", 1, &op) == TXNOBJ_OK);
        assert(run(&c, op) == view);
        rows += take_off(&c);
        if (i == UPDATES / 10) tenth = mallinfo2().uordblks;
    }
    all = mallinfo2().uordblks;
    printf("%zu bytes in use after %d updates, %zu after %d; %zu of rows\n", tenth, UPDATES / 10, all, UPDATES, rows);
    assert(all <= tenth + 4096);
    txnobj_close(&c);
    return rows;
}

int main(void) {
    assert(update(false) == 0);
    assert(update(true) != 0);
    puts("ok");
    return 0;
}
