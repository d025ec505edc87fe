/* Two clients count up on a map in memory, by update, claim, holder's update, boundary, delete and listing; then what is refused. */
#include "txnobj.h"
#include <assert.h>
#include <inttypes.h>
#include <stdio.h>
#include <stdlib.h>
#include <string.h>

/* ---- the host's store: files by number, 0 the boundary's ---- */
enum { FILES = 4096 };
static struct {
    uint8_t *bytes;
    size_t len;
    uint64_t token;
} files[FILES];
static uint64_t tokens, calls;

static uint8_t put(txnobj_client *c, uint64_t op, const txnobj_asked_t *a) {
    bool stands = files[a->version].bytes != NULL;
    if (a->mode == TXNOBJ_CREATE && stands) return txnobj_put(c, op, TXNOBJ_ALREADY_EXISTS, 0);
    if (a->mode == TXNOBJ_UPDATE && (!stands || files[a->version].token != a->token)) return txnobj_put(c, op, TXNOBJ_PRECONDITION, 0);
    uint8_t *bytes = malloc(a->len + 1);
    assert(bytes && txnobj_asked_bytes(c, op, bytes, a->len));
    free(files[a->version].bytes);
    files[a->version].bytes = bytes;
    files[a->version].len = a->len;
    files[a->version].token = ++tokens;
    return txnobj_put(c, op, 0, tokens);
}

static uint8_t get(txnobj_client *c, uint64_t op, const txnobj_asked_t *a) {
    const uint8_t *none = (const uint8_t *)"";
    if (!files[a->version].bytes) return txnobj_got(c, op, TXNOBJ_NOT_FOUND, 0, none, 0);
    if (a->mode == 1 && files[a->version].token == a->token) return txnobj_got(c, op, TXNOBJ_NOT_MODIFIED, 0, none, 0);
    return txnobj_got(c, op, 0, files[a->version].token, files[a->version].bytes, files[a->version].len);
}

static uint8_t list(txnobj_client *c, uint64_t op, const txnobj_asked_t *a) {
    static uint64_t found[FILES];
    size_t n = 0;
    bool more = false;
    for (uint64_t v = a->version + 1; v < FILES; v++) {
        if (!files[v].bytes) continue;
        if (n == a->limit) {
            more = true;
            break;
        }
        found[n++] = v;
    }
    return txnobj_listed(c, op, 0, found, n, more);
}

/* makes the store call that an operation asks for, and hands in the reply */
static void serve(txnobj_client *c, uint64_t op, const txnobj_asked_t *a) {
    uint8_t code = TXNOBJ_NOT_ASKED;
    calls++;
    assert(a->version < FILES);
    switch (a->kind) {
    case TXNOBJ_ASKS_PUT: code = put(c, op, a); break;
    case TXNOBJ_ASKS_GET: code = get(c, op, a); break;
    case TXNOBJ_ASKS_LIST: code = list(c, op, a); break;
    case TXNOBJ_ASKS_DELETE:
        free(files[a->version].bytes);
        files[a->version].bytes = NULL;
        code = txnobj_deleted(c, op, 0);
        break;
    default: abort();
    }
    assert(code == TXNOBJ_OK);
}

/* one look or store call; false once it has ended */
static bool step(txnobj_client *c, uint64_t op) {
    txnobj_asked_t a;
    assert(txnobj_asked(c, op, &a) == TXNOBJ_OK);
    if (a.kind == TXNOBJ_ASKS_NOTHING) return false;
    if (a.kind == TXNOBJ_ASKS_LOOK) assert(txnobj_look(c, op) == TXNOBJ_OK);
    else serve(c, op, &a);
    return true;
}

typedef struct {
    txnobj_answered_t a;
    uint8_t bytes[64];
} answer;

/* how it ended; its answer is let go, and what the client no longer needs */
static answer answered(txnobj_client *c, uint64_t op) {
    answer r;
    memset(&r, 0, sizeof r);
    assert(txnobj_answered(c, op, &r.a) == TXNOBJ_OK && r.a.kind != TXNOBJ_RUNS);
    if (r.a.kind == TXNOBJ_READ || r.a.kind == TXNOBJ_VALUE || r.a.kind >= TXNOBJ_VIEW)
        assert(r.a.len < sizeof r.bytes && txnobj_answered_bytes(c, op, r.bytes, r.a.len));
    assert(txnobj_end(c, op) == TXNOBJ_OK);
    assert(txnobj_end(c, op) == TXNOBJ_UNKNOWN);
    assert(txnobj_forget(c, 128) == TXNOBJ_OK);
    return r;
}

static answer run(txnobj_client *c, uint64_t op) {
    while (step(c, op)) {}
    return answered(c, op);
}

static txnobj_client c[2];
static uint64_t op[2], view[2];

/* the first version, and a view of each client */
static void begin(void) {
    txnobj_asked_t a;
    assert(txnobj_read(&c[0], &op[0]) == TXNOBJ_UNKNOWN);
    assert(txnobj_open(&c[0], 0, 3) == TXNOBJ_UNKNOWN && txnobj_open(&c[0], 1, 0) == TXNOBJ_UNKNOWN);
    for (int i = 0; i < 2; i++) assert(txnobj_open(&c[i], (uint64_t)i + 1, 3) == TXNOBJ_OK);
    assert(txnobj_asked(&c[0], 1, &a) == TXNOBJ_OK && a.kind == TXNOBJ_ASKS_NOTHING);
    /* a view that was made up */
    assert(txnobj_refresh(&c[0], 1, &op[0]) == TXNOBJ_UNKNOWN);
    assert(txnobj_init(&c[0], 0, (const uint8_t *)"0", 1, &op[0]) == TXNOBJ_OK && op[0] == 1);
    answer r = run(&c[0], op[0]);
    assert(r.a.kind == TXNOBJ_VIEW && r.a.id == 1 && r.a.view == 1);
    assert(txnobj_end_view(&c[0], r.a.view) == TXNOBJ_OK);
    for (int i = 0; i < 2; i++) {
        assert(txnobj_load(&c[i], &op[i]) == TXNOBJ_OK);
        r = run(&c[i], op[i]);
        assert(r.a.kind == TXNOBJ_VIEW && r.a.id == 1);
        view[i] = r.a.view;
    }
}

/* the number that a view says */
static int said(int i, uint64_t *id, uint64_t *epoch) {
    txnobj_view_t v;
    uint8_t bytes[32] = {0};
    assert(txnobj_view(&c[i], view[i], &v) == TXNOBJ_OK && v.len < sizeof bytes);
    assert(txnobj_view_bytes(&c[i], view[i], bytes, v.len));
    assert(!txnobj_view_bytes(&c[i], view[i], bytes, v.len + 1));
    *id = v.id;
    *epoch = v.epoch;
    return atoi((char *)bytes);
}

/* both update in turns, so that one of each two is a conflict, refreshed and made again */
static void count(void) {
    int wrote[2] = {0, 0}, conflicts = 0;
    uint64_t id, epoch;
    for (int round = 0; wrote[0] < 50 || wrote[1] < 50; round++) {
        for (int i = 0; i < 2; i++) { /* both ask before either writes */
            char next[32];
            int n = snprintf(next, sizeof next, "%d", said(i, &id, &epoch) + 1);
            assert(txnobj_update(&c[i], view[i], epoch, (uint8_t *)next, (size_t)n, &op[i]) == TXNOBJ_OK);
            uint64_t other;
            assert(txnobj_refresh(&c[i], view[i], &other) == TXNOBJ_VIEW_BUSY);
        }
        bool going[2] = {true, true};
        while (going[0] || going[1])
            for (int k = 0; k < 2; k++) {
                int i = (round / 3 + k) % 2;
                if (going[i]) going[i] = step(&c[i], op[i]);
            }
        for (int i = 0; i < 2; i++) {
            answer w = answered(&c[i], op[i]);
            if (w.a.kind == TXNOBJ_VIEW) {
                wrote[i]++;
                continue;
            }
            assert(w.a.kind == TXNOBJ_REFUSED && w.a.refusal == TXNOBJ_R_CONFLICT);
            conflicts++;
            assert(txnobj_refresh(&c[i], view[i], &op[i]) == TXNOBJ_OK);
            assert(run(&c[i], op[i]).a.kind == TXNOBJ_VIEW);
        }
        if (wrote[0] + wrote[1] > 200) break;
    }
    int counted = said(1, &id, &epoch);
    printf("wrote %d + %d, %d conflicts, counted to %d at version %" PRIu64 "\n", wrote[0], wrote[1], conflicts, counted, id);
    assert(counted == wrote[0] + wrote[1] && id == (uint64_t)counted + 1);
}

/* client 1 claims, client 2 claims after it, client 1 is fenced; the newest version then */
static uint64_t claim(void) {
    answer r;
    for (int i = 0; i < 2; i++) {
        assert(txnobj_claim(&c[i], view[i], &op[i]) == TXNOBJ_OK);
        r = run(&c[i], op[i]);
        assert(r.a.kind == TXNOBJ_HELD && r.a.view == view[i] && r.a.holder == (uint64_t)i + 1);
    }
    /* a holder's view is of the other kind */
    assert(txnobj_refresh(&c[0], view[0], &op[0]) == TXNOBJ_UNKNOWN);
    assert(txnobj_holder_refresh(&c[0], view[0], &op[0]) == TXNOBJ_OK);
    r = run(&c[0], op[0]);
    assert(r.a.kind == TXNOBJ_REFUSED && r.a.refusal == TXNOBJ_R_FENCED);
    printf("client 1 is fenced: refusal %d\n", r.a.refusal);
    assert(txnobj_holder_update(&c[1], view[1], 2, (const uint8_t *)"held", 4, &op[1]) == TXNOBJ_OK);
    r = run(&c[1], op[1]);
    assert(r.a.kind == TXNOBJ_VIEW);
    return r.a.id;
}

/* the boundary, deletes below it, and what is left */
static void collect(uint64_t newest) {
    answer r;
    /* client 1 has not seen the newest version: the boundary would be too high for it */
    assert(txnobj_advance(&c[0], newest, &op[0]) == TXNOBJ_BOUNDARY_TOO_HIGH);
    assert(txnobj_advance(&c[1], newest - 3, &op[1]) == TXNOBJ_OK);
    assert(run(&c[1], op[1]).a.kind == TXNOBJ_DONE);
    for (uint64_t id = 1; id <= newest - 3; id++) {
        assert(txnobj_delete(&c[0], id, &op[0]) == TXNOBJ_OK);
        assert(run(&c[0], op[0]).a.kind == TXNOBJ_DONE);
    }
    assert(txnobj_delete(&c[1], newest, &op[1]) == TXNOBJ_OK);
    assert(run(&c[1], op[1]).a.kind == TXNOBJ_REFUSED);
    assert(txnobj_list(&c[1], 0, 0, 0, 0, &op[1]) == TXNOBJ_OK);
    while (step(&c[1], op[1])) {}
    txnobj_answered_t ids_of;
    uint64_t ids[3];
    assert(txnobj_answered(&c[1], op[1], &ids_of) == TXNOBJ_OK && ids_of.kind == TXNOBJ_IDS && ids_of.len == 3);
    assert(!txnobj_answered_ids(&c[1], op[1], ids, 2) && txnobj_answered_ids(&c[1], op[1], ids, 3));
    r = answered(&c[1], op[1]);
    assert(r.a.kind == TXNOBJ_IDS);
    printf("left: %" PRIu64 " %" PRIu64 " %" PRIu64 "; %" PRIu64 " store calls\n", ids[0], ids[1], ids[2], calls);
    assert(ids[0] == newest - 2 && ids[2] == newest);
}

/* calls that test no boundary: what a read found is cached for the next one, and a delete removes a version above the boundary */
static void pass_by(uint64_t newest) {
    for (uint64_t k = 0; k < 2; k++) {
        uint64_t before = calls;
        assert(txnobj_read_latest_unchecked(&c[0], &op[0]) == TXNOBJ_OK && op[0] == (UINT64_C(1) << 63) + k);
        answer r = run(&c[0], op[0]);
        assert(r.a.kind == TXNOBJ_READ && r.a.id == newest && r.a.epoch == 2);
        assert(k == 0 || calls == before + 1);
    }
    assert(txnobj_delete_unchecked(&c[0], newest - 1, &op[0]) == TXNOBJ_OK);
    assert(txnobj_look(&c[0], op[0]) == TXNOBJ_NOT_ASKED && txnobj_put(&c[0], op[0], 0, 1) == TXNOBJ_NOT_ASKED);
    assert(txnobj_give_up(&c[0], op[0]) == TXNOBJ_OK && txnobj_give_up(&c[0], op[0]) == TXNOBJ_UNKNOWN);
    assert(txnobj_deleted(&c[0], op[0], 0) == TXNOBJ_UNKNOWN);
    assert(txnobj_delete_unchecked(&c[0], newest - 1, &op[0]) == TXNOBJ_OK);
    assert(run(&c[0], op[0]).a.kind == TXNOBJ_DONE);
    assert(txnobj_read_version(&c[0], newest - 1, &op[0]) == TXNOBJ_OK && op[0] < UINT64_C(1) << 63);
    assert(run(&c[0], op[0]).a.kind == TXNOBJ_VALUE_NONE);
}

/* runs an operation until it asks for a put */
static void until_put(int i) {
    txnobj_asked_t a;
    for (;;) {
        assert(txnobj_asked(&c[i], op[i], &a) == TXNOBJ_OK && a.kind != TXNOBJ_ASKS_NOTHING);
        if (a.kind == TXNOBJ_ASKS_PUT) return;
        step(&c[i], op[i]);
    }
}

/* a reply of another kind changes nothing; a call that failed is refused; one that runs is given up */
static void refuse(uint64_t newest) {
    txnobj_answered_t a;
    uint64_t none = 0;
    assert(txnobj_write(&c[0], newest, 9, (const uint8_t *)"x", 1, &op[0]) == TXNOBJ_UNKNOWN_BASE);
    assert(txnobj_read(&c[0], &op[0]) == TXNOBJ_OK);
    answer r = run(&c[0], op[0]);
    assert(r.a.kind == TXNOBJ_READ && r.a.id == newest);
    assert(txnobj_write(&c[0], newest, 1, (const uint8_t *)"x", 1, &op[0]) == TXNOBJ_EPOCH_LOWERED);
    assert(txnobj_write(&c[0], newest, 9, (const uint8_t *)"x", 1, &op[0]) == TXNOBJ_OK);
    until_put(0);
    assert(txnobj_look(&c[0], op[0]) == TXNOBJ_NOT_ASKED);
    assert(txnobj_listed(&c[0], op[0], 0, &none, 0, false) == TXNOBJ_NOT_ASKED);
    assert(txnobj_listed(&c[0], op[0], TXNOBJ_FAILED, &none, 0, false) == TXNOBJ_NOT_ASKED);
    assert(txnobj_put(&c[0], op[0] + 1, 0, 1) == TXNOBJ_UNKNOWN);
    assert(txnobj_answered(&c[0], op[0], &a) == TXNOBJ_OK && a.kind == TXNOBJ_RUNS);
    assert(txnobj_end(&c[0], op[0]) == TXNOBJ_UNKNOWN);
    assert(txnobj_put(&c[0], op[0], TXNOBJ_FAILED, 0) == TXNOBJ_OK);
    r = answered(&c[0], op[0]);
    assert(r.a.kind == TXNOBJ_REFUSED && r.a.refusal == TXNOBJ_R_STORE);
    assert(txnobj_read(&c[0], &op[0]) == TXNOBJ_OK && txnobj_give_up(&c[0], op[0]) == TXNOBJ_OK);
    assert(txnobj_give_up(&c[0], op[0]) == TXNOBJ_UNKNOWN && txnobj_answered(&c[0], op[0], &a) == TXNOBJ_UNKNOWN);
    /* a view that was let go */
    assert(txnobj_end_view(&c[1], view[1]) == TXNOBJ_OK && txnobj_end_view(&c[1], view[1]) == TXNOBJ_OK);
    assert(txnobj_holder_refresh(&c[1], view[1], &op[1]) == TXNOBJ_UNKNOWN);
    /* one that runs as its client is closed */
    assert(txnobj_read(&c[0], &op[0]) == TXNOBJ_OK);
}

int main(void) {
    begin();
    count();
    uint64_t newest = claim();
    collect(newest);
    pass_by(newest);
    refuse(newest);
    for (int i = 0; i < 2; i++) txnobj_close(&c[i]);
    txnobj_close(&c[0]);
    assert(txnobj_read(&c[0], &op[0]) == TXNOBJ_UNKNOWN);
    for (int i = 0; i < FILES; i++) free(files[i].bytes);
    puts("ok");
    return 0;
}
