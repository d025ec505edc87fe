/* Clients of a shared, versioned object: a library that does no I/O.
 *
 * The host begins a call, asks what store call it wants, makes that call in any way, and hands in the reply, until the operation
 * has ended. Versions are immutable files numbered from 1; file 0 is the boundary's. A host keeps them under any names that it
 * maps one to one to these numbers.
 *
 *     uint64_t op;
 *     txnobj_asked_t asked;
 *     txnobj_answered_t answer;
 *     txnobj_load(&client, &op);
 *     for (;;) {
 *         txnobj_asked(&client, op, &asked);
 *         if (asked.kind == TXNOBJ_ASKS_NOTHING) break;
 *         if (asked.kind == TXNOBJ_ASKS_LOOK) txnobj_look(&client, op);
 *         else { make the store call; txnobj_put, txnobj_got, txnobj_listed or txnobj_deleted(&client, op, ..); }
 *     }
 *     txnobj_answered(&client, op, &answer);
 *     txnobj_end(&client, op);
 *
 * What each function does is proved, by its contract in crates/txnobj_c/src. Nothing checks that C meets what is said here:
 *  - A txnobj_client is all zero bytes, and holds nothing, or is as this library left it. It may be moved in memory, and not
 *    copied. Who has it closes it once.
 *  - One call at a time on a client, on any thread: a lock around it suffices.
 *  - Pointers are valid for their lengths, are not null where the length is not 0, and what is written through overlaps nothing
 *    else that is passed. A bool is 0 or 1.
 *  - malloc, realloc and free are those of one C library.
 *
 * What the theorem on histories asks of the host beside that, and no call tests:
 *  - Its store does what the requests say: a put of mode CREATE takes effect where no file stands there, one of mode UPDATE where
 *    the file has that token, each at one moment; a get and a listing tell what stands; a reply is that of this call.
 *  - A token names one put for ever: no two files, and no two states of one file, have the same. It is any number of 64 bits.
 *  - A store call of which nobody knows whether it took effect is answered with FAILED, and with no other error.
 *  - A client's number is its own for ever among the clients of an object: a program that starts again takes another one.
 */
#ifndef TXNOBJ_H
#define TXNOBJ_H
#include <stdbool.h>
#include <stddef.h>
#include <stdint.h>
#ifdef __cplusplus
extern "C" {
#endif

typedef struct {
    void *at;
    bool made;
} txnobj_client; /* {0} holds nothing */

/* The code of a call: 0, or why it was not done. Then nothing has changed, in the client and in what is written through. */
enum {
    TXNOBJ_OK = 0,
    TXNOBJ_UNKNOWN = 1,          /* no client; an operation, an answer or a view that is not there; a view of the other kind */
    TXNOBJ_NOT_ASKED = 2,        /* the operation asks for something else */
    TXNOBJ_UNKNOWN_BASE = 3,     /* a base that no checked call of this client answered, or that it forgot */
    TXNOBJ_BOUNDARY_TOO_HIGH = 4,/* a boundary that is neither 0 nor below an id that a checked call of this client answered */
    TXNOBJ_EPOCH_LOWERED = 5,    /* a value whose epoch is below that of its base */
    TXNOBJ_VIEW_BUSY = 6,        /* a view on which an operation runs */
    TXNOBJ_NO_MEMORY = 7         /* a growth was refused: the same call may be made again */
};

/* what an operation asks for */
enum { TXNOBJ_ASKS_NOTHING, TXNOBJ_ASKS_LOOK, TXNOBJ_ASKS_PUT, TXNOBJ_ASKS_GET, TXNOBJ_ASKS_LIST, TXNOBJ_ASKS_DELETE };
/* the mode of a put: no file stands there, one of this token does, nothing is asked. A get of mode 1 wants NOT_MODIFIED where the
 * file still has the token. */
enum { TXNOBJ_CREATE, TXNOBJ_UPDATE, TXNOBJ_OVERWRITE };
typedef struct {
    uint8_t kind, mode;
    uint64_t version; /* 0: the boundary; of a listing, the version after which it begins, 0 for the first */
    uint64_t token;
    uint64_t limit;   /* of a listing: so many versions at most, ascending */
    size_t len;       /* of a put: so many bytes (txnobj_asked_bytes) */
} txnobj_asked_t;

/* What the store replied: 0, or why not. FAILED, and any number above 7: nobody knows whether it took effect. */
enum {
    TXNOBJ_NOT_FOUND = 1,        /* of a get: no file */
    TXNOBJ_ALREADY_EXISTS = 2,   /* of a put of mode CREATE: a file stands there */
    TXNOBJ_PRECONDITION = 3,     /* of a put of mode UPDATE: no file, or another token */
    TXNOBJ_NOT_MODIFIED = 4,     /* of a get of mode 1: the file still has the token */
    TXNOBJ_FAILED = 5,
    TXNOBJ_STORE_NO_MEMORY = 6,  /* without effect */
    TXNOBJ_TOKENS_EXHAUSTED = 7  /* of a put, without effect */
};

/* a file of a listing */
typedef struct {
    uint64_t version, token;
    uint64_t size;    /* its bytes, so many */
} txnobj_listed_t;

/* how an operation ended */
enum {
    TXNOBJ_RUNS,
    TXNOBJ_WROTE,      /* id */
    TXNOBJ_READ,       /* id, epoch, bytes */
    TXNOBJ_READ_NONE,
    TXNOBJ_VALUE,      /* epoch, bytes */
    TXNOBJ_VALUE_NONE,
    TXNOBJ_IDS,        /* ids, ascending */
    TXNOBJ_DONE,
    TXNOBJ_REFUSED,    /* refusal */
    TXNOBJ_VIEW,       /* view, id, epoch, bytes */
    TXNOBJ_HELD        /* the same, and the holder's epoch */
};
/* why it was refused */
enum {
    TXNOBJ_R_STORE = 2,
    TXNOBJ_R_NONE = 4,
    TXNOBJ_R_CONFLICT = 5,
    TXNOBJ_R_FENCED = 6,
    TXNOBJ_R_INVALID = 7,
    TXNOBJ_R_NO_MEMORY = 9,
    TXNOBJ_R_EXHAUSTED = 10
};
typedef struct {
    uint8_t kind, refusal;
    uint64_t view;     /* the view's number */
    uint64_t id, epoch, holder;
    size_t len;        /* bytes of the value (txnobj_answered_bytes), or how many ids (txnobj_answered_ids) */
} txnobj_answered_t;

/* a view as it stands */
typedef struct {
    uint64_t id, epoch, holder;
    bool is_holder;
    size_t len;        /* bytes of its value (txnobj_view_bytes) */
} txnobj_view_t;

/* Makes a client of this number, at least 1, whose listings have pages of at most so many files, at least 1; else UNKNOWN.
 * What the handle held is dropped. */
uint8_t txnobj_open(txnobj_client *, uint64_t number, uint64_t page);
/* The same of a client that is recorded: rows of what it does wait until the host takes them off (below). */
uint8_t txnobj_open_recorded(txnobj_client *, uint64_t number, uint64_t page);
/* Drops a client: what its operations asked for may still reach the store. */
void txnobj_close(txnobj_client *);

/* Calls. Each begins an operation, whose number it writes; or tells why not. */
uint8_t txnobj_read(txnobj_client *, uint64_t *op);
uint8_t txnobj_read_version(txnobj_client *, uint64_t id, uint64_t *op);
uint8_t txnobj_read_seen(txnobj_client *, uint64_t id, uint64_t *op);
/* bounds: none (kind 0), within (1), not within (2) */
uint8_t txnobj_list(txnobj_client *, uint8_t from_kind, uint64_t from, uint8_t to_kind, uint64_t to, uint64_t *op);
uint8_t txnobj_delete(txnobj_client *, uint64_t id, uint64_t *op);
uint8_t txnobj_check(txnobj_client *, uint64_t id, uint64_t *op);
uint8_t txnobj_advance(txnobj_client *, uint64_t to, uint64_t *op);
/* base 0: as the first version */
uint8_t txnobj_write(txnobj_client *, uint64_t base, uint64_t epoch, const uint8_t *bytes, size_t len, uint64_t *op);
uint8_t txnobj_write_unchecked(txnobj_client *, uint64_t base, uint64_t epoch, const uint8_t *bytes, size_t len, uint64_t *op);
uint8_t txnobj_init(txnobj_client *, uint64_t epoch, const uint8_t *bytes, size_t len, uint64_t *op);
uint8_t txnobj_load(txnobj_client *, uint64_t *op);
uint8_t txnobj_refresh(txnobj_client *, uint64_t view, uint64_t *op);
uint8_t txnobj_update(txnobj_client *, uint64_t view, uint64_t epoch, const uint8_t *bytes, size_t len, uint64_t *op);
uint8_t txnobj_claim(txnobj_client *, uint64_t view, uint64_t *op);
uint8_t txnobj_claim_at(txnobj_client *, uint64_t view, uint64_t epoch, uint64_t *op);
uint8_t txnobj_holder_refresh(txnobj_client *, uint64_t view, uint64_t *op);
uint8_t txnobj_holder_update(txnobj_client *, uint64_t view, uint64_t epoch, const uint8_t *bytes, size_t len, uint64_t *op);

/* Two calls that test no boundary: READ or READ_NONE, the newest version, and DONE, the removal of a version. Their operations stand
 * beside the client and run as the others do, under numbers of their own, from 2^63. What they read only they find cached, and what
 * the client has cached stays. No theorem of many clients speaks of them, and no row of a recording tells of them: where a version
 * was removed by such a delete, an audit may refuse the recordings. */
uint8_t txnobj_read_latest_unchecked(txnobj_client *, uint64_t *op);
uint8_t txnobj_delete_unchecked(txnobj_client *, uint64_t id, uint64_t *op);

/* What the operation asks for next: nothing, where it is not there or has ended. */
uint8_t txnobj_asked(txnobj_client *, uint64_t op, txnobj_asked_t *);
/* The bytes of the put that it asks for, into as many bytes as it has; false, and nothing is written, where it is not so. */
bool txnobj_asked_bytes(txnobj_client *, uint64_t op, uint8_t *out, size_t len);

/* The reply to what it asked for. NOT_ASKED where it is of another kind. */
uint8_t txnobj_look(txnobj_client *, uint64_t op);
uint8_t txnobj_put(txnobj_client *, uint64_t op, uint8_t error, uint64_t token);
uint8_t txnobj_got(txnobj_client *, uint64_t op, uint8_t error, uint64_t token, const uint8_t *bytes, size_t len);
/* Versions that follow, ascending, and whether more follow them. */
uint8_t txnobj_listed(txnobj_client *, uint64_t op, uint8_t error, const uint64_t *versions, size_t n, bool more);
/* The same, with the token and the size of each file: the rows of a client that is recorded say them. */
uint8_t txnobj_listed_files(txnobj_client *, uint64_t op, uint8_t error, const txnobj_listed_t *files, size_t n, bool more);
uint8_t txnobj_deleted(txnobj_client *, uint64_t op, uint8_t error);
/* It ends without an answer: a put or a delete that it asks for may still reach the store. */
uint8_t txnobj_give_up(txnobj_client *, uint64_t op);

/* How it ended, or that it runs. The answer stays until txnobj_end. */
uint8_t txnobj_answered(txnobj_client *, uint64_t op, txnobj_answered_t *);
bool txnobj_answered_bytes(txnobj_client *, uint64_t op, uint8_t *out, size_t len);
bool txnobj_answered_ids(txnobj_client *, uint64_t op, uint64_t *out, size_t n);
/* Lets the answer go; UNKNOWN where none waits. */
uint8_t txnobj_end(txnobj_client *, uint64_t op);

/* A view as it stands, and the bytes of its value. */
uint8_t txnobj_view(txnobj_client *, uint64_t view, txnobj_view_t *);
bool txnobj_view_bytes(txnobj_client *, uint64_t view, uint8_t *out, size_t len);
/* Lets a view go. Nothing happens where there is none of this number. */
uint8_t txnobj_end_view(txnobj_client *, uint64_t view);
/* Forgets what the client no longer needs: its operations, where none of them runs, and of the ids that its checked calls answered
 * all but those at which its views stand, the greatest, and those of the last answers, so many as are asked for (128, say). A host
 * calls it after each operation, or now and then: else the client grows with each. Answers that wait stay. */
uint8_t txnobj_forget(txnobj_client *, size_t last);

/* Recordings. The rows of a client that is recorded are text, each with its line feed, for `txnobj audit`, which holds the
 * recordings of all clients of an object against the theorem. A file begins with a line that the host writes,
 * `of OBJECT clock CLOCK ahead N`: of what object it is, of which clock its times are, by a name that no other clock has, and how
 * many nanoseconds this is behind the time since 1970. Behind it stand the rows, in the order in which they are taken off.
 *
 *     txnobj_at(&client, now); txnobj_asking(&client, op);
 *     take the rows off, write them down; make the store call;
 *     txnobj_at(&client, now); txnobj_put, txnobj_got, txnobj_listed_files or txnobj_deleted(&client, op, ..);
 *
 * What a recording asks of the host, and no call tests; where it is not so, an audit refuses it, or speaks of what did not happen:
 *  - An operation begins once the one before has ended, and looks as soon as it asks to.
 *  - Before each store call comes txnobj_asking, once, and its row is written down; behind it comes the reply, and no giving up
 *    (FAILED, where the host does not wait for it).
 *  - Times do not fall: that of txnobj_asking is no later than the store call, and that of the reply no earlier.
 *  - A listing is answered by txnobj_listed_files.
 *  - No operation was refused for want of memory (TXNOBJ_R_NO_MEMORY): an audit has enough. */

/* Says the time of the rows that come next, in nanoseconds. Nothing happens where the client is not recorded. */
uint8_t txnobj_at(txnobj_client *, uint64_t at);
/* The operation is about to ask the store what it asks for: the row of that waits, where the client is recorded. NOT_ASKED for a
 * look. */
uint8_t txnobj_asking(txnobj_client *, uint64_t op);
/* How many bytes the rows have that wait: 0 where the client is not recorded. */
uint8_t txnobj_rows_len(txnobj_client *, size_t *len);
/* Takes the rows off, into as many bytes as they have; UNKNOWN, and nothing has changed, where it is not so. */
uint8_t txnobj_rows_take(txnobj_client *, uint8_t *out, size_t len);

#ifdef __cplusplus
}
#endif
#endif
