/* The shore end of one link, for C: WTLS (WAP-261, 6 April 2001) with one ship's unit, proved in Rattle.

   Link target/staticlib/libgateway.a (`tools/library gateway`). There is no heap, no global and no system call: a connection,
   a tally and a gatherer of short messages live in bytes that the caller lends, and nothing is kept between calls. A call may
   be made on any bytes whatever: what is lent is tested, and what is wrong is refused with a number. A refused call leaves
   every lent byte as it was, but for what gateway_gather and gateway_message say of the gathering.

   Lent bytes may be copied, stored and lent again later, by this program or another one: they are the connection. They hold the
   session's master secret.

   What the caller owes: each pointer has as many bytes behind it as the length beside it says (with a length of 0 it may be
   NULL), one that is not const overlaps no other of that call, and nothing else touches them before it returns.

   `crates/gateway/src/lib.rt` has each promise below as a theorem, by the definitions in `crates/lent/specs`,
   `crates/lentshort/specs` and the crates below. */
#ifndef GATEWAY_H
#define GATEWAY_H

#include <stddef.h>
#include <stdint.h>

#ifdef __cplusplus
extern "C" {
#endif

/* The sizes of what is lent, in bytes. */
#define GATEWAY_STATE_SIZE 940   /* a connection; the places are listed in crates/lent/specs/Saved.antt */
#define GATEWAY_TALLY_SIZE 16    /* a tally: handed out, forged, too old, repeated; four bytes each, high byte first */
#define GATEWAY_ANSWERS_SIZE 192 /* the answers of a receive: eight of 24 bytes each */
#define GATEWAY_ANSWER_SIZE 24
#define GATEWAY_ID_SIZE 8
#define GATEWAY_SECRET_SIZE 20
#define GATEWAY_RANDOM_SIZE 16
#define GATEWAY_WIDTH_LEAST 32   /* the widths that a window may have */
#define GATEWAY_WIDTH_MOST 64
#define GATEWAY_REPLY_ROOM 128   /* the least room that a receive needs for a reply */
#define GATEWAY_DATAGRAM_MOST 1400
#define GATEWAY_DATA_MOST 1300
#define GATEWAY_SEND_ROOM 1323   /* room for anything that a send can write: 3 + 1,300 + 20 */
#define GATEWAY_RECORDS_MOST 8
#define GATEWAY_NAME_ROOM 10     /* room for the name of any MAC kind */
#define GATEWAY_GATHERER_SIZE 5700 /* a gatherer; the places are listed in crates/lentshort/specs/Saved.antt */
#define GATEWAY_ASSEMBLY_ROOM 1400 /* the least room of an assembly buffer */
#define GATEWAY_SAID_SIZE 10       /* what became of a short message */
#define GATEWAY_REFERENCES_MOST 4  /* how many references a gatherer holds at once */

/* What every call answers is one number of three parts. A part that a call says nothing of is 0; where it is refused, so is every
   part but the refusal, save for the offset of 1 to 5. */
#define GATEWAY_REFUSAL(result) ((unsigned)((result) >> 32))           /* 0: done; else a refusal number */
#define GATEWAY_WRITTEN(result) ((size_t)((result) >> 16 & 0xffff))    /* bytes now at the front of `out` */
#define GATEWAY_COUNT(result) ((size_t)((result) & 0xffff))            /* as each call says */

/* The refusal numbers. 18 is reserved: it was a hello while Open, and is not given any more. */
enum gateway_refusal {
    GATEWAY_DONE = 0,
    GATEWAY_SIZE = 1,              /* datagram of 0 or over 1,400 bytes */
    GATEWAY_HEADER = 2,            /* a record header's fields pass the end */
    GATEWAY_TYPE = 3,              /* reserved bit set, no sequence number, content not 1 to 4 */
    GATEWAY_LENGTH = 4,            /* length past the end, or empty fragment */
    GATEWAY_NINTH = 5,             /* a ninth record begins */
    GATEWAY_ROOM = 6,              /* output buffer too short */
    GATEWAY_ENDED = 7,             /* Barred, or Closed except for start again and close */
    GATEWAY_NOT_ALLOWED = 8,       /* record or call not allowed in this state or place */
    GATEWAY_FORGED = 9,            /* code not right */
    GATEWAY_TOO_OLD = 10,          /* number too old */
    GATEWAY_REPEATED = 11,         /* number repeated */
    GATEWAY_MALFORMED = 12,        /* malformed content */
    GATEWAY_UNACCEPTABLE = 13,     /* hello well formed, not acceptable */
    GATEWAY_CHECKSUM = 14,         /* clear alert with the checksum of none of the last eight records sent */
    GATEWAY_SPENT = 15,            /* sending number spent */
    GATEWAY_ARGUMENT = 16,         /* argument out of range; also: the bytes lent are no saved connection */
    GATEWAY_WRONG_FINISHED = 17,   /* genuine Finished with wrong contents */
    GATEWAY_MESSAGE_HEADER = 19,   /* no ports, an element past its end or of wrong length, total over 11, place 0 or above the total */
    GATEWAY_PART_DIFFERS = 20,     /* same place with other bytes, or same reference with another total */
    GATEWAY_GATHERER_FULL = 21,    /* a new reference while all four are in use */
    GATEWAY_PARTS_LONG = 22        /* parts over 1,400 bytes together with this one: the reference is dropped */
};

enum gateway_state {
    GATEWAY_IDLE = 0,
    GATEWAY_REPLIED = 1,
    GATEWAY_SPEC = 2,
    GATEWAY_OPEN = 3,
    GATEWAY_CLOSED = 4,
    GATEWAY_BARRED = 5
};

/* What a record gave. */
enum gateway_kind {
    GATEWAY_NOTHING = 0,   /* no record stood in this place */
    GATEWAY_REPLY = 1,     /* a new reply; `size` bytes of it stand in `out` */
    GATEWAY_RESENT = 2,    /* the kept reply again; `size` bytes of it stand in `out` */
    GATEWAY_CHANGED = 3,   /* change cipher spec */
    GATEWAY_OPENED = 4,    /* Finished verified: the connection is open; in Open, the handshake started beside it has replaced it */
    GATEWAY_AGAIN = 5,     /* Finished verified once more */
    GATEWAY_DATA = 6,      /* data handed out: `size` bytes of the datagram from `start` on, under `number` */
    GATEWAY_WARNING = 7,   /* alerts, by level, with their `description` */
    GATEWAY_CRITICAL = 8,  /* closed; a clear one in Open ends only the handshake started beside it: gateway_state tells */
    GATEWAY_FATAL = 9,     /* a clear fatal alert: closed; in Open it ends only the handshake started beside it */
    GATEWAY_BAR = 10,      /* a protected fatal alert: the session is barred */
    GATEWAY_REFUSED = 11   /* the record was refused with the number `refusal` */
};

/* One answer, read out of the 192 bytes. What does not belong to its kind is 0. Its 24 bytes, numbers with the high byte first:

       place  bytes
           0      1  kind
           1      1  refusal
           2      1  description: the alert's, by its number in 002 10.2
           3      1  0
           4      4  number: the record's, of data handed out
           8      8  start: where in the datagram the data handed out begins
          16      8  size: of the data handed out, or of the reply in `out` */
struct gateway_answer {
    unsigned kind, refusal, description, number;
    size_t start, size;
};

/* A fresh connection of a planted session: an identifier of 8 bytes, a master secret of 20, the width of its window, 32 to 64, and
   940 bytes for the connection, whatever they hold. A record is too old if its number is at most the highest accepted less the
   width: 32 serves a link that keeps the order nearly, 64 one that stores and forwards. The width stays what it is here, over
   close and start again.
   Done: they hold a connection in Idle. Refused: 16, where one of the three has another length, or the width is none. */
uint64_t gateway_fresh(const uint8_t *id, size_t id_size, const uint8_t *secret, size_t secret_size, uint32_t width,
                       uint8_t *state, size_t state_size);

/* Takes a datagram. `random` is 16 fresh bytes for the server random of a reply (only a new reply uses them; that they are fresh
   is the caller's duty), `out` has room of at least 128 bytes for the reply.
   Done: the count is the number of records, 1 to 8, and `answers` has an answer for each, in their order, and GATEWAY_NOTHING
   behind them; where answer 0 is a reply or a resent one, the bytes written stand at the front of `out` and are to be sent, else
   none is written; the connection is as the records left it; each record handed out, forged, too old or repeated has raised its
   count of the tally by one, so a datagram raises a count by up to eight, never above 2^32 - 1. No other byte of `out` is touched.
   Refused: 16 (random not 16 bytes, or no saved connection, or a tally or answers of another size), 6 (room under 128), or the
   framing, 1 to 5, with the offset of the record at fault as the count. */
uint64_t gateway_receive(uint8_t *state, size_t state_size, uint8_t *tally, size_t tally_size,
                         const uint8_t *datagram, size_t datagram_size, const uint8_t *random, size_t random_size,
                         uint8_t *out, size_t room, uint8_t *answers, size_t answers_size);

/* Writes a record with 1 to 1,300 bytes of data, to be sent as a datagram, in Open only.
   Done: the bytes written stand at the front of `out`, no other byte of it is touched, and our number is spent.
   Refused, in this order: 16, 7, 8, 15, 6. */
uint64_t gateway_send_data(uint8_t *state, size_t state_size, const uint8_t *data, size_t data_size,
                           uint8_t *out, size_t room);

/* Writes an alert, clear (0; in Replied and Spec, and in Open on a handshake that is started beside it) or protected (1; in Replied,
   Spec and Open), with a level of 1 to 3, a description of 002 10.2, and the checksum of the record that it answers (0 to 1,400 bytes
   as they were on the wire).
   Done: as for data. Nothing closes: that is a call of its own. Refused, in this order: 16, 7, 8, 15, 6. */
uint64_t gateway_send_alert(uint8_t *state, size_t state_size, uint32_t is_protected, uint32_t level, uint32_t description,
                            const uint8_t *answered, size_t answered_size, uint8_t *out, size_t room);

/* Leads anywhere but Barred to Closed; a handshake started beside an open one is dropped. Refused: 16, 7. */
uint64_t gateway_close(uint8_t *state, size_t state_size);

/* Start again: leads from Closed to Idle, and forgets the window, the kept hello and the records
   that we sent. Refused: 16, 7, 8. */
uint64_t gateway_start(uint8_t *state, size_t state_size);

/* The connection's state as the count, one of enum gateway_state. Refused: 16, where the bytes are no saved connection: with
   this, bytes that come from elsewhere can be tested. */
uint64_t gateway_state(const uint8_t *state, size_t state_size);

/* The arrival report: how many of the newest numbers have arrived, the highest included, as many of them as the width says; 0
   before the first. It is the count. Refused: 16, where the bytes are no saved connection. */
uint64_t gateway_arrived(const uint8_t *state, size_t state_size);

/* The width of the connection's window as it is saved, as the count. Refused: 16, where the bytes are no saved connection. */
uint64_t gateway_width(const uint8_t *state, size_t state_size);

/* What a list of MAC kinds (002 appendix A, table 6) says of a number, 0 to 255: edition 1 is the older list, 2 that of April
   2001. It is no matter of a connection: a connection has kind 2 or 3 whatever the edition.
   Done: the bytes written at the front of `out` are the name, without a zero behind it; none, where that edition does not list the
   number. The count has the sizes. No other byte of `out` is touched. Refused, in this order: 16 (an edition other than 1 and 2, a
   number over 255), 6 (room under 10). */
uint64_t gateway_mac(uint32_t edition, uint32_t number, uint8_t *out, size_t room);

/* The sizes of a MAC kind: whether the list shows them, and then its key and its code, in bytes. */
#define GATEWAY_MAC_SHOWN(result) (((result) >> 15 & 1) != 0)
#define GATEWAY_MAC_KEY(result) ((size_t)((result) >> 8 & 0x7f))
#define GATEWAY_MAC_CODE(result) ((size_t)((result) & 0xff))

/* An empty gatherer of short messages in 5,700 bytes, whatever they hold: no reference is held. The bytes of its parts stay what
   they are. Refused: 16, where the bytes are not as many. */
uint64_t gateway_gatherer(uint8_t *gatherer, size_t gatherer_size);

/* Gathers one short message: its user data, which is a header of GSM 03.40 with ports and perhaps a place among parts, and a part.
   `assembly` has room of at least 1,400 bytes; `said` is 10 bytes.
   Done: `said` tells what became of it, one of enum gateway_message_kind, and where the datagram that it shows stands; that one is
   for gateway_receive on whichever connection it is for. `assembly` is written to only where it then has the datagram.
   Refused, in this order: 16 (no saved gatherer, or `said` of another size), 6 (`assembly` under 1,400), 19, 20, 21, 22; these
   change nothing, save that 22 drops the reference.
   A late copy of a part of a finished reference begins a new gathering. So that these do not fill the gatherer, drop what has
   waited too long. */
uint64_t gateway_gather(uint8_t *gatherer, size_t gatherer_size, const uint8_t *message, size_t message_size,
                        uint8_t *assembly, size_t assembly_size, uint8_t *said, size_t said_size);

/* Takes one short message for a connection: it is gathered as gateway_gather does it, and the datagram that it then shows is
   received as gateway_receive does it. The gatherer is no part of the connection: whichever messages are to be gathered together
   are lent the same one.
   Done: `said` tells what became of it. A message that waits leaves the connection, the tally, `assembly`, `out` and `answers`.
   One that shows a datagram, where it was received or at the front of `assembly`, is answered as gateway_receive answers that
   datagram: the count, what is written, the answers with their places counted in the datagram.
   Refused, in this order: 16 (as for a receive; also: no saved gatherer, or `said` of another size), 6 (room under 128, or
   `assembly` under 1,400), 19, 20, 21, 22; these change nothing, save that 22 drops the reference. Then the framing of the
   datagram that is shown, 1 to 5, as for a receive: it leaves the connection, the tally, `out` and `answers`; but the
   reference is finished, `said` tells of it, and `assembly` has the datagram. */
uint64_t gateway_message(uint8_t *state, size_t state_size, uint8_t *tally, size_t tally_size,
                         uint8_t *gatherer, size_t gatherer_size, const uint8_t *message, size_t message_size,
                         uint8_t *assembly, size_t assembly_size, const uint8_t *random, size_t random_size,
                         uint8_t *said, size_t said_size, uint8_t *out, size_t room,
                         uint8_t *answers, size_t answers_size);

/* Drops a reference, 0 to 255; one that is not held changes nothing. Refused: 16, where the reference is over 255 or the bytes are
   no saved gatherer. */
uint64_t gateway_drop(uint8_t *gatherer, size_t gatherer_size, uint32_t reference);

/* What slot 0 to 3 of a gatherer holds: as the bytes written, how many places have come; the count has its total, 0 where the slot
   is free, and its reference. Refused: 16, where the slot is over 3 or the bytes are no saved gatherer: with this, bytes that come
   from elsewhere can be tested. */
uint64_t gateway_held(const uint8_t *gatherer, size_t gatherer_size, uint32_t slot);

#define GATEWAY_HELD_TOTAL(result) ((unsigned)((result) >> 8 & 0xff))
#define GATEWAY_HELD_REFERENCE(result) ((unsigned)((result) & 0xff))

/* What became of a short message. */
enum gateway_message_kind {
    GATEWAY_WAITING = 1,     /* it waits: `have` of `total` parts of its `reference` have come */
    GATEWAY_IN_MESSAGE = 2,  /* the datagram is the message from `place` on */
    GATEWAY_IN_ASSEMBLY = 3  /* the datagram is the first `place` bytes of the assembly buffer */
};

/* It, read out of the 10 bytes. What does not belong to its kind is 0. The bytes, numbers with the high byte first:

       place  bytes
           0      1  kind
           1      1  reference
           2      1  have
           3      1  total
           4      2  destination: the port
           6      2  originator: the port
           8      2  place */
struct gateway_said {
    unsigned kind, reference, have, total, destination, originator;
    size_t place;
};

/* The number that n bytes spell, high byte first. */
static inline uint64_t gateway_number(const uint8_t *bytes, size_t n) {
    uint64_t number = 0;
    while (n-- > 0) number = number << 8 | *bytes++;
    return number;
}

/* Answer i, 0 to 7, of the 192 bytes. */
static inline struct gateway_answer gateway_answer_at(const uint8_t *answers, size_t i) {
    const uint8_t *a = answers + GATEWAY_ANSWER_SIZE * i;
    struct gateway_answer answer = {a[0], a[1], a[2], (unsigned)gateway_number(a + 4, 4),
                                    (size_t)gateway_number(a + 8, 8), (size_t)gateway_number(a + 16, 8)};
    return answer;
}

static inline struct gateway_said gateway_said_in(const uint8_t *s) {
    struct gateway_said said = {s[0], s[1], s[2], s[3], (unsigned)gateway_number(s + 4, 2), (unsigned)gateway_number(s + 6, 2),
                                (size_t)gateway_number(s + 8, 2)};
    return said;
}

#ifdef __cplusplus
}
#endif

#endif
