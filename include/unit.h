/* The shipboard end of one link, for C: WTLS (WAP-261, 6 April 2001) between a ship's unit and the shore, proved in Rattle.

   Link target/staticlib/libshipboard.a (`tools/library shipboard`). There is no heap, no global and no system call: a unit and a
   tally live in bytes that the caller lends, and nothing is kept between calls. The stack that each call takes is in docs/SPEED.md.
   A call may be made on any bytes whatever: what is lent is tested, and what is wrong is refused with a number. A refused call
   leaves every lent byte as it was.

   Lent bytes may be copied, stored and lent again later, by this program or another one: they are the unit. They hold the
   session's master secret.

   What the caller owes: each pointer has as many bytes behind it as the length beside it says (with a length of 0 it may be
   NULL), one that is not const overlaps no other of that call, and nothing else touches them before it returns. Timers are the
   caller's, too: unit_again gives what is to be sent once more.

   A ship's day: unit_fresh once; unit_hello, and send what it wrote; unit_again while nothing comes; unit_receive on each
   datagram that comes, and send the flight where it wrote one; from then on unit_send_data; unit_again before a report as long as
   it is not refused; unit_close and unit_start before the next hello. examples/ship.c does it.

   `crates/shipboard/src/lib.rt` has each promise below as a theorem, by the definitions in `crates/lentunit/specs` and the crates
   below. */
#ifndef UNIT_H
#define UNIT_H

#include <stddef.h>
#include <stdint.h>

#ifdef __cplusplus
extern "C" {
#endif

/* The sizes of what is lent, in bytes. */
#define UNIT_STATE_SIZE 180   /* a unit; the places are listed in crates/lentunit/specs/Saved.antt */
#define UNIT_TALLY_SIZE 16    /* a tally: handed out, forged, too old, repeated; four bytes each, high byte first */
#define UNIT_ANSWERS_SIZE 192 /* the answers of a receive: eight of 24 bytes each */
#define UNIT_ANSWER_SIZE 24
#define UNIT_ID_SIZE 8
#define UNIT_SECRET_SIZE 20
#define UNIT_RANDOM_SIZE 16
#define UNIT_WIDTH_LEAST 32   /* the widths that a window may have */
#define UNIT_WIDTH_MOST 64
#define UNIT_FLIGHT_ROOM 128  /* the least room that a receive needs for our flight */
#define UNIT_AGAIN_ROOM 45    /* room for anything that unit_hello or unit_again can write */
#define UNIT_DATAGRAM_MOST 1400
#define UNIT_DATA_MOST 1300
#define UNIT_SEND_ROOM 1323   /* room for anything that a send can write: 3 + 1,300 + 20 */
#define UNIT_RECORDS_MOST 8
#define UNIT_MAC_SHA_80 2     /* the MAC kinds that a hello may offer, by their numbers in 002 appendix A */
#define UNIT_MAC_SHA 3

/* What every call answers is one number of three parts. A part that a call says nothing of is 0; where it is refused, so is every
   part but the refusal, save for the offset of 1 to 5. */
#define UNIT_REFUSAL(result) ((unsigned)((result) >> 32))           /* 0: done; else a refusal number */
#define UNIT_WRITTEN(result) ((size_t)((result) >> 16 & 0xffff))    /* bytes now at the front of `out` */
#define UNIT_COUNT(result) ((size_t)((result) & 0xffff))            /* as each call says */

/* The refusal numbers: the shore's. 18 and above are not given here. */
enum unit_refusal {
    UNIT_DONE = 0,
    UNIT_SIZE = 1,              /* datagram of 0 or over 1,400 bytes */
    UNIT_HEADER = 2,            /* a record header's fields pass the end */
    UNIT_TYPE = 3,              /* reserved bit set, no sequence number, content not 1 to 4 */
    UNIT_LENGTH = 4,            /* length past the end, or empty fragment */
    UNIT_NINTH = 5,             /* a ninth record begins */
    UNIT_ROOM = 6,              /* output buffer too short */
    UNIT_ENDED = 7,             /* Barred, or Closed except for start again and close */
    UNIT_NOT_ALLOWED = 8,       /* record or call not allowed in this state or place */
    UNIT_FORGED = 9,            /* code not right */
    UNIT_TOO_OLD = 10,          /* number too old */
    UNIT_REPEATED = 11,         /* number repeated */
    UNIT_MALFORMED = 12,        /* malformed content */
    UNIT_UNACCEPTABLE = 13,     /* ServerHello well formed, no answer to what was offered */
    UNIT_CHECKSUM = 14,         /* clear alert with the checksum of none of the last eight records sent */
    UNIT_SPENT = 15,            /* sending number spent */
    UNIT_ARGUMENT = 16,         /* argument out of range; also: the bytes lent are no saved unit */
    UNIT_WRONG_FINISHED = 17    /* genuine Finished with wrong contents */
};

enum unit_state {
    UNIT_IDLE = 0,
    UNIT_SENT = 1,     /* the hello is written */
    UNIT_REPLIED = 2,  /* a ServerHello that answers it was read */
    UNIT_SPEC = 3,     /* and a change cipher spec */
    UNIT_OPENING = 4,  /* the shore's Finished is verified and our flight is written: data may be sent and comes */
    UNIT_OPEN = 5,     /* the first data has come, or the warning on a repeated Finished: the shore has our flight */
    UNIT_CLOSED = 6,
    UNIT_BARRED = 7
};

/* What a record gave. Kinds that the shore has too go by its numbers; 2 is not given. */
enum unit_kind {
    UNIT_NOTHING = 0,   /* no record stood in this place */
    UNIT_HELLO = 1,     /* a ServerHello that answers the offer */
    UNIT_CHANGED = 3,   /* change cipher spec */
    UNIT_OPENED = 4,    /* the shore's Finished verified; `size` bytes of our flight stand in `out` */
    UNIT_AGAIN = 5,     /* Finished verified once more */
    UNIT_DATA = 6,      /* data handed out: `size` bytes of the datagram from `start` on, under `number` */
    UNIT_WARNING = 7,   /* alerts, by level, with their `description` */
    UNIT_CRITICAL = 8,  /* closed */
    UNIT_FATAL = 9,     /* a clear fatal alert: closed */
    UNIT_BAR = 10,      /* a protected fatal alert: the session is barred */
    UNIT_REFUSED = 11,  /* the record was refused with the number `refusal` */
    UNIT_REQUEST = 12,  /* a HelloRequest: the shore asks for a hello */
    UNIT_IGNORED = 13   /* a HelloRequest in the middle of a handshake */
};

/* One answer, read out of the 192 bytes. What does not belong to its kind is 0. Its 24 bytes, numbers with the high byte first:

       place  bytes
           0      1  kind
           1      1  refusal
           2      1  description: the alert's, by its number in 002 10.2
           3      1  0
           4      4  number: the record's, of data handed out
           8      8  start: where in the datagram the data handed out begins
          16      8  size: of the data handed out, or of the flight in `out` */
struct unit_answer {
    unsigned kind, refusal, description, number;
    size_t start, size;
};

/* A fresh unit of a planted session: an identifier of 8 bytes, a master secret of 20, the width of its window, 32 to 64, and 180
   bytes for the unit, whatever they hold. A record is too old if its number is at most the highest accepted less the width. The
   width stays what it is here, over close and start again.
   Done: they hold a unit in Idle. Refused: 16, where one of the three has another length, or the width is none. */
uint64_t unit_fresh(const uint8_t *id, size_t id_size, const uint8_t *secret, size_t secret_size, uint32_t width,
                    uint8_t *state, size_t state_size);

/* Writes the hello, to be sent as a datagram, in Idle only. `random` is 16 fresh bytes (that they are fresh is the caller's duty);
   `macs` has the MAC kinds offered in the order of preference, one or both of 2 and 3; `refresh` is the key refresh suggested, 0 to
   255: a key serves 2^refresh records, above 15 all of them.
   Done: the bytes written, 43 or 45, stand at the front of `out`, no other byte of it is touched, and the unit is in Sent.
   Refused, in this order: 16, 7, 8, 6. */
uint64_t unit_hello(uint8_t *state, size_t state_size, const uint8_t *random, size_t random_size,
                    const uint8_t *macs, size_t macs_size, uint32_t refresh, uint8_t *out, size_t room);

/* Gives the datagram that is to be sent once more where no answer came: in Sent, Replied and Spec the hello, in Opening the flight
   (change cipher spec and Finished, 34 or 44 bytes). Nothing of the unit changes.
   Done: the bytes written stand at the front of `out`, and no other byte of it is touched.
   Refused, in this order: 16, 7, 8 (in Idle nothing was sent, in Open nothing is owed), 6. */
uint64_t unit_again(const uint8_t *state, size_t state_size, uint8_t *out, size_t room);

/* Takes a datagram. `out` has room of at least 128 bytes for our flight.
   Done: the count is the number of records, 1 to 8, and `answers` has an answer for each, in their order, and UNIT_NOTHING behind
   them; where one of them is UNIT_OPENED, the bytes written stand at the front of `out` and are to be sent, else none is
   written; the unit is as the records left it; each record handed out, forged, too old or repeated has raised its count of the
   tally by one, never above 2^32 - 1. No other byte of `out` is touched.
   Refused: 16 (no saved unit, or a tally or answers of another size), 6 (room under 128), or the framing, 1 to 5, with the offset
   of the record at fault as the count. */
uint64_t unit_receive(uint8_t *state, size_t state_size, uint8_t *tally, size_t tally_size,
                      const uint8_t *datagram, size_t datagram_size, uint8_t *out, size_t room,
                      uint8_t *answers, size_t answers_size);

/* Writes a record with 1 to 1,300 bytes of data, to be sent as a datagram, in Opening and in Open.
   Done: the bytes written stand at the front of `out`, no other byte of it is touched, and our number is spent.
   Refused, in this order: 16, 7, 8, 15, 6. */
uint64_t unit_send_data(uint8_t *state, size_t state_size, const uint8_t *data, size_t data_size, uint8_t *out, size_t room);

/* Writes an alert, clear (0; in Sent, Replied and Spec) or protected (1; in Opening and Open), with a level of 1 to 3, a description
   of 002 10.2, and the checksum of the record that it answers (0 to 1,400 bytes as they were on the wire).
   Done: as for data. Nothing closes: that is a call of its own. Refused, in this order: 16, 7, 8, 15, 6. */
uint64_t unit_send_alert(uint8_t *state, size_t state_size, uint32_t is_protected, uint32_t level, uint32_t description,
                         const uint8_t *answered, size_t answered_size, uint8_t *out, size_t room);

/* Leads anywhere but Barred to Closed. Refused: 16, 7. */
uint64_t unit_close(uint8_t *state, size_t state_size);

/* Start again: leads from Closed to Idle, and forgets the window, the hello, the flight and the records that we sent.
   Refused: 16, 7, 8. */
uint64_t unit_start(uint8_t *state, size_t state_size);

/* The unit's state as the count, one of enum unit_state. Refused: 16, where the bytes are no saved unit: with this, bytes that come
   from elsewhere can be tested. */
uint64_t unit_state(const uint8_t *state, size_t state_size);

/* The arrival report: how many of the newest numbers have arrived, the highest included, as many of them as the width says; 0
   before the first. It is the count. Refused: 16, where the bytes are no saved unit. */
uint64_t unit_arrived(const uint8_t *state, size_t state_size);

/* The width of the unit's window as it is saved, as the count. Refused: 16, where the bytes are no saved unit. */
uint64_t unit_width(const uint8_t *state, size_t state_size);

/* The number that n bytes spell, high byte first. */
static inline uint64_t unit_number(const uint8_t *bytes, size_t n) {
    uint64_t number = 0;
    while (n-- > 0) number = number << 8 | *bytes++;
    return number;
}

/* Answer i, 0 to 7, of the 192 bytes. */
static inline struct unit_answer unit_answer_at(const uint8_t *answers, size_t i) {
    const uint8_t *a = answers + UNIT_ANSWER_SIZE * i;
    struct unit_answer answer = {a[0], a[1], a[2], (unsigned)unit_number(a + 4, 4),
                                 (size_t)unit_number(a + 8, 8), (size_t)unit_number(a + 16, 8)};
    return answer;
}

#ifdef __cplusplus
}
#endif

#endif
