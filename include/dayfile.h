/* The day's list of reports as one file, for C: written, read and mended, proved in Rattle.

   Link target/staticlib/libdayfile.a (`tools/library dayfile`). There is no heap, no global and no system call, and nothing is kept
   between calls. A call may be made on any bytes whatever: what is lent is tested, and what is wrong is refused with a number. A
   refused call leaves every lent byte as it was. The work of a call is linear in what it is lent.

   The file: each report as D1, number, length and its 1 to 1,400 bytes; then D2, for each report its distance back from there, and
   the count. All four numbers are 2 bytes, high byte first. At most 4,096 reports and 65,536 bytes in all. One list has one file.

   What the caller owes: each pointer has as many elements behind it as the count beside it says (with a count of 0 it may be NULL),
   `out` overlaps nothing else that is lent, and nothing else touches them before the call returns.

   `crates/dayfile/src/lib.rt` has each promise below as a theorem, by the definitions in `crates/dayfile/specs`. */
#ifndef DAYFILE_H
#define DAYFILE_H

#include <stddef.h>
#include <stdint.h>

#ifdef __cplusplus
extern "C" {
#endif

#define DAYFILE_MOST_BYTES 65536   /* of a file */
#define DAYFILE_MOST_REPORTS 4096
#define DAYFILE_REPORT_MOST 1400   /* bytes of a report */
#define DAYFILE_HEAD 5             /* bytes of a report before its own */

/* What write, read and mend answer is one number of two parts; where the call is refused the second is 0. */
#define DAYFILE_REFUSAL(result) ((unsigned)((result) >> 32))         /* 0: done; else a refusal number */
#define DAYFILE_TOLD(result) ((size_t)((result) & 0xffffffff))       /* as each call says */

enum dayfile_refusal {
    DAYFILE_DONE = 0,
    DAYFILE_ROOM = 6,       /* too little room */
    DAYFILE_ARGUMENT = 16,  /* a report is not 1 to 1,400 bytes; also: what is lent is no list */
    DAYFILE_LIMIT = 24,     /* over 4,096 reports or 65,536 bytes */
    DAYFILE_NO_FILE = 25    /* the bytes are not the file of any list */
};

/* Writes the file of a list at the front of `out`, and touches no other byte. Report i has numbers[i] and the next sizes[i] of the
   bytes; there are as many numbers as sizes, and the sizes add up to bytes_size (else 16). Tells how many bytes the file has.
   Refusals, in this order: 16, 24, 6. */
uint64_t dayfile_write(const uint16_t *numbers, size_t numbers_count, const size_t *sizes, size_t sizes_count, const uint8_t *bytes,
                       size_t bytes_size, uint8_t *out, size_t room);

/* Whether the bytes are the file of a list. Tells how many reports it has. Refusals, in this order: 24, 25. */
uint64_t dayfile_read(const uint8_t *file, size_t size);

/* The whole report that begins at `at`; 0 where none does. Its bytes stand at file + at + DAYFILE_HEAD, and the next report behind
   them. The reports of a file that reads are those from place 0 on, one behind the other, until there is none:

       for (size_t at = 0; (r = dayfile_report(file, size, at)) != 0; at += DAYFILE_HEAD + DAYFILE_SIZE(r)) .. */
uint64_t dayfile_report(const uint8_t *file, size_t size, size_t at);
#define DAYFILE_NUMBER(report) ((uint16_t)((report) >> 16))
#define DAYFILE_SIZE(report) ((size_t)((report) & 0xffff))

/* Mends a cut file: writes the file of the longest run of whole reports from the front at the front of `out`, and touches no other byte.
   It has size - DAYFILE_AFTER(result) + 3 + 2 * DAYFILE_KEPT(result) bytes, always reads, and is the file lent where that reads.
   Refusals, in this order: 24, 6. */
uint64_t dayfile_mend(const uint8_t *file, size_t size, uint8_t *out, size_t room);
#define DAYFILE_KEPT(result) ((size_t)((result) >> 17 & 0x3fff))   /* reports kept */
#define DAYFILE_AFTER(result) ((size_t)((result) & 0x1ffff))       /* bytes that stood after them */
#define DAYFILE_CHANGED(result) ((int)((result) >> 31 & 1))        /* whether the bytes differ */

#ifdef __cplusplus
}
#endif

#endif
