/*
 * fiddlecomet.h: questions to a packed sheet of row policies.
 *
 * Six calls over bytes and numbers. Every input gets a reply: no call has a precondition beyond what
 * C itself asks of a pointer and its length, none traps, none allocates, none keeps anything.
 *
 * What a host must know
 *
 *   Pointers and lengths. Each pointer comes with the number of bytes that may be read (or, for out,
 *   written) there. Where a length is 0 nothing is touched and the pointer may be null. Any length is
 *   allowed; what is too long is refused by number.
 *
 *   Inputs are only read. out must not overlap sheet, session or rows.
 *
 *   Refusals. In each reply `refusal` 0 is an answer. Otherwise it is one of the numbers below, every
 *   other number of the reply is 0, and no byte of out has changed. Of several faults the one that
 *   is reached first is named: 1, then the sheet's fields from left to right (2 to 9), then 10, 11,
 *   12, 13, 14, 15, 16.
 *
 *   Answers that write. The first `length` bytes of out are the answer; those behind are as found.
 *
 *   State and threads. There is none: calls on any number of threads at once do not disturb each
 *   other, and the same input always gets the same reply. No locale, no clock, no file, no heap.
 *
 *   Stack. A call uses a bounded amount of the caller's stack and no other memory of its own; the
 *   figures measured for each call stand in docs/PERFORMANCE.md.
 *
 * Numbers asked
 *
 *   table     0 .. T-1, in the order of the sheet
 *   command   FIDDLECOMET_SELECT, _INSERT, _UPDATE, _DELETE
 *   a, b      policies 0 .. P-1, in the order of the sheet
 *
 * The bytes of sheets, sessions and row lists are described in docs/HANDBOOK.md.
 */
#ifndef FIDDLECOMET_H
#define FIDDLECOMET_H

#include <stddef.h>
#include <stdint.h>

#ifdef __cplusplus
extern "C" {
#endif

/* Commands. */
#define FIDDLECOMET_SELECT 0u
#define FIDDLECOMET_INSERT 1u
#define FIDDLECOMET_UPDATE 2u
#define FIDDLECOMET_DELETE 3u

/* Lengths that are not refused. */
#define FIDDLECOMET_SHEET_BYTES 16384u    /* longer sheets: refusal 1 */
#define FIDDLECOMET_ROW_LIST_BYTES 65536u /* longer row lists: refusal 15 */

/* Most branches that dead and isolated judge; more: refusal 13. */
#define FIDDLECOMET_MOST_BRANCHES 256u

/* Refusals, by number. */
#define FIDDLECOMET_ANSWERED 0u          /* no refusal */
#define FIDDLECOMET_SHEET_TOO_LONG 1u    /* sheet over 16,384 bytes */
#define FIDDLECOMET_CUT_SHORT 2u         /* a field isn't wholly there */
#define FIDDLECOMET_EDITION 3u           /* edition other than 1 */
#define FIDDLECOMET_COUNT 4u             /* a count not allowed */
#define FIDDLECOMET_CODE 5u              /* kind 3, variable 24..31, operator 9..15 */
#define FIDDLECOMET_NUMBER 6u            /* column, key or table number not below its count; a held column
                                            at or above the column count */
#define FIDDLECOMET_KIND 7u              /* equated variables of unlike kinds, an order operator on a
                                            non-integer, a value not of the kind */
#define FIDDLECOMET_NO_COMMAND 8u        /* a policy for no command */
#define FIDDLECOMET_TOO_DEEP 9u          /* a selector node at depth seven */
#define FIDDLECOMET_LEFT_OVER 10u        /* a padding bit 1, or bytes left over */
#define FIDDLECOMET_COLUMN_NOT_HELD 11u  /* a selector matches a table without a column that the policy's
                                            atoms use */
#define FIDDLECOMET_NOT_THERE 12u        /* table or policy number asked not there, or command over 3 */
#define FIDDLECOMET_TOO_MANY_BRANCHES 13u /* N over 256 (dead and isolated only) */
#define FIDDLECOMET_NO_ROOM 14u          /* out shorter than the sheet (normal form) or than the row list
                                            (listing) */
#define FIDDLECOMET_ROWS 15u             /* session or row list not of its form */
#define FIDDLECOMET_LONGER 16u           /* the normal form is longer than its sheet */

/* A listing: its length in bytes and its row count. */
typedef struct { uint32_t refusal, length, rows; } fiddlecomet_listed;
/* A normal form: its length in bytes. */
typedef struct { uint32_t refusal, length; } fiddlecomet_written;
/* dead is 1 where no row and session is admitted. */
typedef struct { uint32_t refusal, dead; } fiddlecomet_life;
/* leaks is 0 for an isolated table; otherwise 1, and (a, b) is the first pair of branches that leak. */
typedef struct { uint32_t refusal, leaks, a, b; } fiddlecomet_isolation;
/* covers is 1 where policy a covers policy b. */
typedef struct { uint32_t refusal, covers; } fiddlecomet_cover;
/* N, the number of branches. */
typedef struct { uint32_t refusal; uint64_t count; } fiddlecomet_branch_count;

/*
 * Lists the rows of a table that a session is admitted to under a command: their bytes one after
 * another in out, in the order of the list, and no others. out must be at least as long as rows
 * (refusal 14), so that every listing fits. Refusals 1 to 12, 14, 15.
 */
fiddlecomet_listed fiddlecomet_listing(const uint8_t *sheet, size_t sheet_len, uint32_t table, uint32_t command,
    const uint8_t *session, size_t session_len, const uint8_t *rows, size_t rows_len, uint8_t *out, size_t out_len);

/*
 * Writes the sheet's normal form, itself a sheet, which admits the same rows for every table,
 * command and session; normalising it again gives the same bytes. out must be at least as long as
 * the sheet (refusal 14). Refusals 1 to 11, 14, 16.
 */
fiddlecomet_written fiddlecomet_normal_form(const uint8_t *sheet, size_t sheet_len, uint8_t *out, size_t out_len);

/* Is there no row and session that the table admits under the command? Refusals 1 to 13. */
fiddlecomet_life fiddlecomet_dead(const uint8_t *sheet, size_t sheet_len, uint32_t table, uint32_t command);

/*
 * Is there no row that the table admits under the command for two sessions of different tenants
 * (key 0 differs, null counted as one more value)? Refusals 1 to 13.
 */
fiddlecomet_isolation fiddlecomet_isolated(const uint8_t *sheet, size_t sheet_len, uint32_t table, uint32_t command);

/* Is each clause of policy b that can be met covered by one clause of policy a? Refusals 1 to 12. */
fiddlecomet_cover fiddlecomet_covers(const uint8_t *sheet, size_t sheet_len, uint32_t a, uint32_t b);

/*
 * The number of branches of the table under the command, at any size (never refusal 13); a count
 * past 2^64 - 1 is given as 2^64 - 1. Refusals 1 to 12.
 */
fiddlecomet_branch_count fiddlecomet_branches(const uint8_t *sheet, size_t sheet_len, uint32_t table, uint32_t command);

#ifdef __cplusplus
}
#endif

#endif
