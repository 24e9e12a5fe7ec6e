/*
 * birnsket.h: the bench hub's ambient screen, for callers in C.
 *
 * Link with libbirnsket.a, which `./build birnsket` writes and ./install
 * puts into lib/, with this header in include/. It is for x86-64 with the
 * System V calling convention only, and needs memcpy and memset of whatever it
 * is linked with, nothing else. This header compiles as C99 and as C++11. The formats, the
 * words and the rules that the calls use are explained first; each call's
 * contract stands with it.
 *
 * WHAT A CALLER OWES
 *
 * The promises below are proved for callers that keep these rules. Nothing
 * checks them at run time.
 *
 *  - A buffer is a pointer to its first byte and its length. The length is
 *    always in bytes, not in records, labels or steps. The pointer is never
 *    null, not even for length 0; with length 0 any other address will do,
 *    since nothing is read or written there. Bytes need no alignment.
 *  - All bytes of the length given are the caller's, initialised and readable;
 *    those of a buffer passed without `const` can be written too. A length
 *    is at most PTRDIFF_MAX.
 *  - A buffer passed without `const` overlaps no other buffer of the same
 *    call. Buffers passed with `const` may overlap each other.
 *  - During the call nobody else (thread, interrupt, device) writes a buffer
 *    of the call, and nobody else reads one passed without `const`.
 *  - The stack has room: allow 32 KiB (HUB_STACK) below the caller. The depth
 *    is measured, not proved: the deepest found of any call is about 16 KiB,
 *    over chains and rings of 1,024 records.
 *  - Nothing else uses the 128 bytes below the stack pointer (the convention's
 *    red zone): an interrupt handler that runs on this stack skips them. SSE
 *    registers are used as the convention has it: they are enabled, and saved
 *    by whoever interrupts.
 *  - A number is of its parameter's type: C cuts a wider one without a word, so
 *    that record 65,537 would be taken for record 1, and label 256 for 0.
 *
 * Apart from that any bytes of any length are fine: what is not as it should
 * be is refused.
 *
 * WHAT IS PROVED, AND WHAT IS NOT
 *
 * Proved, for callers that keep these rules: what each call returns and what
 * every buffer holds afterwards, as said with the call, for good and refused
 * inputs alike; that no byte outside the buffers is read or written; that every
 * call returns.
 * Argued from the source: a call keeps no pointer, has no state and takes no
 * memory from a heap, since the language has none of these; so it may be made
 * from several threads at once, on buffers that no other thread writes.
 * Measured: the stack. Tried by fuzzing with guard pages and under valgrind:
 * that the compiled calls touch no byte outside the buffers.
 * Not claimed: anything about time.
 *
 * BUFFERS
 *
 *  itinerary  0 to 1,024 records of 8 bytes, numbered from 1; number 0 is the
 *             environment.
 *               byte 0        kind: 0 gone, 1 ambient, 2 in, 3 out, 4 open,
 *                             5 copier; kinds 2 to 4 are capabilities
 *               byte 1        label: 1 to 63 on an ambient, 64 to 127 on a
 *                             capability, 0 on a copier
 *               byte 2        name, 0 to 63: an ambient bears it, a
 *                             capability targets it; 0 on a copier
 *               byte 3        zero
 *               bytes 4, 5    the parent's number, low byte first: 0 or a
 *                             record that is not gone
 *               bytes 6, 7    the client's number, 0 to 999, low byte first
 *             A gone record is eight zero bytes. Climbing from a record to its
 *             parent, as often as there are records, must reach 0.
 *  policy     64 bytes, one a label: 0 low, 1 high, 2 boundary. Byte 0, the
 *             environment, is 0.
 *  table      1,544 bytes. Bit k is in byte k / 8 (whole part) with value 2 to
 *             the power k mod 8, counted from the start of its row or of S.
 *               I  bytes 0 to 1,023, a row of 16 bytes for each label 0 to 63;
 *                  bit k says that label k may stand directly in it. Bit 0 is
 *                  clear in every row.
 *               H  bytes 1,024 to 1,535, a row of 8 bytes for each label;
 *                  bit n says that it may bear name n. Row 0 is zero.
 *               S  bytes 1,536 to 1,543; bit k says that label k is suspect.
 *  script     0 to 1,024 steps of 4 bytes: actor, partner, low byte first.
 *  answers    one byte for each step of the script.
 *  sheet      as long as the itinerary.
 *  set        four itineraries, the members, that are joined. An unused place
 *             is an itinerary of no records: length 0, and as always any
 *             address but null.
 *  joined     the joined itinerary, as long as the members together.
 *  list       pairs of actor and partner, each 4 bytes as a step of a script.
 *             The buffer may be longer than what hub_moves finds: n * n bytes
 *             suffice for n records, 1,048,576 (HUB_LONGEST_LIST) for any.
 *
 * WORDS
 *
 *  above      Reached by climbing from parent to parent; the record itself is
 *             not counted.
 *  beneath    A record is beneath those above it.
 *  children   The records that have this one as parent: what stands directly
 *             in an ambient, in parallel, what follows a capability, and what
 *             a copier copies with all that is beneath it.
 *  container  Of a record: the label of the nearest ambient above it, or 0.
 *             Capabilities and copiers on the way are passed.
 *  boundary ambient
 *             An ambient whose label is boundary in the policy. The nearest one
 *             above a record is the first met by climbing; capabilities,
 *             copiers and other ambients on the way are passed.
 *  active     A capability or a copier is active when all records above it are
 *             ambients.
 *  suspect    A label is suspect when it is in S; high or boundary as the
 *             policy has it. An ambient is suspect, high or boundary as its
 *             label is.
 *  hidden     A record is hidden if it, or a record above it, is an ambient
 *             whose label is in S.
 *  (x, k)     Is in I, or in H, when bit k of row x there is one.
 *
 * WHEN A TABLE HOLDS
 *
 * A table holds for an itinerary and a policy when
 *
 *  - for each ambient or capability, (container, label) is in I;
 *  - for each ambient, (label, name) is in H;
 *  - every high label is in S;
 *  - for each capability record, standing anywhere, of label t and name n, and
 *    for all labels a, b, p from 0 to 63, equal or not:
 *      in    if (a, t), (p, a), (p, b) are in I and (b, n) in H,
 *            then (b, a) is in I, and if b is in S so is a;
 *      out   if (a, t), (b, a), (p, b) are in I and (b, n) in H,
 *            then (p, a) is in I, and if b is in S so is a;
 *      open  if (p, t), (p, b) are in I and (b, n) in H,
 *            then row b of I is inside row p, and if b is in S so is p.
 *
 * A row is inside another if each of its bits that is one is one there too.
 * A table is accepted when it holds and hub_check has no other cause to
 * refuse. The least table is accepted, and each of its bits that is one is one
 * in every accepted table.
 *
 * STEPS
 *
 * A step names an actor and a partner by their numbers. The actor is a
 * capability c, and active. In and out need an ambient a as c's parent. The
 * partner is fit when it is as said here, else unfit:
 *
 *  in    The partner is an ambient other than a, with a's parent and c's name;
 *        it becomes a's parent.
 *  out   The partner is an ambient, a's parent, with c's name; a's parent
 *        becomes the partner's parent.
 *  open  The partner is an ambient with c's parent and c's name; its children
 *        go to that parent, and it becomes gone.
 *
 * Then c's children go to c's parent, and c becomes gone. No other byte
 * changes. A boundary never stops a step.
 *
 * COPYING
 *
 * Nothing beneath a copier acts: it can be copied, again and again, to act
 * beside the copier. A copy is made of all records beneath an active copier,
 * of copiers and what is beneath these too. The k-th of them by number goes
 * into the k-th gone record by number, with its kind, label, name and client.
 * Its parent there is the copy of its parent or, for a child of the copier,
 * the copier's parent. The copier stays, and so do all other records.
 * A table that holds holds after a copy too.
 *
 * JOINING
 *
 * Itineraries are joined by putting their records one after another and adding
 * the earlier record count to each parent that is not 0. Ambients of all of
 * them that stand in the environment then stand there in parallel. A table
 * holds for the joined itinerary and a policy exactly when it holds for each
 * member and that policy, an unused place included (for it every high label
 * has to be in S, and nothing else).
 *
 * VERDICT
 *
 * R is the least set with 0 in it, and with each label k from 1 to 63 where
 * (x, k) is in I for some x in R that is not boundary.
 *
 *  exposed  A high label is in R; the verdict's label is the lowest such one.
 *  hinted   No high label is in R, but S and R meet; the verdict's label is
 *           the lowest label of both, 0 if the environment is suspect.
 *  sealed   Otherwise; the verdict's label is 0.
 *
 * ANSWERS
 *
 * Every call returns a struct of its own, whose fields are all uint32_t; the
 * first two are `number` and `record`. Both are 0 when the call was done; the
 * fields after them are then as said with the call. Otherwise `number` is that
 * of the first cause to refuse, `record` the record it was found at (0 if it is
 * none's), and the fields after them are 0.
 *
 * A refused call leaves every buffer as it was. A call that is done changes
 * what is passed without `const`, as said with the call, and nothing else.
 *
 * Causes are looked for in this order, as far as the call has them: 1; then
 * record by record 2, 3, 4, 5; then 6, 16, 17, 18, 7, 8, 13, 14, 15, 9, 10, 11,
 * 12.
 * Where itineraries are joined, 1 to 6 are looked for in the first member, then
 * in the second, the third and the fourth; `record` is counted within the
 * member, and which one it is isn't told.
 *
 * VERSION
 *
 * HUB_VERSION is major * 65536 + minor * 256 + patch. A change raises
 *
 *  major  where an entry goes, its arguments or a struct's fields change, a
 *         format changes, an input gets another answer, or a caller owes more
 *         (HUB_STACK grows);
 *  minor  where an entry, a macro or a helper is new;
 *  patch  where nothing changes that a caller can see but speed, words, or
 *         less stack.
 *
 * A part that is raised sets those after it to 0. hub_version() is the version
 * of the archive that is linked; a program that was compiled with this header
 * goes with an archive of the same major and of the same or a later minor part.
 */
#ifndef BIRNSKET_H
#define BIRNSKET_H

#include <stddef.h>
#include <stdint.h>

#ifdef __cplusplus
extern "C" {
#endif

/* The version of this header; see VERSION above. */
#define HUB_VERSION 0x040000u

/* Lengths in bytes, and how many records and steps there can be. */
#define HUB_RECORD_LENGTH 8
#define HUB_MOST_RECORDS 1024
#define HUB_POLICY_LENGTH 64
#define HUB_TABLE_LENGTH 1544
#define HUB_ROW_LENGTH 16
#define HUB_STEP_LENGTH 4
#define HUB_MOST_STEPS 1024

/* No list of moves is longer: those of n records have at most n * n bytes. */
#define HUB_LONGEST_LIST 1048576

/* Bytes of stack to allow for a call; see WHAT A CALLER OWES. */
#define HUB_STACK 32768

/* Byte 0 of a record. */
enum {
    HUB_GONE = 0,
    HUB_AMBIENT = 1,
    HUB_IN = 2,
    HUB_OUT = 3,
    HUB_OPEN = 4,
    HUB_COPIER = 5
};

/* Bytes of a policy. */
enum { HUB_LOW = 0, HUB_HIGH = 1, HUB_BOUNDARY = 2 };

/* Field `verdict` of hub_verdict and of hub_screen. */
enum { HUB_EXPOSED = 1, HUB_HINTED = 2, HUB_SEALED = 3 };

/*
 * Field `number` of every result, and the bytes of answers (0, 10, 11, 12).
 * hub_cause has them in words; 2 to 6 come with a record.
 */
enum {
    HUB_DONE = 0,
    HUB_REFUSED_LENGTH = 1,  /* the itinerary's */
    HUB_REFUSED_FORM = 2,    /* kind, byte 3, client, gone record not all 0 */
    HUB_REFUSED_LABEL = 3,
    HUB_REFUSED_NAME = 4,    /* a copier's is 0 */
    HUB_REFUSED_PARENT = 5,
    HUB_REFUSED_CLIMB = 6,   /* `record` is the lowest that doesn't reach 0 */
    HUB_REFUSED_POLICY = 7,
    HUB_REFUSED_TABLE = 8,   /* length or form */
    HUB_REFUSED_HOLDS = 9,   /* the table doesn't hold */
    HUB_REFUSED_ACTOR = 10,
    HUB_REFUSED_ACTIVE = 11, /* the actor is not, or moves no ambient */
    HUB_REFUSED_PARTNER = 12,
    HUB_REFUSED_SCRIPT = 13, /* or its answers */
    HUB_REFUSED_SHEET = 14,
    HUB_REFUSED_LIST = 15,   /* shorter than the list */
    HUB_REFUSED_SET = 16,    /* too many records, or the buffer's length */
    HUB_REFUSED_COPIER = 17, /* no copier, or not active */
    HUB_REFUSED_ROOM = 18    /* too few gone records for a copy */
};

typedef struct HubValidateResult {
    uint32_t number;
    uint32_t record;
    uint32_t records;
} HubValidateResult;

typedef struct HubClimbResult {
    uint32_t number;
    uint32_t record;
    uint32_t label;
    uint32_t boundary;
} HubClimbResult;

typedef struct HubSheetResult {
    uint32_t number;
    uint32_t record;
} HubSheetResult;

typedef struct HubStepResult {
    uint32_t number;
    uint32_t record;
} HubStepResult;

typedef struct HubRunResult {
    uint32_t number;
    uint32_t record;
    uint32_t ins;
    uint32_t outs;
    uint32_t opens;
} HubRunResult;

typedef struct HubCopyResult {
    uint32_t number;
    uint32_t record;
    uint32_t copied;
} HubCopyResult;

typedef struct HubMovesResult {
    uint32_t number;
    uint32_t record;
    uint32_t done;
    uint32_t no_capability;
    uint32_t inactive;
    uint32_t unfit;
} HubMovesResult;

typedef struct HubCheckResult {
    uint32_t number;
    uint32_t record;
} HubCheckResult;

typedef struct HubJoinResult {
    uint32_t number;
    uint32_t record;
} HubJoinResult;

typedef struct HubMakeResult {
    uint32_t number;
    uint32_t record;
    uint32_t bits;
} HubMakeResult;

typedef struct HubVerdictResult {
    uint32_t number;
    uint32_t record;
    uint32_t verdict;
    uint32_t label;
} HubVerdictResult;

typedef struct HubExposedResult {
    uint32_t number;
    uint32_t record;
    uint32_t exposed;
} HubExposedResult;

typedef struct HubRowResult {
    uint32_t number;
    uint32_t record;
    uint32_t offset;
    uint32_t length;
} HubRowResult;

typedef struct HubScreenResult {
    uint32_t number;
    uint32_t record;
    uint32_t verdict;
    uint32_t label;
    uint32_t bits;
    uint32_t ins;
    uint32_t outs;
    uint32_t opens;
    uint32_t records;
} HubScreenResult;

/* The version of the archive, as HUB_VERSION. */
uint32_t hub_version(void);

/*
 * Validates an itinerary.
 * Done: `records` is the number of records, gone ones counted.
 * Refuses with 1 to 6.
 */
HubValidateResult hub_validate(const uint8_t *itinerary,
                               size_t itinerary_length);

/*
 * What stands above record `number`: its container, and the nearest boundary
 * ambient.
 * Done: `label` is the container, the label of the nearest ambient above the
 * record, 0 if no ambient is above it; `boundary` is the number of the nearest
 * boundary ambient above it, 0 if there is none. Both are 0 for number 0, a
 * number over the count or a gone record.
 * Refuses with 1 to 6, 7.
 */
HubClimbResult hub_climb(const uint8_t *itinerary, size_t itinerary_length,
                         const uint8_t *policy, size_t policy_length,
                         uint16_t number);

/*
 * Writes the observer's sheet, by itinerary and table alone: whether the table
 * holds is not looked at.
 * Done: the sheet has each record that is neither hidden nor gone as in the
 * itinerary, and eight zero bytes for each other.
 * Refuses with 1 to 6, 8, 14.
 */
HubSheetResult hub_sheet(const uint8_t *itinerary, size_t itinerary_length,
                         const uint8_t *table, size_t table_length,
                         uint8_t *sheet, size_t sheet_length);

/*
 * Does one step in the itinerary. Actor and partner are any numbers from 0 to
 * 65,535.
 * Done: the itinerary is that after the step.
 * Refuses with 1 to 6, 10, 11, 12.
 */
HubStepResult hub_step(uint8_t *itinerary, size_t itinerary_length,
                       uint16_t actor, uint16_t partner);

/*
 * Does the steps of a script in order, each in the itinerary that the one
 * before it left; a step that is refused changes nothing and the run goes on.
 * Done: the itinerary is that after the last step; answers has a byte for each
 * step, 0 where it was done, else 10, 11 or 12; `ins`, `outs` and `opens` are
 * the number of in, out and open steps done.
 * Refuses with 1 to 6, 13.
 */
HubRunResult hub_run(uint8_t *itinerary, size_t itinerary_length,
                     const uint8_t *script, size_t script_length,
                     uint8_t *answers, size_t answers_length);

/*
 * Copies all records beneath a copier into gone records, as in COPYING.
 * Done: the itinerary is that after the copy; `copied` is how many records were
 * copied, 0 if nothing is beneath the copier. So many more records are not gone.
 * Refuses with 1 to 6, with 17 a number that is no active copier, whatever else
 * it is, and then with 18 an itinerary that has fewer gone records than records
 * beneath the copier.
 */
HubCopyResult hub_copy(uint8_t *itinerary, size_t itinerary_length,
                       uint16_t number);

/*
 * Lists what the bench can do next: each pair of actor and partner, both from 1
 * to the record count, whose step would be done; and counts all such pairs by
 * what a step of theirs would answer. No step is done.
 * Done: the list's first 4 * `done` bytes have the pairs, each once, by actor
 * and then by partner, low bytes first; its other bytes are as they were.
 * `done` is how many pairs would answer 0, `no_capability` how many 10,
 * `inactive` 11, `unfit` 12; the four add up to the record count times itself.
 * Refuses with 1 to 6, and with 15 a list buffer that is shorter than the list:
 * nothing is then written, and the counts are 0. So a call that is lent no
 * bytes is done if nothing can move, and else doesn't tell how many are needed;
 * lend as many bytes as the record count times itself.
 */
HubMovesResult hub_moves(const uint8_t *itinerary, size_t itinerary_length,
                         uint8_t *list, size_t list_length);

/*
 * Checks that a table holds for an itinerary and a policy.
 * Done: the table is accepted.
 * Refuses with 1 to 6, 7, 8, 9.
 */
HubCheckResult hub_check(const uint8_t *itinerary, size_t itinerary_length,
                         const uint8_t *policy, size_t policy_length,
                         const uint8_t *table, size_t table_length);

/*
 * Joins four itineraries and checks that a table holds for what they are
 * joined: that hub_check takes the table for the joined itinerary.
 * Done: the table is accepted, and `joined` has the joined itinerary.
 * Refuses with 1 to 6 of the first member, of the second, of the third and of
 * the fourth, each in full before the next; with 16 a set of more than 1,024
 * records together, or a buffer that is not of the joined length, shorter or
 * longer; then with 7, 8, 9. Refused for whatever cause, 9 too, the buffer is
 * as it was.
 */
HubJoinResult hub_join(const uint8_t *first, size_t first_length,
                       const uint8_t *second, size_t second_length,
                       const uint8_t *third, size_t third_length,
                       const uint8_t *fourth, size_t fourth_length,
                       const uint8_t *policy, size_t policy_length,
                       const uint8_t *table, size_t table_length,
                       uint8_t *joined, size_t joined_length);

/*
 * Makes the least table that holds for an itinerary and a policy. What the
 * table had before makes no difference.
 * Done: the table is the least one; `bits` is how many of its bits are one.
 * Refuses with 1 to 6, 7, and with 8 a table that is not 1,544 bytes.
 */
HubMakeResult hub_make(const uint8_t *itinerary, size_t itinerary_length,
                       const uint8_t *policy, size_t policy_length,
                       uint8_t *table, size_t table_length);

/*
 * The verdict on an itinerary, a policy and a table, after the check.
 * Done: `verdict` is HUB_EXPOSED, HUB_HINTED or HUB_SEALED; `label` is the
 * verdict's label, 0 if sealed.
 * Refuses with 1 to 6, 7, 8, 9.
 */
HubVerdictResult hub_verdict(const uint8_t *itinerary, size_t itinerary_length,
                             const uint8_t *policy, size_t policy_length,
                             const uint8_t *table, size_t table_length);

/*
 * Whether the verdict on an itinerary, a policy and a table is exposed, after
 * the check, for a caller that needs no label and no hint.
 * Done: `exposed` is 1 if a high label is in R, which is where hub_verdict
 * gives HUB_EXPOSED; else 0, be the verdict hinted or sealed.
 * Refuses with 1 to 6, 7, 8, 9, as hub_verdict does; `exposed` is then 0 too,
 * so look at `number` first: a device that shows no exposure for a refused
 * table would mislead. (It looks no further than the row of the table in which
 * the first high label is reached: seen in the source, and measured.)
 */
HubExposedResult hub_exposed(const uint8_t *itinerary, size_t itinerary_length,
                             const uint8_t *policy, size_t policy_length,
                             const uint8_t *table, size_t table_length);

/*
 * The row of a label in I, as a part of the table that was passed.
 * Done: the row is the `length` bytes from table + `offset`: 16 bytes from
 * 16 * label; 0 and 0, the empty part, for a label over 63 or a table that is
 * not 1,544 bytes.
 * Never refuses: `number` and `record` are 0. (It looks at the length alone;
 * that no byte is read is seen in the source.)
 */
HubRowResult hub_row(const uint8_t *table, size_t table_length, uint8_t label);

/*
 * Makes the least table of the itinerary for itself, takes the verdict by it,
 * and then runs the script as hub_run does.
 * Done: itinerary and answers are as hub_run leaves them; `verdict` is
 * HUB_EXPOSED, HUB_HINTED or HUB_SEALED and `label` its label, 0 if sealed;
 * `bits` is how many bits of the table are one; `ins`, `outs` and `opens` are
 * the number of in, out and open steps done; `records` is how many records are
 * not gone at the end.
 * Refuses with 1 to 6, 7, 13.
 */
HubScreenResult hub_screen(uint8_t *itinerary, size_t itinerary_length,
                           const uint8_t *policy, size_t policy_length,
                           const uint8_t *script, size_t script_length,
                           uint8_t *answers, size_t answers_length);

#ifdef __cplusplus
}
#endif

/*
 * HELPERS
 *
 * They are compiled with the caller's code and are no part of the archive;
 * nothing is proved of them. A record's bytes, and a step's, are all the
 * caller's: the helpers check no length.
 */

/* What a record says; byte 3 isn't looked at. */
typedef struct HubRecord {
    uint8_t kind;
    uint8_t label;
    uint8_t name;
    uint16_t parent;
    uint16_t client;
} HubRecord;

typedef struct HubStep {
    uint16_t actor;
    uint16_t partner;
} HubStep;

/* Writes the HUB_RECORD_LENGTH bytes of a record, byte 3 zero. */
static inline void hub_write_record(uint8_t *bytes, uint8_t kind, uint8_t label,
                                    uint8_t name, uint16_t parent,
                                    uint16_t client)
{
    bytes[0] = kind;
    bytes[1] = label;
    bytes[2] = name;
    bytes[3] = 0;
    bytes[4] = (uint8_t)(parent & 255u);
    bytes[5] = (uint8_t)(parent >> 8);
    bytes[6] = (uint8_t)(client & 255u);
    bytes[7] = (uint8_t)(client >> 8);
}

/* Reads the 8 bytes of a record. */
static inline HubRecord hub_read_record(const uint8_t *bytes)
{
    HubRecord record;
    record.kind = bytes[0];
    record.label = bytes[1];
    record.name = bytes[2];
    record.parent = (uint16_t)(bytes[4] | (unsigned)bytes[5] << 8);
    record.client = (uint16_t)(bytes[6] | (unsigned)bytes[7] << 8);
    return record;
}

/* Writes the HUB_STEP_LENGTH bytes of a step. */
static inline void hub_write_step(uint8_t *bytes, uint16_t actor,
                                  uint16_t partner)
{
    bytes[0] = (uint8_t)(actor & 255u);
    bytes[1] = (uint8_t)(actor >> 8);
    bytes[2] = (uint8_t)(partner & 255u);
    bytes[3] = (uint8_t)(partner >> 8);
}

/* Reads the 4 bytes of a step. */
static inline HubStep hub_read_step(const uint8_t *bytes)
{
    HubStep step;
    step.actor = (uint16_t)(bytes[0] | (unsigned)bytes[1] << 8);
    step.partner = (uint16_t)(bytes[2] | (unsigned)bytes[3] << 8);
    return step;
}

/* A result's number, or an answer's byte, in words. */
static inline const char *hub_cause(uint32_t number)
{
    switch (number) {
    case HUB_DONE:
        return "done";
    case HUB_REFUSED_LENGTH:
        return "itinerary length no multiple of 8, or over 8,192";
    case HUB_REFUSED_FORM:
        return "kind over 5, byte 3 not 0, a client over 999, or a gone record "
               "not all 0";
    case HUB_REFUSED_LABEL:
        return "label wrong for its kind";
    case HUB_REFUSED_NAME:
        return "name over 63, or not 0 on a copier";
    case HUB_REFUSED_PARENT:
        return "parent over the record count, or a record of kind 0";
    case HUB_REFUSED_CLIMB:
        return "climbing doesn't reach 0";
    case HUB_REFUSED_POLICY:
        return "policy not 64 bytes, a byte over 2, or byte 0 not 0";
    case HUB_REFUSED_TABLE:
        return "table not 1,544 bytes, bit 0 of a row of I set, or row 0 of H "
               "not 0";
    case HUB_REFUSED_HOLDS:
        return "the table doesn't hold for itinerary and policy";
    case HUB_REFUSED_ACTOR:
        return "actor 0, over the count, or no capability";
    case HUB_REFUSED_ACTIVE:
        return "actor inactive, or in/out without an ambient as parent";
    case HUB_REFUSED_PARTNER:
        return "partner unfit for any cause, 0 and over the count included";
    case HUB_REFUSED_SCRIPT:
        return "script no multiple of 4 or over 4,096, or answers not one byte "
               "a step";
    case HUB_REFUSED_SHEET:
        return "sheet not as long as the itinerary";
    case HUB_REFUSED_LIST:
        return "list buffer shorter than the list";
    case HUB_REFUSED_SET:
        return "over 1,024 records together, or a buffer not of the joined "
               "length";
    case HUB_REFUSED_COPIER:
        return "number 0, over the count, or no active copier";
    case HUB_REFUSED_ROOM:
        return "fewer gone records than records beneath the copier";
    default:
        return "unknown cause";
    }
}

#endif
