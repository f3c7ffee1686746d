/* Selkaum for C: the functions of target/staticlib/libexport.a. Their contracts are proved (crates/export).
 *
 * `tools/prove library` makes the library, and examples/embed.c is a program to start from. The link line:
 *
 *     cc -Iinclude program.c target/staticlib/libexport.a -o program
 *
 * A lent buffer is a pointer and the number of bytes (of `ends`, of ends) behind it, in this order. A caller sees to it
 * that these are there, that those of a buffer that is written overlap no other buffer of the call, and that nothing
 * else writes them meanwhile. Nothing more is asked: every policy, every record and every length has an answer.
 *
 * No function keeps a pointer, allocates memory or has a state of its own, so any number of threads may call them at
 * the same time. Of the C library they need memcpy and memset, and nothing else. Calls were measured to take less than
 * 8 kilobytes of stack (6.3 for selkaum_judge, see docs/SPEED.md; selkaum_read_card takes the most). That they never
 * take more is not proved, so leave them 16. The code is for x86-64 Linux, with the calling convention of its System V
 * ABI, and can be linked into a shared object.
 */
#ifndef SELKAUM_H
#define SELKAUM_H

#include <stddef.h>
#include <stdint.h>

#ifdef __cplusplus
extern "C" {
#endif

/* ---- Requests
 *
 * A request is a record: its whole length in two bytes and its kind in two bytes, each with the low byte first, then a
 * byte for each field, the sender first. In hexadecimal, 08 00 01 00 01 02 02 00: member 1 makes member 2 in group 0.
 * docs/REQUESTS.md says what each kind does and who may send it.
 */
#define SELKAUM_RECORD_LENGTH 0
#define SELKAUM_RECORD_KIND 2
#define SELKAUM_RECORD_SENDER 4
#define SELKAUM_LONGEST_RECORD 10

/* The kinds, the length of each, and where its fields behind the sender are. */
#define SELKAUM_MAKE 1 /* a new object, at an empty place, of a sort, directly in a group */
#define SELKAUM_MAKE_BYTES 8
#define SELKAUM_MAKE_PLACE 5
#define SELKAUM_MAKE_SORT 6
#define SELKAUM_MAKE_GROUP 7

#define SELKAUM_PUT 2 /* an object directly into a group */
#define SELKAUM_PUT_BYTES 7
#define SELKAUM_PUT_OBJECT 5
#define SELKAUM_PUT_GROUP 6

#define SELKAUM_TAKE 3 /* an object out of a group that it is directly in */
#define SELKAUM_TAKE_BYTES 7
#define SELKAUM_TAKE_OBJECT 5
#define SELKAUM_TAKE_GROUP 6

#define SELKAUM_APPOINT 4 /* a warrant, at an empty place, for a holder; B is 0 but for an administrator */
#define SELKAUM_APPOINT_BYTES 10
#define SELKAUM_APPOINT_PLACE 5
#define SELKAUM_APPOINT_KIND 6
#define SELKAUM_APPOINT_HOLDER 7
#define SELKAUM_APPOINT_A 8
#define SELKAUM_APPOINT_B 9

#define SELKAUM_DISMISS 5 /* the warrant at a place */
#define SELKAUM_DISMISS_BYTES 6
#define SELKAUM_DISMISS_PLACE 5

#define SELKAUM_GRANT 6 /* a rule, at an empty place: those under U may do these operations on the gear under T */
#define SELKAUM_GRANT_BYTES 9
#define SELKAUM_GRANT_PLACE 5
#define SELKAUM_GRANT_U 6
#define SELKAUM_GRANT_T 7
#define SELKAUM_GRANT_OPERATIONS 8

#define SELKAUM_WITHDRAW 7 /* the rule at a place */
#define SELKAUM_WITHDRAW_BYTES 6
#define SELKAUM_WITHDRAW_PLACE 5

#define SELKAUM_USE 8 /* one operation, by its number, on gear */
#define SELKAUM_USE_BYTES 7
#define SELKAUM_USE_GEAR 5
#define SELKAUM_USE_OPERATION 6

/* Sorts of objects. */
#define SELKAUM_EMPTY 0
#define SELKAUM_GROUP 1
#define SELKAUM_MEMBER 2
#define SELKAUM_GEAR 3

/* Kinds of warrants (appointments). */
#define SELKAUM_OWNER 1
#define SELKAUM_MANAGER 2
#define SELKAUM_ADMINISTRATOR 3

/* Operations: the number that a USE has, and the bit in the operations of a rule. 6 and 7 are the club's own. */
#define SELKAUM_LISTEN 0
#define SELKAUM_TUNE 1
#define SELKAUM_TRANSMIT 2
#define SELKAUM_TURN 3
#define SELKAUM_POWER 4
#define SELKAUM_SETTINGS 5
#define SELKAUM_OPERATION_COUNT 8

#define SELKAUM_LISTEN_BIT 0x01
#define SELKAUM_TUNE_BIT 0x02
#define SELKAUM_TRANSMIT_BIT 0x04
#define SELKAUM_TURN_BIT 0x08
#define SELKAUM_POWER_BIT 0x10
#define SELKAUM_SETTINGS_BIT 0x20

/* Codes: done, the twelve refusals of a request, of which the first that applies is answered, two of a card, and two of
 * one who asks for a turn.
 */
#define SELKAUM_DONE 0
#define SELKAUM_TORN 1
#define SELKAUM_UNKNOWN 2
#define SELKAUM_MISFIT 3
#define SELKAUM_STRANGER 4
#define SELKAUM_OFF_THE_SHEET 5
#define SELKAUM_ABSENT 6
#define SELKAUM_WRONG_SORT 7
#define SELKAUM_ALREADY_SO 8
#define SELKAUM_NO_AUTHORITY 9
#define SELKAUM_OWN_GAIN 10
#define SELKAUM_HAND_OVER 11
#define SELKAUM_ORPHAN 12
#define SELKAUM_DAMAGED 13
#define SELKAUM_SHORT_CARD 14
#define SELKAUM_ALREADY_THERE 15
#define SELKAUM_LINE_FULL 16

/* No rule: what is cited by every answer but an accepted USE, and the place of a rule where none permits. */
#define SELKAUM_NONE 255

/* ---- The picture of a policy, 960 bytes
 *
 *     0 ..  63   64 sorts of a byte: 0 empty, 1 group, 2 member, 3 gear
 *    64 .. 575   64 rows of 8 bytes, the lowest first: row x is the set of the groups that x is directly in, bit g for
 *                group g
 *   576 .. 703   32 appointments (warrants) of 4 bytes: kind (0 empty, 1 owner, 2 manager, 3 administrator), holder, A,
 *                B
 *   704 .. 959   64 rules of 4 bytes: mark (1 in use, else empty), U, T, operations
 *
 * A mark that is neither 0 nor 1 is an empty place, and comes back as 0, even with a refusal; all other bytes of a
 * picture are kept as they are, but for what an accepted record or a card that is read changes.
 *
 * This is version 2 of the picture. In version 1 row g was the set of what is directly in g, bit x object x; all else
 * was the same.
 */
#define SELKAUM_POLICY_BYTES 960
#define SELKAUM_PICTURE_VERSION 2

#define SELKAUM_SORTS 0
#define SELKAUM_OBJECT_COUNT 64

#define SELKAUM_MEMBERSHIPS 64
#define SELKAUM_ROW_BYTES 8

#define SELKAUM_WARRANTS 576
#define SELKAUM_WARRANT_COUNT 32
#define SELKAUM_WARRANT_BYTES 4
#define SELKAUM_WARRANT_KIND 0 /* from the start of the warrant, as the next three */
#define SELKAUM_WARRANT_HOLDER 1
#define SELKAUM_WARRANT_A 2
#define SELKAUM_WARRANT_B 3

#define SELKAUM_RULES 704
#define SELKAUM_RULE_COUNT 64
#define SELKAUM_RULE_BYTES 4
#define SELKAUM_RULE_MARK 0 /* from the start of the rule, as the next three */
#define SELKAUM_RULE_U 1
#define SELKAUM_RULE_T 2
#define SELKAUM_RULE_OPERATIONS 3
#define SELKAUM_IN_USE 1 /* the mark of a rule that is in use */

/* Writes the picture of the founding over the first 960 bytes of `policy`: object 0 is a group, object 1 a member
 * directly in it, the founder, and warrant 0 makes him its owner. It has 1 at byte 0, 2 at byte 1, 1 at byte 72, 1 at
 * bytes 576 and 577, and 0 elsewhere. Bytes behind it stay as they are. Returns 960. If `policy_len` is less than 960,
 * it writes nothing and returns 0.
 */
size_t selkaum_initial(uint8_t *policy, size_t policy_len);

/* ---- Answers
 *
 * An answer: the picture of the policy after, the code at 960, the cited rule at 961.
 */
#define SELKAUM_ANSWER_BYTES 962
#define SELKAUM_CODE 960
#define SELKAUM_CITED 961

/* Judges one record on a policy, and writes the answer over the first 962 bytes of `answer`; those behind them stay as
 * they are. Returns 962. If `policy_len` is not 960, or `answer_len` is less than 962, it writes nothing and returns 0.
 */
size_t selkaum_judge(const uint8_t *policy, size_t policy_len,
                     const uint8_t *record, size_t record_len,
                     uint8_t *answer, size_t answer_len);

/* Judges the records that stand in `input` one after the other, the first on the founding, and writes the text that the
 * program prints: a line for each record, with its index from 0, its code and the cited rule, and one for a torn place,
 * which is the last. The length of the input has no limit: the program's `too long` is not among these lines. A buffer
 * that is too small gets as much of the text as it has room for; bytes behind the text stay as they are. Returns the
 * number of bytes written. The report is whole if it has as many line ends as selkaum_lines tells.
 */
size_t selkaum_report(const uint8_t *input, size_t input_len,
                      uint8_t *out, size_t out_len);

/* Tells how many lines the whole report of an input has: one for each record, and one for a torn place. No line has
 * more than 28 bytes, so a buffer of 28 bytes for each line has room for the report.
 */
#define SELKAUM_LONGEST_LINE 28

size_t selkaum_lines(const uint8_t *input, size_t input_len);

/* Runs a list of records, the first on the founding and each later one on the policy that the one before it left.
 * Record i is the part of `bytes` from the end before it, the first from 0, up to `ends[i]`; where that is no part of
 * the bytes, the record is empty, and so is refused as torn. Writes the code of record i to `codes[i]`, the rule that
 * it cites to `cited[i]`, and the picture of the policy after the list over the first 960 bytes of `policy`; all bytes
 * behind these stay as they are. Returns 960. If `codes_len` or `cited_len` is less than `ends_len`, or `policy_len`
 * less than 960, it judges nothing, writes nothing and returns 0.
 */
size_t selkaum_run(const uint8_t *bytes, size_t bytes_len,
                   const size_t *ends, size_t ends_len,
                   uint8_t *codes, size_t codes_len,
                   uint8_t *cited, size_t cited_len,
                   uint8_t *policy, size_t policy_len);

/* Tells why a record is refused for own gain. If the board refuses the record on the policy with 10, and it would
 * permit its sender something that he is not permitted, writes the first such permission, gear by gear and operation by
 * operation, over the first two bytes of `gain`: the gear at 0 and the operation, 0 to 7, at 1; those behind them stay
 * as they are. Returns 2. If the record is answered otherwise, or would give its sender no permission but something to
 * own, to manage or to administer, if `policy_len` is not 960, or `gain_len` is less than 2, it writes nothing and
 * returns 0.
 */
#define SELKAUM_GAIN_BYTES 2

size_t selkaum_gain(const uint8_t *policy, size_t policy_len,
                    const uint8_t *record, size_t record_len,
                    uint8_t *gain, size_t gain_len);

/* ---- Questions about a policy
 *
 * Each writes its answer over the first bytes of `out`; those behind them stay as they are. If `policy_len` is not 960,
 * or `out_len` is less than what is written, it writes nothing and returns 0.
 *
 * The sort of object `x` as it counts, in one byte: 0 empty, 1 group, 2 member, 3 gear. A stored sort that is none of
 * these counts as empty, and so does a number above 63. Returns 1.
 */
size_t selkaum_sort(const uint8_t *policy, size_t policy_len,
                    uint8_t x,
                    uint8_t *out, size_t out_len);

/* The next six answer with a set of objects in 8 bytes, the lowest first: bit n is object n, which is bit n % 8 of byte
 * n / 8. Each returns 8. With an empty object or a number above 63 in the question the set is empty, and so it is for a
 * `u` that is no member and for an operation above 7.
 */
#define SELKAUM_SET_BYTES 8

/* All that object `x` is under: itself, the groups that it is directly in, those that these are directly in, and on. */
size_t selkaum_above(const uint8_t *policy, size_t policy_len,
                     uint8_t x,
                     uint8_t *out, size_t out_len);

/* All that is under object `g`, itself too: each object that selkaum_above has `g` for. */
size_t selkaum_below(const uint8_t *policy, size_t policy_len,
                     uint8_t g,
                     uint8_t *out, size_t out_len);

/* All that member `u` owns: what is under the A of an owner's warrant that he holds. */
size_t selkaum_owned(const uint8_t *policy, size_t policy_len,
                     uint8_t u,
                     uint8_t *out, size_t out_len);

/* All that member `u` manages: what is under the A of a manager's warrant that he holds. An owner is no manager. */
size_t selkaum_managed(const uint8_t *policy, size_t policy_len,
                       uint8_t u,
                       uint8_t *out, size_t out_len);

/* All `b` such that member `u` administers the pair of `a` and `b`: he holds an administrator's warrant with `a` under
 * its A and `b` under its B.
 */
size_t selkaum_administered(const uint8_t *policy, size_t policy_len,
                            uint8_t u, uint8_t a,
                            uint8_t *out, size_t out_len);

/* All gear on which member `u` is permitted operation `k`, a number from 0 to 7: some rule has the operation, `u` is
 * under its U and the gear under its T.
 */
size_t selkaum_permitted(const uint8_t *policy, size_t policy_len,
                         uint8_t u, uint8_t k,
                         uint8_t *out, size_t out_len);

/* The lowest place of a rule by which member `u` is permitted operation `k` on gear `x`, in one byte; 255 if there is
 * none. Returns 1.
 */
size_t selkaum_permitting(const uint8_t *policy, size_t policy_len,
                          uint8_t u, uint8_t k, uint8_t x,
                          uint8_t *out, size_t out_len);

/* ---- A policy on a card
 *
 * The file of a policy is records, framed as requests are: a two-byte length of the whole record and a two-byte kind,
 * little-endian, then a byte each:
 *
 *     16 object      number, sort                         6 bytes
 *     17 membership  object, group                        6 bytes
 *     18 appointment place, kind, holder, A, B            9 bytes
 *     19 rule        place, U, T, operations              8 bytes
 *
 * They stand rising by kind, then by number or place; memberships by object, then group. Only what is in use has a
 * record. A policy is sound if every stored membership is of an object in use in a group, every appointment in use has
 * a member (user) as holder, a group A, and a group B (kind 3) or B 0 (kinds 1 and 2), every rule in use has groups U
 * and T and some operation, and every object in use has an owner. Every policy that the board comes to from the
 * founding is sound. A policy with nothing in use and no stored membership is sound too, and its file has no bytes: a
 * refusal is told by the code, and never by a length of 0.
 */
#define SELKAUM_CARD_OBJECT 16
#define SELKAUM_CARD_OBJECT_BYTES 6
#define SELKAUM_CARD_MEMBERSHIP 17
#define SELKAUM_CARD_MEMBERSHIP_BYTES 6
#define SELKAUM_CARD_WARRANT 18
#define SELKAUM_CARD_WARRANT_BYTES 9
#define SELKAUM_CARD_RULE 19
#define SELKAUM_CARD_RULE_BYTES 8
#define SELKAUM_LARGEST_CARD 25376
#define SELKAUM_CARD_ANSWER_BYTES 961

/* Writes the file of a policy over the first bytes of `card`, and the code into `code[0]`: 0 done, 13 the policy is not
 * sound, or else 14 the file has more than `card_len` bytes. With 13 and 14 nothing of `card` is written. Bytes behind
 * the file, and behind the code, stay as they are. Returns the length of the file, 0 when refused. If `policy_len` is
 * not 960, or `code_len` is 0, it writes nothing at all and returns 0. A card of SELKAUM_LARGEST_CARD bytes has room
 * for the file of every sound policy.
 */
size_t selkaum_write_card(const uint8_t *policy, size_t policy_len,
                          uint8_t *card, size_t card_len,
                          uint8_t *code, size_t code_len);

/* Reads a card on a board that has the policy `policy`, and writes the picture of the policy after it and, at 960, the
 * code over the first 961 bytes of `answer`; those behind them stay as they are. The code is 0 if the bytes are the
 * file of a sound policy, to the last byte: the policy after is then that one, with zeros in its empty places. Any
 * other bytes are damaged: the code is 13, and the policy after is the one that the board had. Returns 961. If
 * `policy_len` is not 960, or `answer_len` is less than 961, it writes nothing and returns 0.
 */
size_t selkaum_read_card(const uint8_t *policy, size_t policy_len,
                         const uint8_t *card, size_t card_len,
                         uint8_t *answer, size_t answer_len);

/* ---- Turns at one radio
 *
 * Members take turns at one piece of gear: one holds it, and up to 8 wait, first come first served. The line is a
 * record of 16 bytes, which its events alter in its place:
 *
 *     0          the gear
 *     1 ..  2    N, the ticks of a turn, the lowest byte first; 0 counts as 1, more than 600 as 600
 *     3          mark: 1 held, else free
 *     4          who holds the radio
 *     5 ..  6    the ticks left of his turn, the lowest byte first
 *     7          how many wait
 *     8 .. 15    who waits, the first in front; places past the count are not looked at
 *
 * Any 16 bytes are a line. One that says what no line can, such as a member twice, more than 8 waiters, a number above
 * 63 or ticks left that are not 1 to N, counts as an empty line with the radio free. The gear and N stay as they were
 * set at the start. An event that has an effect leaves 0 in the places past the count, and for a free radio 0 in all
 * but the gear and N; any other leaves every byte as it was.
 *
 * Each event is given with the policy as it then is. When the radio becomes free, and when one joins while it is free,
 * a call follows: the first waiter who is then permitted operation 2, to transmit, on the gear holds it for N ticks,
 * and all ahead of him are struck; if none is permitted, all are struck and the radio is free. A holder is not asked
 * again. So one with k other waiters ahead of him, the holder not counted, holds the radio, has left or was struck
 * within (k + 1) times N ticks, N as it counts.
 *
 * If `policy_len` is not 960, or `queue_len` is not 16, nothing is written, and the result is SELKAUM_NO_QUEUE.
 */
#define SELKAUM_QUEUE_BYTES 16
#define SELKAUM_QUEUE_GEAR 0
#define SELKAUM_QUEUE_TURN 1
#define SELKAUM_QUEUE_HELD 3
#define SELKAUM_QUEUE_HOLDER 4
#define SELKAUM_QUEUE_LEFT 5
#define SELKAUM_QUEUE_COUNT 7
#define SELKAUM_QUEUE_WAITERS 8
#define SELKAUM_MOST_WAITERS 8
#define SELKAUM_LONGEST_TURN 600
#define SELKAUM_HELD 1 /* the mark of a radio that is held */
#define SELKAUM_NO_QUEUE 255

/* Writes the empty line at `gear`, with `n` for N as it is given, over `queue`. Returns 0. */
uint8_t selkaum_queue_start(uint8_t gear, uint16_t n,
                            uint8_t *queue, size_t queue_len);

/* Member `user` asks for the radio. Returns 0 if he goes to the end of the line, or holds the radio because it was
 * free; else the code of the refusal, which leaves every byte as it was: 4, 5, 6, 7 or 9 as a USE of operation 2 on the
 * gear by him is refused; then 15 if he waits or holds already; then 16 if the radio is held and 8 wait.
 */
uint8_t selkaum_queue_join(const uint8_t *policy, size_t policy_len,
                           uint8_t *queue, size_t queue_len,
                           uint8_t user);

/* Member `user` leaves: a waiter goes and the others keep their order; the holder frees the radio, and a call follows.
 * If he is not there, every byte stays as it was. Returns 0.
 */
uint8_t selkaum_queue_leave(const uint8_t *policy, size_t policy_len,
                            uint8_t *queue, size_t queue_len,
                            uint8_t user);

/* A second goes by: with the N-th tick after it began a turn ends, and a call follows. While the radio is free, every
 * byte stays as it was. Returns 0.
 */
uint8_t selkaum_queue_tick(const uint8_t *policy, size_t policy_len,
                           uint8_t *queue, size_t queue_len);

#ifdef __cplusplus
}
#endif

#endif
