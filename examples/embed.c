/* A program to start from: a small club on the proved board, in C.
 *
 *     tools/prove library
 *     cc -Wall -Wextra -pedantic -std=c99 -Iinclude examples/embed.c target/staticlib/libexport.a -o embed && ./embed
 *
 * It sends requests, asks the policy, prints the report of all requests, takes the policy to another board on a card,
 * and has turns taken at the rig. Where an answer is not the one expected it says so and returns 1.
 */
#include <stdio.h>
#include <stdlib.h>
#include <string.h>

#include "selkaum.h"

/* The objects of this club. The founding has the first two. */
enum { CLUB, FOUNDER, MANAGER, KEEPER, NOVICE, OPERATORS, RADIOS, RIG };

struct record {
    uint8_t bytes[SELKAUM_LONGEST_RECORD];
};

/* A board: the policy at hand, and all requests so far. */
struct board {
    uint8_t policy[SELKAUM_POLICY_BYTES];
    uint8_t requests[1000];
    size_t length;
};

/* Ends the program if something is not as expected. */
static void expect(int holds, const char *what)
{
    if (!holds) {
        fprintf(stderr, "embed: this is not as expected: %s\n", what);
        exit(1);
    }
}

/* The start of a record. All lengths and kinds are below 256, so their high bytes are 0. */
static struct record begin(uint8_t kind, uint8_t length, uint8_t sender)
{
    struct record r = {{0}};
    r.bytes[SELKAUM_RECORD_LENGTH] = length;
    r.bytes[SELKAUM_RECORD_KIND] = kind;
    r.bytes[SELKAUM_RECORD_SENDER] = sender;
    return r;
}

static struct record make(uint8_t sender, uint8_t place, uint8_t sort, uint8_t group)
{
    struct record r = begin(SELKAUM_MAKE, SELKAUM_MAKE_BYTES, sender);
    r.bytes[SELKAUM_MAKE_PLACE] = place;
    r.bytes[SELKAUM_MAKE_SORT] = sort;
    r.bytes[SELKAUM_MAKE_GROUP] = group;
    return r;
}

static struct record appoint(uint8_t sender, uint8_t place, uint8_t kind, uint8_t holder, uint8_t a, uint8_t b)
{
    struct record r = begin(SELKAUM_APPOINT, SELKAUM_APPOINT_BYTES, sender);
    r.bytes[SELKAUM_APPOINT_PLACE] = place;
    r.bytes[SELKAUM_APPOINT_KIND] = kind;
    r.bytes[SELKAUM_APPOINT_HOLDER] = holder;
    r.bytes[SELKAUM_APPOINT_A] = a;
    r.bytes[SELKAUM_APPOINT_B] = b;
    return r;
}

static struct record grant(uint8_t sender, uint8_t place, uint8_t users, uint8_t gear, uint8_t operations)
{
    struct record r = begin(SELKAUM_GRANT, SELKAUM_GRANT_BYTES, sender);
    r.bytes[SELKAUM_GRANT_PLACE] = place;
    r.bytes[SELKAUM_GRANT_U] = users;
    r.bytes[SELKAUM_GRANT_T] = gear;
    r.bytes[SELKAUM_GRANT_OPERATIONS] = operations;
    return r;
}

static struct record use(uint8_t sender, uint8_t gear, uint8_t operation)
{
    struct record r = begin(SELKAUM_USE, SELKAUM_USE_BYTES, sender);
    r.bytes[SELKAUM_USE_GEAR] = gear;
    r.bytes[SELKAUM_USE_OPERATION] = operation;
    return r;
}

/* Sends a request: the policy after it is the one at hand, and the answer is the one expected. */
static void request(struct board *board, struct record r, uint8_t code, uint8_t cited, const char *what)
{
    uint8_t answer[SELKAUM_ANSWER_BYTES];
    size_t length = r.bytes[SELKAUM_RECORD_LENGTH];
    size_t written = selkaum_judge(board->policy, sizeof board->policy, r.bytes, length, answer, sizeof answer);
    expect(written == sizeof answer, "an answer of selkaum_judge");
    expect(answer[SELKAUM_CODE] == code && answer[SELKAUM_CITED] == cited, what);
    memcpy(board->policy, answer, sizeof board->policy);
    expect(board->length + length <= sizeof board->requests, "room for the requests");
    memcpy(board->requests + board->length, r.bytes, length);
    board->length += length;
    printf("%s: code %d, rule %d\n", what, answer[SELKAUM_CODE], answer[SELKAUM_CITED]);
}

/* A request that is done. */
static void done(struct board *board, struct record r, const char *what)
{
    request(board, r, SELKAUM_DONE, SELKAUM_NONE, what);
}

static void found(struct board *board)
{
    board->length = 0;
    expect(selkaum_initial(board->policy, sizeof board->policy) == sizeof board->policy, "the founding");
}

/* Builds the club, and tries who may use its rig. */
static void run(struct board *board)
{
    const uint8_t operations = SELKAUM_TUNE_BIT | SELKAUM_TRANSMIT_BIT;
    done(board, make(FOUNDER, MANAGER, SELKAUM_MEMBER, CLUB), "the founder makes a manager");
    done(board, make(FOUNDER, KEEPER, SELKAUM_MEMBER, CLUB), "the founder makes a keeper");
    done(board, make(FOUNDER, OPERATORS, SELKAUM_GROUP, CLUB), "the founder makes the group of operators");
    done(board, make(FOUNDER, RADIOS, SELKAUM_GROUP, CLUB), "the founder makes the group of radios");
    done(board, make(FOUNDER, NOVICE, SELKAUM_MEMBER, OPERATORS), "the founder makes a novice among the operators");
    done(board, make(FOUNDER, RIG, SELKAUM_GEAR, RADIOS), "the founder makes a rig among the radios");
    done(board, appoint(FOUNDER, 1, SELKAUM_MANAGER, MANAGER, CLUB, 0), "the manager is appointed");
    done(board, appoint(MANAGER, 2, SELKAUM_ADMINISTRATOR, KEEPER, OPERATORS, RADIOS), "the keeper is appointed");
    done(board, grant(KEEPER, 0, OPERATORS, RADIOS, operations), "the keeper grants the radios to the operators");
    request(board, use(NOVICE, RIG, SELKAUM_TRANSMIT), SELKAUM_DONE, 0, "the novice transmits, by rule 0");
    request(board, use(KEEPER, RIG, SELKAUM_TRANSMIT), SELKAUM_NO_AUTHORITY, SELKAUM_NONE, "the keeper may not");
    request(board, appoint(FOUNDER, 3, SELKAUM_MANAGER, FOUNDER, CLUB, 0), SELKAUM_OWN_GAIN, SELKAUM_NONE,
            "the founder may not appoint himself");
}

static int has(const uint8_t *set, uint8_t x)
{
    return set[x / 8] >> x % 8 & 1;
}

/* Asks the policy: what the novice may transmit with, by which rule, and who may not. */
static void ask(const struct board *board)
{
    const uint8_t *policy = board->policy;
    uint8_t set[SELKAUM_SET_BYTES], place;
    expect(selkaum_permitted(policy, SELKAUM_POLICY_BYTES, NOVICE, SELKAUM_TRANSMIT, set, sizeof set) == sizeof set
               && has(set, RIG), "the novice is permitted to transmit with the rig");
    expect(selkaum_permitting(policy, SELKAUM_POLICY_BYTES, NOVICE, SELKAUM_TRANSMIT, RIG, &place, 1) == 1
               && place == 0, "rule 0 permits it");
    expect(selkaum_permitting(policy, SELKAUM_POLICY_BYTES, KEEPER, SELKAUM_TRANSMIT, RIG, &place, 1) == 1
               && place == SELKAUM_NONE, "no rule permits it to the keeper");
    expect(selkaum_below(policy, SELKAUM_POLICY_BYTES, CLUB, set, sizeof set) == sizeof set && has(set, RIG),
           "the rig is under the club");
    printf("asked: the novice may transmit with the rig, by rule 0\n");
}

/* Prints the report of all requests, in a buffer that has room for it. */
static void report(const struct board *board)
{
    size_t lines = selkaum_lines(board->requests, board->length), length, i, ends = 0;
    uint8_t *text = malloc(lines * SELKAUM_LONGEST_LINE + 1);
    expect(text != NULL, "memory for the report");
    length = selkaum_report(board->requests, board->length, text, lines * SELKAUM_LONGEST_LINE);
    for (i = 0; i < length; i++) {
        ends += text[i] == '\n';
    }
    expect(ends == lines, "a whole report");
    printf("the report, %zu lines:\n%.*s", lines, (int)length, (const char *)text);
    free(text);
}

/* Takes the policy to a new board on a card. */
static void carry(const struct board *board)
{
    static uint8_t card[SELKAUM_LARGEST_CARD];
    uint8_t answer[SELKAUM_CARD_ANSWER_BYTES], code;
    struct board next;
    size_t length = selkaum_write_card(board->policy, SELKAUM_POLICY_BYTES, card, sizeof card, &code, 1);
    expect(length > 0 && code == SELKAUM_DONE, "a card that is written");
    found(&next);
    expect(selkaum_read_card(next.policy, SELKAUM_POLICY_BYTES, card, length, answer, sizeof answer) == sizeof answer
               && answer[SELKAUM_CODE] == SELKAUM_DONE, "a card that is read");
    expect(memcmp(answer, board->policy, SELKAUM_POLICY_BYTES) == 0, "the same policy on the new board");
    expect(selkaum_read_card(next.policy, SELKAUM_POLICY_BYTES, card, length - 1, answer, sizeof answer) > 0
               && answer[SELKAUM_CODE] == SELKAUM_DAMAGED, "a card that lacks a byte is damaged");
    printf("a card of %zu bytes was written, and read by a new board\n", length);
}

/* Says who holds the radio of a line. */
static void tell(const uint8_t *queue, const char *what)
{
    if (queue[SELKAUM_QUEUE_HELD] == SELKAUM_HELD) {
        printf("%s: member %d holds the rig, and %d wait\n", what, queue[SELKAUM_QUEUE_HOLDER],
               queue[SELKAUM_QUEUE_COUNT]);
    } else {
        printf("%s: the rig is free\n", what);
    }
}

/* Takes turns of two ticks at the rig: the novice gets one, and gives way to a second operator. */
static void take_turns(struct board *board)
{
    uint8_t queue[SELKAUM_QUEUE_BYTES];
    const uint8_t second = RIG + 1;
    const uint8_t *policy = board->policy;
    const size_t length = sizeof board->policy;
    done(board, make(FOUNDER, second, SELKAUM_MEMBER, OPERATORS), "the founder makes a second operator");
    expect(selkaum_queue_start(RIG, 2, queue, sizeof queue) == SELKAUM_DONE, "an empty line");
    expect(selkaum_queue_join(policy, length, queue, sizeof queue, KEEPER) == SELKAUM_NO_AUTHORITY,
           "the keeper gets no turn");
    expect(selkaum_queue_join(policy, length, queue, sizeof queue, NOVICE) == SELKAUM_DONE
               && queue[SELKAUM_QUEUE_HOLDER] == NOVICE, "the novice holds the rig");
    expect(selkaum_queue_join(policy, length, queue, sizeof queue, second) == SELKAUM_DONE
               && queue[SELKAUM_QUEUE_WAITERS] == second, "the second operator waits");
    expect(selkaum_queue_join(policy, length, queue, sizeof queue, second) == SELKAUM_ALREADY_THERE,
           "he is there already");
    tell(queue, "two have joined");
    expect(selkaum_queue_tick(policy, length, queue, sizeof queue) == SELKAUM_DONE
               && queue[SELKAUM_QUEUE_HOLDER] == NOVICE && queue[SELKAUM_QUEUE_LEFT] == 1, "one tick is left");
    expect(selkaum_queue_tick(policy, length, queue, sizeof queue) == SELKAUM_DONE
               && queue[SELKAUM_QUEUE_HOLDER] == second && queue[SELKAUM_QUEUE_LEFT] == 2, "the turn of the second");
    tell(queue, "two ticks later");
    expect(selkaum_queue_leave(policy, length, queue, sizeof queue, second) == SELKAUM_DONE
               && queue[SELKAUM_QUEUE_HELD] != SELKAUM_HELD, "a rig that is free again");
    tell(queue, "he has left");
    expect(selkaum_queue_tick(policy, length, queue, sizeof queue - 1) == SELKAUM_NO_QUEUE, "15 bytes are no line");
}

int main(void)
{
    struct board board;
    found(&board);
    run(&board);
    ask(&board);
    report(&board);
    carry(&board);
    take_turns(&board);
    expect(fflush(stdout) == 0, "output that can be written");
    return 0;
}
