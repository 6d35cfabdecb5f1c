/* Measures how much stack each plan, a judgement, a score and a pin's deletion
 * take: each call runs in a thread on a stack of our own, filled with one byte
 * beforehand, and the lowest byte that changed tells how far down the call went.
 * Fails where a call takes more than REPEATER_TREE_STACK.
 *
 * Build and run, from the repository's root:
 *   cc -std=c99 -pthread -o target/stack callers/c/stack.c \
 *      target/staticlib/librepeater_tree.a && target/stack
 */
#define _POSIX_C_SOURCE 200809L
#include "repeater_tree.h"

#include <pthread.h>
#include <stdio.h>
#include <stdlib.h>
#include <string.h>

#define STACK_SIZE (1 << 20)
#define FILL 0xa5

static uint8_t stack[STACK_SIZE] __attribute__((aligned(4096)));
static uint8_t net[REPEATER_TREE_NET_LENGTH];
static uint8_t listing[REPEATER_TREE_LISTING_LENGTH];
static size_t net_length, listing_length;

/* What a deletion leaves: the lengths lent before it, those written after it. */
static uint8_t net_left[REPEATER_TREE_NET_LENGTH];
static uint8_t listing_left[REPEATER_TREE_LISTING_LENGTH];
static size_t net_left_length, listing_left_length;

/* The calls that plan have one shape. */
typedef uint8_t planner(const uint8_t *, size_t, uint8_t *, size_t,
                        uint8_t *, size_t *, int64_t *, uint64_t *, size_t *);

/* What a thread does, and where the stack stood when it began. */
struct job {
    planner *planner;
    size_t out_length;
    uint8_t number;
    const uint8_t *from;
};

static void *plan(void *given) {
    struct job *job = given;
    uint8_t text;
    size_t line;
    int64_t slack;
    uint64_t wire;
    job->from = &text;
    job->number = job->planner(net, net_length, listing, job->out_length,
                               &text, &line, &slack, &wire, &listing_length);
    return NULL;
}

static void *judge(void *given) {
    struct job *job = given;
    uint8_t text;
    size_t line;
    int64_t slack, best;
    uint64_t wire;
    job->from = &text;
    job->number = repeater_tree_judge(net, net_length, listing, listing_length,
                                      &text, &line, &slack, &wire, &best);
    return NULL;
}

static void *score(void *given) {
    struct job *job = given;
    uint8_t text;
    size_t line;
    double score;
    job->from = &text;
    job->number = repeater_tree_score(net, net_length, listing, listing_length,
                                      REPEATER_TREE_PARTS, REPEATER_TREE_PARTS,
                                      REPEATER_TREE_CAP_LIMIT, &text, &line, &score);
    return NULL;
}

static void *delete_pin(void *given) {
    struct job *job = given;
    uint8_t text;
    size_t line;
    job->from = &text;
    job->number = repeater_tree_delete_pin(net, net_length, listing, listing_length, 1,
                                           net_left, net_left_length,
                                           listing_left, listing_left_length,
                                           &text, &line,
                                           &net_left_length, &listing_left_length);
    return NULL;
}

static void demand(int holds, const char *what) {
    if (!holds) {
        fprintf(stderr, "stack: %s\n", what);
        exit(1);
    }
}

/* Bytes of stack that the job took. */
static size_t used_by(void *(*run)(void *), planner *planner, size_t out_length) {
    struct job job = {planner, out_length, 99, NULL};
    pthread_attr_t attributes;
    pthread_t thread;
    size_t lowest = 0;
    memset(stack, FILL, sizeof stack);
    demand(pthread_attr_init(&attributes) == 0
               && pthread_attr_setstack(&attributes, stack, sizeof stack) == 0
               && pthread_create(&thread, &attributes, run, &job) == 0
               && pthread_join(thread, NULL) == 0,
           "no thread on a stack of our own");
    /* The only sink is not deleted; what its refusal takes counts too. */
    demand(job.number == REPEATER_TREE_DONE || job.number == REPEATER_TREE_ONLY_SINK,
           "a call is refused");
    while (stack[lowest] == FILL) lowest++;
    return (size_t)(job.from - &stack[lowest]);
}

/* Pins about the root, so that each takes part in the plan. */
static void make_net(int sinks) {
    char *at = (char *)net;
    at += sprintf(at, "root=0,0\nbranch=20\nwire=2,3\nneed=-2000000000000000\nsinks=%d\n", sinks);
    for (int k = 1; k <= sinks; k++)
        at += sprintf(at, "sink=%d,%d,%d,%d\n", k * 37 % 1000, -(k * 91 % 1000), k * 53 % 97,
                      1 + k * 71 % REPEATER_TREE_WEIGHT_LIMIT);
    net_length = (size_t)(at - (char *)net);
}

int main(void) {
    static const int sizes[] = {1, 16, 17, 64, 65, 512};
    size_t most = 0;
    puts("bytes of stack:\nsinks  plan  plan, no byte to spare  judge  score  pin deleted"
         "  no byte to spare  short tree  no byte to spare  by weights  no byte to spare");
    for (size_t i = 0; i < sizeof sizes / sizeof *sizes; i++) {
        size_t used[10];
        make_net(sizes[i]);
        net_left_length = sizeof net_left;
        listing_left_length = sizeof listing_left;
        used[0] = used_by(plan, repeater_tree_plan, sizeof listing);
        used[1] = used_by(plan, repeater_tree_plan, listing_length);
        used[2] = used_by(judge, NULL, 0);
        used[3] = used_by(score, NULL, 0);
        used[4] = used_by(delete_pin, NULL, 0);
        used[5] = used_by(delete_pin, NULL, 0);
        used[6] = used_by(plan, repeater_tree_plan_short, sizeof listing);
        used[7] = used_by(plan, repeater_tree_plan_short, listing_length);
        used[8] = used_by(plan, repeater_tree_plan_weighted, sizeof listing);
        used[9] = used_by(plan, repeater_tree_plan_weighted, listing_length);
        printf("%5d %6zu %22zu %6zu %6zu %12zu %16zu %11zu %16zu %11zu %16zu\n", sizes[i],
               used[0], used[1], used[2], used[3], used[4], used[5], used[6], used[7],
               used[8], used[9]);
        for (size_t j = 0; j < sizeof used / sizeof *used; j++)
            if (used[j] > most) most = used[j];
    }
    printf("at most %zu, REPEATER_TREE_STACK is %d\n", most, REPEATER_TREE_STACK);
    demand(most <= REPEATER_TREE_STACK, "a call takes more than REPEATER_TREE_STACK");
    return 0;
}
