/* Plans a net of three sinks, judges and scores the plan, deletes a sink from both
 * and judges what is left, does the same where a nanometre upward costs more than
 * one across, for a short tree and for one by weights, which do not look at need;
 * then asks for too much, hands over one wire factor for two, a pin too far from
 * the root, a sink without its weight, an alpha above 1, a sink that is not there,
 * the only sink, and texts and outputs of no bytes.
 *
 * Build and run, from the repository's root:
 *   cc -o target/example callers/c/example.c target/staticlib/librepeater_tree.a \
 *      && target/example
 */
#include "repeater_tree.h"

#include <inttypes.h>
#include <stdio.h>
#include <string.h>

#define NET_WITH(wire, need, last)                                 \
    "root=0,0\nbranch=20\nwire=" wire "\nneed=" need "\nsinks=3\n" \
    "sink=10,0,100,5\nsink=4,6,60,1\nsink=" last "\n"
#define NET(need) NET_WITH("2,2", need, "10,10,70,1")

/* What the scores go by: alpha is 1/2, beta 1/4, and slack beyond 20 as does not
 * count. */
enum { ALPHA_1024THS = 512, BETA_1024THS = 256, CAP = 20 };

/* The sink that is deleted, and what is left of NET without it. */
enum { DELETED = 2 };
#define NET_LEFT(need)                                        \
    "root=0,0\nbranch=20\nwire=2,2\nneed=" need "\nsinks=2\n" \
    "sink=10,0,100,5\nsink=10,10,70,1\n"

/* The calls that plan have one shape. */
typedef uint8_t planner(const uint8_t *, size_t, uint8_t *, size_t,
                        uint8_t *, size_t *, int64_t *, uint64_t *, size_t *);

/* A net, what is due for it, and what is due to be left of both. */
struct due {
    planner *plan;
    const char *net;
    int64_t slack;
    uint64_t wire;
    int64_t best;
    double score;
    const char *listing;
    const char *net_left, *listing_left;
};

static const struct due one_metal = {
    repeater_tree_plan, NET("0"), 0, 32, 0, -8.0,
    "slack=0\nwire=32\nsinks=3\nleaf=1,5\nleaf=2,5\nleaf=3,4\n"
    "node=4,0,4,0\nnode=5,4,4,0\n",
    NET_LEFT("0"),
    "slack=10\nwire=26\nsinks=2\nleaf=1,3\nleaf=2,3\nnode=3,0,4,0\n"};

/* The same pins, later due, where upward costs three times as much. */
static const struct due two_metals = {
    repeater_tree_plan,
    "root=0,0\nbranch=20\nwire=2,6\nneed=0\nsinks=3\n"
    "sink=10,0,100,1\nsink=4,6,110,1\nsink=10,10,150,1\n", 30, 26, 30, 3.5,
    "slack=30\nwire=26\nsinks=3\nleaf=1,5\nleaf=2,4\nleaf=3,5\n"
    "node=4,0,4,0\nnode=5,4,10,0\n",
    "root=0,0\nbranch=20\nwire=2,6\nneed=0\nsinks=2\n"
    "sink=10,0,100,1\nsink=10,10,150,1\n",
    "slack=50\nwire=20\nsinks=2\nleaf=1,3\nleaf=2,3\nnode=3,0,10,0\n"};

/* Less wire than the first plan of these pins has, and less slack; a need that
 * no tree has is not looked at. */
static const struct due short_tree = {
    repeater_tree_plan_short, NET("1"), -10, 26, 0, -11.5,
    "slack=-10\nwire=26\nsinks=3\nleaf=1,5\nleaf=2,4\nleaf=3,5\n"
    "node=4,0,4,0\nnode=5,4,10,0\n",
    NET_LEFT("1"),
    "slack=10\nwire=20\nsinks=2\nleaf=1,3\nleaf=2,3\nnode=3,0,10,0\n"};

/* The pin that switches most has one branch point above it, the others two; a
 * need that no tree has is not looked at here either. */
static const struct due weighted_tree = {
    repeater_tree_plan_weighted, NET("1"), -10, 26, 0, -11.5,
    "slack=-10\nwire=26\nsinks=3\nleaf=1,5\nleaf=2,4\nleaf=3,4\n"
    "node=4,5,4,6\nnode=5,0,4,0\n",
    NET_LEFT("1"),
    "slack=10\nwire=26\nsinks=2\nleaf=1,3\nleaf=2,3\nnode=3,0,4,0\n"};

static const uint8_t *bytes_of(const char *s) { return (const uint8_t *)s; }

static int unexpected(const char *what) {
    fprintf(stderr, "unexpected: %s\n", what);
    return 1;
}

static int plan(const struct due *due, uint8_t *out, size_t length, size_t *bytes) {
    uint8_t text;
    size_t line;
    int64_t slack;
    uint64_t wire;
    uint8_t number = due->plan(bytes_of(due->net), strlen(due->net), out, length,
                               &text, &line, &slack, &wire, bytes);
    printf("plan: number=%u slack=%" PRId64 " wire=%" PRIu64 " bytes=%zu\n",
           (unsigned)number, slack, wire, *bytes);
    if (number != REPEATER_TREE_DONE || text != 0 || line != 0)
        return unexpected("the plan is refused");
    if (slack != due->slack || wire != due->wire || *bytes != strlen(due->listing))
        return unexpected("the plan's figures");
    fwrite(out, 1, *bytes, stdout);
    if (memcmp(out, due->listing, *bytes) != 0)
        return unexpected("the plan's listing");
    return 0;
}

static int judge(const struct due *due, const uint8_t *listing, size_t length) {
    uint8_t text;
    size_t line;
    int64_t slack, best;
    uint64_t wire;
    uint8_t number = repeater_tree_judge(bytes_of(due->net), strlen(due->net),
                                         listing, length,
                                         &text, &line, &slack, &wire, &best);
    printf("judge: number=%u slack=%" PRId64 " wire=%" PRIu64 " best=%" PRId64 "\n",
           (unsigned)number, slack, wire, best);
    if (number != REPEATER_TREE_DONE || text != 0 || line != 0)
        return unexpected("the listing is refused");
    if (slack != due->slack || wire != due->wire || best != due->best)
        return unexpected("the judge's figures");
    return 0;
}

/* Ten digits behind the point show every score in full. */
static int score(const struct due *due, const uint8_t *listing, size_t length) {
    uint8_t text;
    size_t line;
    double score;
    uint8_t number = repeater_tree_score(bytes_of(due->net), strlen(due->net),
                                         listing, length,
                                         ALPHA_1024THS, BETA_1024THS, CAP,
                                         &text, &line, &score);
    printf("score: number=%u score=%.10f\n", (unsigned)number, score);
    if (number != REPEATER_TREE_DONE || text != 0 || line != 0)
        return unexpected("the score is refused");
    if (score != due->score)
        return unexpected("the score");
    return 0;
}

static int same(const uint8_t *out, size_t bytes, const char *due) {
    return bytes == strlen(due) && memcmp(out, due, bytes) == 0;
}

static int delete_pin(const struct due *due, const uint8_t *listing, size_t length) {
    static uint8_t net_left[REPEATER_TREE_NET_LENGTH];
    static uint8_t listing_left[REPEATER_TREE_LISTING_LENGTH];
    uint8_t text;
    size_t line, net_bytes, listing_bytes;
    int64_t slack, best;
    uint64_t wire;
    uint8_t number = repeater_tree_delete_pin(bytes_of(due->net), strlen(due->net),
                                              listing, length, DELETED,
                                              net_left, sizeof net_left,
                                              listing_left, sizeof listing_left,
                                              &text, &line, &net_bytes, &listing_bytes);
    printf("delete_pin: number=%u net_bytes=%zu listing_bytes=%zu\n",
           (unsigned)number, net_bytes, listing_bytes);
    if (number != REPEATER_TREE_DONE || text != 0 || line != 0)
        return unexpected("the deletion is refused");
    fwrite(net_left, 1, net_bytes, stdout);
    fwrite(listing_left, 1, listing_bytes, stdout);
    if (!same(net_left, net_bytes, due->net_left)
        || !same(listing_left, listing_bytes, due->listing_left))
        return unexpected("what is left");
    number = repeater_tree_judge(net_left, net_bytes, listing_left, listing_bytes,
                                 &text, &line, &slack, &wire, &best);
    if (number != REPEATER_TREE_DONE)
        return unexpected("what is left is refused");
    if (slack < due->slack || wire > due->wire)
        return unexpected("slack is lost, or wire grows");
    return 0;
}

static int all_calls(const struct due *due, uint8_t *out, size_t length) {
    size_t bytes = 0;
    return plan(due, out, length, &bytes)
        || judge(due, out, bytes)
        || score(due, out, bytes)
        || delete_pin(due, out, bytes);
}

struct refusal {
    uint8_t number, text;
    size_t line;
};

static int refused(const char *what, struct refusal told, struct refusal expected) {
    printf("%s: refused=%u,%u,%zu, %s\n", what, told.number, told.text, told.line,
           repeater_tree_words(told.number, told.line));
    if (told.number != expected.number || told.text != expected.text
        || told.line != expected.line)
        return unexpected("another refusal");
    return 0;
}

static int plan_refused(planner *plan, const char *what, const char *net, size_t net_length,
                        uint8_t *out, size_t length, struct refusal expected) {
    struct refusal told;
    int64_t slack;
    uint64_t wire;
    size_t bytes;
    told.number = plan(bytes_of(net), net_length, out, length,
                       &told.text, &told.line, &slack, &wire, &bytes);
    if (slack != 0 || wire != 0 || bytes != 0)
        return unexpected("figures beside a refusal");
    return refused(what, told, expected);
}

static int judge_refused(const char *what, const char *net, size_t net_length,
                         const uint8_t *listing, size_t length, struct refusal expected) {
    struct refusal told;
    int64_t slack, best;
    uint64_t wire;
    told.number = repeater_tree_judge(bytes_of(net), net_length, listing, length,
                                      &told.text, &told.line, &slack, &wire, &best);
    if (slack != 0 || wire != 0 || best != 0)
        return unexpected("figures beside a refusal");
    return refused(what, told, expected);
}

static int score_refused(const char *what, const char *net, size_t net_length,
                         const char *listing, size_t length, int64_t alpha_1024ths,
                         struct refusal expected) {
    struct refusal told;
    double score;
    const double plus_zero = 0;
    told.number = repeater_tree_score(bytes_of(net), net_length, bytes_of(listing), length,
                                      alpha_1024ths, BETA_1024THS, CAP,
                                      &told.text, &told.line, &score);
    if (memcmp(&score, &plus_zero, sizeof score) != 0)
        return unexpected("a score beside a refusal");
    return refused(what, told, expected);
}

static int delete_refused(const char *what, const char *net, size_t net_length,
                          const char *listing, size_t length, size_t sink,
                          uint8_t *net_out, size_t net_out_length,
                          uint8_t *listing_out, size_t listing_out_length,
                          struct refusal expected) {
    struct refusal told;
    size_t net_bytes, listing_bytes;
    told.number = repeater_tree_delete_pin(bytes_of(net), net_length, bytes_of(listing), length,
                                           sink, net_out, net_out_length,
                                           listing_out, listing_out_length,
                                           &told.text, &told.line, &net_bytes, &listing_bytes);
    if (net_bytes != 0 || listing_bytes != 0)
        return unexpected("lengths beside a refusal");
    return refused(what, told, expected);
}

/* Where a length is 0 the pointer may be NULL. */
static int nothing_lent(void) {
    const struct refusal no_net = {REPEATER_TREE_MALFORMED, 1, 1};
    const struct refusal no_listing = {REPEATER_TREE_MALFORMED, 2, 1};
    const struct refusal no_output = {REPEATER_TREE_SHORT_OUTPUT, 0, 0};
    const char *net = NET("0"), *listing = one_metal.listing;
    return plan_refused(repeater_tree_plan, "no net, no output", NULL, 0, NULL, 0, no_net)
        || plan_refused(repeater_tree_plan, "no output", net, strlen(net), NULL, 0, no_output)
        || plan_refused(repeater_tree_plan_short, "no net, no output", NULL, 0, NULL, 0, no_net)
        || plan_refused(repeater_tree_plan_short, "no output", net, strlen(net), NULL, 0, no_output)
        || plan_refused(repeater_tree_plan_weighted, "no net, no output", NULL, 0, NULL, 0, no_net)
        || plan_refused(repeater_tree_plan_weighted, "no output", net, strlen(net), NULL, 0, no_output)
        || judge_refused("no net, no listing", NULL, 0, NULL, 0, no_net)
        || judge_refused("no listing", net, strlen(net), NULL, 0, no_listing)
        || score_refused("no net, no listing", NULL, 0, NULL, 0, ALPHA_1024THS, no_net)
        || score_refused("no listing", net, strlen(net), NULL, 0, ALPHA_1024THS, no_listing)
        || delete_refused("no net, no listing", NULL, 0, NULL, 0, DELETED, NULL, 0, NULL, 0, no_net)
        || delete_refused("no listing", net, strlen(net), NULL, 0, DELETED, NULL, 0, NULL, 0, no_listing)
        || delete_refused("no outputs", net, strlen(net), listing, strlen(listing), DELETED,
                          NULL, 0, NULL, 0, no_output);
}

int main(void) {
    static uint8_t out[REPEATER_TREE_LISTING_LENGTH], net_out[REPEATER_TREE_NET_LENGTH];
    const struct refusal unreachable = {REPEATER_TREE_UNREACHABLE, 1, 4};
    const struct refusal one_factor = {REPEATER_TREE_MALFORMED, 1, 3};
    const struct refusal far_pin = {REPEATER_TREE_FAR_PIN, 1, 8};
    const struct refusal no_weight = {REPEATER_TREE_MALFORMED, 1, 8};
    const struct refusal not_scored = {REPEATER_TREE_NOT_SCORED, 0, 0};
    const struct refusal not_a_sink = {REPEATER_TREE_NOT_A_SINK, 0, 0};
    const struct refusal only_sink = {REPEATER_TREE_ONLY_SINK, 0, 0};
    const char *too_much = NET("1"), *one = NET_WITH("2", "0", "10,10,70,1");
    const char *far = NET_WITH("2,2", "0", "10,40000000,70,1");
    const char *bare = NET_WITH("2,2", "0", "10,10,70");
    const char *listing = one_metal.listing;
    const char *alone = "root=0,0\nbranch=20\nwire=2,2\nneed=0\nsinks=1\nsink=10,0,100,5\n";
    const char *straight = "slack=80\nwire=10\nsinks=1\nleaf=1,0\n";
    printf("version %d.%d.%d\n", REPEATER_TREE_VERSION_MAJOR,
           REPEATER_TREE_VERSION_MINOR, REPEATER_TREE_VERSION_PATCH);
    return all_calls(&one_metal, out, sizeof out)
        || all_calls(&two_metals, out, sizeof out)
        || all_calls(&short_tree, out, sizeof out)
        || all_calls(&weighted_tree, out, sizeof out)
        || plan_refused(repeater_tree_plan, "need=1", too_much, strlen(too_much), out, sizeof out, unreachable)
        || plan_refused(repeater_tree_plan, "wire=2", one, strlen(one), out, sizeof out, one_factor)
        || plan_refused(repeater_tree_plan_short, "a far pin", far, strlen(far), out, sizeof out, far_pin)
        || plan_refused(repeater_tree_plan_weighted, "no weight", bare, strlen(bare), out, sizeof out, no_weight)
        || score_refused("alpha above 1", one_metal.net, strlen(one_metal.net), listing, strlen(listing),
                         REPEATER_TREE_PARTS + 1, not_scored)
        || delete_refused("sink 4 of 3", one_metal.net, strlen(one_metal.net), listing, strlen(listing), 4,
                          net_out, sizeof net_out, out, sizeof out, not_a_sink)
        || delete_refused("the only sink", alone, strlen(alone), straight, strlen(straight), 1,
                          net_out, sizeof net_out, out, sizeof out, only_sink)
        || nothing_lent();
}
