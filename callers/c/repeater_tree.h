/* The repeater tree planner: six calls on text.
 *
 * docs/FORMAT.md has the two texts, their ranges and the rules of the three
 * plans, of the score and of a pin's deletion.
 * Positions and lengths are in nanometres (nm), times in attoseconds (as),
 * the two wire factors in as per nm, which is fs per um. A distance is
 * |dx| + |dy|. The net's line wire=h,v gives a factor for each metal direction,
 * 1 to 10,000: an edge delays by h * |dx| + v * |dy|. Wire, nearness and the
 * pin limit are plain nanometres, and the listing's line wire=L has one number.
 * The net's line sink=X,Y,a,w gives a sink's position, its required arrival and
 * its switching weight, 1 to 1,000. plan_weighted alone goes by the weights;
 * the other calls read them and do not look at them, and delete_pin hands them
 * on as they are.
 *
 * What the caller owes:
 *   - the pointer to a text or an output is valid for its length; where the
 *     length is 0 any pointer will do, NULL too;
 *   - each figure's pointer is valid and aligned for writing its type;
 *   - the outputs and the figures overlap neither each other nor the inputs
 *     (the two input texts may overlap, they are only read);
 *   - the calling thread has REPEATER_TREE_STACK bytes of stack left.
 * A call keeps nothing and allocates nothing, and calls may run in several
 * threads at once.
 */
#ifndef REPEATER_TREE_H
#define REPEATER_TREE_H

#include <float.h>
#include <stddef.h>
#include <stdint.h>

/* A score is a double, and exact as an IEEE 754 binary64. */
#if FLT_RADIX != 2 || DBL_MANT_DIG != 53 || DBL_MAX_EXP != 1024
#error "repeater_tree.h: double is not binary64"
#endif

#ifdef __cplusplus
extern "C" {
#endif

/* While MAJOR is 0, another MINOR may change the texts, the answers or the
 * calls; another PATCH changes none of them. */
#define REPEATER_TREE_VERSION_MAJOR 0
#define REPEATER_TREE_VERSION_MINOR 10
#define REPEATER_TREE_VERSION_PATCH 0

/* The longest texts that are read, in bytes. No net that a call writes is longer
 * than the first and no listing longer than the second, so an output of that
 * length is always enough. */
#define REPEATER_TREE_NET_LENGTH 32768
#define REPEATER_TREE_LISTING_LENGTH 32768

/* The farthest that a sink may stand from the root, |dx| + |dy|, in nm. */
#define REPEATER_TREE_PIN_LIMIT 40000000

/* The largest weight of a sink; the least is 1. */
#define REPEATER_TREE_WEIGHT_LIMIT 1000

/* A score's alpha and beta are given in parts, so many to 1; each is 0 to 1. */
#define REPEATER_TREE_PARTS 1024

/* The largest cap of a score, in as; the least is 0. */
#define REPEATER_TREE_CAP_LIMIT 1000000000000

/* A tree is too late for a score where its worst slack is below minus this, in
 * as. */
#define REPEATER_TREE_LATE_LIMIT 1000000000000

/* No call takes more of its thread's stack, in bytes. The caller's own frames,
 * and what the system keeps on a thread's stack, come on top. */
#define REPEATER_TREE_STACK 81920

/* The refusal's number, the result of every call. Each says with which text
 * (1 the net, 2 the listing, 0 neither) and line it comes; lines count from 1. */
enum {
    /* Nothing is refused; text and line are 0. */
    REPEATER_TREE_DONE = 0,
    /* The text is over its length. Line 0. */
    REPEATER_TREE_TOO_LONG = 1,
    /* The line due here is missing, lacks its end byte (newline, 10), or has
     * another key, shape, spelling or vertex number than is due. Plus signs,
     * leading zeros, -0, blanks and carriage returns are misspelt. */
    REPEATER_TREE_MALFORMED = 2,
    /* The line is well spelt, but a number on it is out of its range. */
    REPEATER_TREE_OUT_OF_RANGE = 3,
    /* Bytes follow the last line; the line is the one after the last. */
    REPEATER_TREE_TRAILING = 4,
    /* plan: no legal tree has the worst slack that the net's need line asks
     * for. Text 1, line 4. */
    REPEATER_TREE_UNREACHABLE = 5,
    /* plan, plan_short, plan_weighted: the output is shorter than the listing;
     * delete_pin: either output is shorter than its text. Text 0, line 0. */
    REPEATER_TREE_SHORT_OUTPUT = 6,
    /* judge, score, delete_pin: the listing's number of sinks is not the net's.
     * Text 2, line 3. */
    REPEATER_TREE_OTHER_SINKS = 7,
    /* judge, score, delete_pin: the parent named on this listing line is a
     * sink. */
    REPEATER_TREE_SINK_PARENT = 8,
    /* judge, score, delete_pin: the root has not exactly one child (line 0), or
     * the branch point on this line has not exactly two; the lowest such branch
     * point. */
    REPEATER_TREE_CHILDREN = 9,
    /* judge, score, delete_pin: the vertex on this line is not reached from the
     * root; the lowest such vertex. Some branch points form a ring. */
    REPEATER_TREE_UNREACHED = 10,
    /* judge, score, delete_pin: the slack that the listing states is not its
     * worst slack. Text 2, line 1. */
    REPEATER_TREE_WRONG_SLACK = 11,
    /* judge, score, delete_pin: the wire that the listing states is not its
     * wire. Text 2, line 2. */
    REPEATER_TREE_WRONG_WIRE = 12,
    /* The sink on this line of the net stands farther from the root than
     * REPEATER_TREE_PIN_LIMIT: the net belongs to the global planner. The
     * lowest such line; on one line 2 and 3 go before. Text 1. */
    REPEATER_TREE_FAR_PIN = 13,
    /* score: alpha_1024ths or beta_1024ths is not 0 to REPEATER_TREE_PARTS, cap
     * is not 0 to REPEATER_TREE_CAP_LIMIT, or the lesser of worst slack and cap
     * is below minus REPEATER_TREE_LATE_LIMIT, also where alpha is 0. The other
     * refusals go before. Text 0, line 0. */
    REPEATER_TREE_NOT_SCORED = 14,
    /* delete_pin: the net has no sink of this number; its sinks are 1 to n.
     * judge's refusals go before. Text 0, line 0. */
    REPEATER_TREE_NOT_A_SINK = 15,
    /* delete_pin: the net has no other sink. 15 goes before, 6 after. Text 0,
     * line 0. */
    REPEATER_TREE_ONLY_SINK = 16
};

/* Plans a tree of the largest possible worst slack for the net and writes its
 * listing to out. Sinks go in one after another, the most urgent first, each by
 * splitting the edge that keeps the worst slack largest; of several such edges
 * the one whose lower end is nearest to the sink (branch points count at the
 * root's position), then the one whose lower end has the lowest number. The
 * same net always gives the same bytes.
 *
 *   net, net_length   the net text
 *   out, out_length   where the listing goes; bytes beyond it keep their values
 *   text              the refusal's text, 0 to 1
 *   line              the refusal's line, 0 to 518
 *   slack             the plan's worst slack in as, the largest of any legal
 *                     tree: -1,000,409,000,000,000 to 1,000,000,000,000,000
 *   wire              the plan's wire in nm, 0 to 20,480,000,000
 *   bytes             the listing's length, 0 to 32,768
 *
 * Every figure is written by every call. At a refusal (1 to 6, 13) slack, wire
 * and bytes are 0 and no byte of out is changed. */
uint8_t repeater_tree_plan(const uint8_t *net, size_t net_length,
                           uint8_t *out, size_t out_length,
                           uint8_t *text, size_t *line,
                           int64_t *slack, uint64_t *wire, size_t *bytes);

/* Plans a short tree for the net and writes its listing to out: one whose wire
 * is at most that of every spanning tree of straight wires on the root and the
 * sinks. The sink nearest to the root goes first (lowest number on a tie); then
 * always the sink and the edge that add least wire, the new branch point
 * standing at the median of the edge's ends and the sink; ties go to the lowest
 * sink, then to the edge whose lower end has the lowest number. Branch points
 * stay where they were made. The net's need is read but not looked at, so 5 is
 * never told; the worst slack may be less than the best. The same net always
 * gives the same bytes.
 *
 *   net, net_length   the net text
 *   out, out_length   where the listing goes; bytes beyond it keep their values
 *   text              the refusal's text, 0 to 1
 *   line              the refusal's line, 0 to 518
 *   slack             the tree's worst slack in as,
 *                     -1,205,311,000,000,000 to 1,000,000,000,000,000
 *   wire              the tree's wire in nm, 0 to 20,480,000,000
 *   bytes             the listing's length, 0 to 32,768
 *
 * Every figure is written by every call. At a refusal (1 to 4, 6, 13) slack,
 * wire and bytes are 0 and no byte of out is changed. */
uint8_t repeater_tree_plan_short(const uint8_t *net, size_t net_length,
                                 uint8_t *out, size_t out_length,
                                 uint8_t *text, size_t *line,
                                 int64_t *slack, uint64_t *wire, size_t *bytes);

/* Plans a tree for the net by its sinks' weights and writes its listing to out:
 * one whose sum of weight * delay is at most that of every legal tree over the
 * net, at whatever integer points, a sink's delay being its required arrival
 * minus its slack. The two vertices of least total weight are joined until one
 * is left, which hangs on the root; ties go to the lowest numbers, and branch
 * points are numbered in order of joining. Then they settle as plan's do. The
 * net's need is read but not looked at, so 5 is never told; the worst slack may
 * be less than the best. The same net always gives the same bytes.
 *
 *   net, net_length   the net text
 *   out, out_length   where the listing goes; bytes beyond it keep their values
 *   text              the refusal's text, 0 to 1
 *   line              the refusal's line, 0 to 518
 *   slack             the tree's worst slack in as,
 *                     -1,000,426,000,000,000 to 1,000,000,000,000,000
 *   wire              the tree's wire in nm, 0 to 20,480,000,000
 *   bytes             the listing's length, 0 to 32,768
 *
 * Every figure is written by every call. At a refusal (1 to 4, 6, 13) slack,
 * wire and bytes are 0 and no byte of out is changed. */
uint8_t repeater_tree_plan_weighted(const uint8_t *net, size_t net_length,
                                    uint8_t *out, size_t out_length,
                                    uint8_t *text, size_t *line,
                                    int64_t *slack, uint64_t *wire, size_t *bytes);

/* Measures the tree of a listing over its net, and tells whether what the
 * listing states is true. The net's need is read but not looked at.
 *
 *   net, net_length           the net text
 *   listing, listing_length   the listing text
 *   text                      the refusal's text, 1 to 2 (0: not refused)
 *   line                      the refusal's line, 0 to 1,027
 *   slack                     the tree's worst slack in as,
 *                             -3,048,511,000,000,000 to 1,000,000,000,000,000
 *   wire                      the tree's wire in nm, 0 to 409,200,000,000
 *   best                      the largest worst slack of any legal tree over
 *                             this net (its Kraft maximum) in as,
 *                             -1,000,409,000,000,000 to 1,000,000,000,000,000
 *
 * Every figure is written by every call. At a refusal (1 to 4, 7 to 13) slack,
 * wire and best are 0. The net is refused before the listing is looked at. */
uint8_t repeater_tree_judge(const uint8_t *net, size_t net_length,
                            const uint8_t *listing, size_t listing_length,
                            uint8_t *text, size_t *line,
                            int64_t *slack, uint64_t *wire, int64_t *best);

/* Scores the tree of a listing over its net, as the router ranks trees:
 *
 *   alpha * min(worst slack, cap) - beta * wire
 *
 * with slack in as and wire in nm; the larger the better. The net and the
 * listing are read, and refused, as judge does it; best is not worked out.
 *
 * The score is exact: 1,024 times it is the whole number
 * alpha_1024ths * min(worst slack, cap) - beta_1024ths * wire, and nothing is
 * rounded. So two scores compare by <, == and > as those whole numbers do. A
 * score of zero is plus zero, and none is an infinity or a NaN.
 *
 *   net, net_length           the net text
 *   listing, listing_length   the listing text
 *   alpha_1024ths             alpha * 1,024, 0 to 1,024
 *   beta_1024ths              beta * 1,024, 0 to 1,024
 *   cap                       slack beyond it does not count, in as,
 *                             0 to 1,000,000,000,000
 *   text                      the refusal's text, 0 to 2
 *   line                      the refusal's line, 0 to 1,027
 *   score                     the score, in steps of 1/1,024,
 *                             -1,409,200,000,000 to 1,000,000,000,000
 *
 * alpha_1024ths, beta_1024ths and cap may have any value: another than these is
 * refused by 14. Every figure is written by every call. At a refusal (1 to 4,
 * 7 to 14) score is plus zero. */
uint8_t repeater_tree_score(const uint8_t *net, size_t net_length,
                            const uint8_t *listing, size_t listing_length,
                            int64_t alpha_1024ths, int64_t beta_1024ths, int64_t cap,
                            uint8_t *text, size_t *line, double *score);

/* Deletes a sink from a net and from the tree of its listing, and writes both,
 * the shorter net to net_out and the shorter listing to listing_out. The tree is
 * kept: the branch point on which the sink hung goes too, its other child takes
 * its place, hanging on that branch point's parent, and no point moves. The
 * numbers close up in their old order: the sinks above the deleted one fall by 1,
 * the branch points below the one that goes by 1, those above it by 2.
 *
 * The shorter net is the net with one less on its sinks= line and without the
 * deleted sink's line. The shorter listing states its own worst slack and wire,
 * and judge accepts it for the shorter net. No sink that remains loses slack, and
 * the wire does not grow. The net and the listing are read, and refused, as judge
 * does it; the net's need is read but not looked at, so 5 is never told. The same
 * texts and sink always give the same bytes.
 *
 *   net, net_length                   the net text
 *   listing, listing_length           the listing text
 *   sink                              the sink to delete, 1 to n
 *   net_out, net_out_length           where the shorter net goes
 *   listing_out, listing_out_length   where the shorter listing goes
 *   text                              the refusal's text, 0 to 2
 *   line                              the refusal's line, 0 to 1,027
 *   net_bytes                         the shorter net's length, 0 to 32,768
 *   listing_bytes                     the shorter listing's length, 0 to 32,768
 *
 * Bytes of an output beyond its text keep their values. sink may have any value:
 * another than 1 to n is refused by 15. Every figure is written by every call. At
 * a refusal (1 to 4, 6 to 13, 15, 16) both lengths are 0 and no byte of either
 * output is changed, also where one of them was long enough. */
uint8_t repeater_tree_delete_pin(const uint8_t *net, size_t net_length,
                                 const uint8_t *listing, size_t listing_length,
                                 size_t sink,
                                 uint8_t *net_out, size_t net_out_length,
                                 uint8_t *listing_out, size_t listing_out_length,
                                 uint8_t *text, size_t *line,
                                 size_t *net_bytes, size_t *listing_bytes);

/* The archive's functions ask for an address that is not null also where a
 * length is 0. These lend one, and the names above mean them from here on,
 * so that NULL with 0 is fine in every call and through every pointer. */
static inline uint8_t repeater_tree_plan_lent(
    const uint8_t *net, size_t net_length,
    uint8_t *out, size_t out_length,
    uint8_t *text, size_t *line,
    int64_t *slack, uint64_t *wire, size_t *bytes) {
    const uint8_t no_text = 0;
    uint8_t no_output = 0;
    return repeater_tree_plan(net_length == 0 ? &no_text : net, net_length,
                              out_length == 0 ? &no_output : out, out_length,
                              text, line, slack, wire, bytes);
}

static inline uint8_t repeater_tree_plan_short_lent(
    const uint8_t *net, size_t net_length,
    uint8_t *out, size_t out_length,
    uint8_t *text, size_t *line,
    int64_t *slack, uint64_t *wire, size_t *bytes) {
    const uint8_t no_text = 0;
    uint8_t no_output = 0;
    return repeater_tree_plan_short(net_length == 0 ? &no_text : net, net_length,
                                    out_length == 0 ? &no_output : out, out_length,
                                    text, line, slack, wire, bytes);
}

static inline uint8_t repeater_tree_plan_weighted_lent(
    const uint8_t *net, size_t net_length,
    uint8_t *out, size_t out_length,
    uint8_t *text, size_t *line,
    int64_t *slack, uint64_t *wire, size_t *bytes) {
    const uint8_t no_text = 0;
    uint8_t no_output = 0;
    return repeater_tree_plan_weighted(net_length == 0 ? &no_text : net, net_length,
                                       out_length == 0 ? &no_output : out, out_length,
                                       text, line, slack, wire, bytes);
}

static inline uint8_t repeater_tree_judge_lent(
    const uint8_t *net, size_t net_length,
    const uint8_t *listing, size_t listing_length,
    uint8_t *text, size_t *line,
    int64_t *slack, uint64_t *wire, int64_t *best) {
    const uint8_t no_text = 0;
    return repeater_tree_judge(net_length == 0 ? &no_text : net, net_length,
                               listing_length == 0 ? &no_text : listing, listing_length,
                               text, line, slack, wire, best);
}

static inline uint8_t repeater_tree_score_lent(
    const uint8_t *net, size_t net_length,
    const uint8_t *listing, size_t listing_length,
    int64_t alpha_1024ths, int64_t beta_1024ths, int64_t cap,
    uint8_t *text, size_t *line, double *score) {
    const uint8_t no_text = 0;
    return repeater_tree_score(net_length == 0 ? &no_text : net, net_length,
                               listing_length == 0 ? &no_text : listing, listing_length,
                               alpha_1024ths, beta_1024ths, cap,
                               text, line, score);
}

static inline uint8_t repeater_tree_delete_pin_lent(
    const uint8_t *net, size_t net_length,
    const uint8_t *listing, size_t listing_length,
    size_t sink,
    uint8_t *net_out, size_t net_out_length,
    uint8_t *listing_out, size_t listing_out_length,
    uint8_t *text, size_t *line,
    size_t *net_bytes, size_t *listing_bytes) {
    const uint8_t no_text = 0;
    uint8_t no_net = 0, no_listing = 0;
    return repeater_tree_delete_pin(net_length == 0 ? &no_text : net, net_length,
                                    listing_length == 0 ? &no_text : listing, listing_length,
                                    sink,
                                    net_out_length == 0 ? &no_net : net_out, net_out_length,
                                    listing_out_length == 0 ? &no_listing : listing_out,
                                    listing_out_length,
                                    text, line, net_bytes, listing_bytes);
}

/* A refusal in plain words, as the programs tell it on standard error. */
static inline const char *repeater_tree_words(uint8_t number, size_t line) {
    switch (number) {
    case REPEATER_TREE_TOO_LONG:
        return "the text is over its length";
    case REPEATER_TREE_MALFORMED:
        return "the line due here is missing, lacks its newline, or is misspelt";
    case REPEATER_TREE_OUT_OF_RANGE:
        return "a number is out of range";
    case REPEATER_TREE_TRAILING:
        return "bytes follow the last line";
    case REPEATER_TREE_UNREACHABLE:
        return "no legal tree has the needed slack";
    case REPEATER_TREE_SHORT_OUTPUT:
        return "the output is shorter than the listing";
    case REPEATER_TREE_OTHER_SINKS:
        return "the number of sinks is not the net's";
    case REPEATER_TREE_SINK_PARENT:
        return "the parent is a sink";
    case REPEATER_TREE_CHILDREN:
        return line == 0 ? "the root has not exactly one child"
                         : "this branch point has not exactly two children";
    case REPEATER_TREE_UNREACHED:
        return "this vertex is not reached from the root";
    case REPEATER_TREE_WRONG_SLACK:
        return "the stated slack is not the tree's worst slack";
    case REPEATER_TREE_WRONG_WIRE:
        return "the stated wire is not the tree's wire";
    case REPEATER_TREE_FAR_PIN:
        return "the sink is too far from the root";
    case REPEATER_TREE_NOT_SCORED:
        return "alpha, beta or the cap is out of range, or the slack too low";
    case REPEATER_TREE_NOT_A_SINK:
        return "the net has no sink of this number";
    case REPEATER_TREE_ONLY_SINK:
        return "the net has no other sink";
    default:
        return "unknown refusal";
    }
}

#define repeater_tree_plan repeater_tree_plan_lent
#define repeater_tree_plan_short repeater_tree_plan_short_lent
#define repeater_tree_plan_weighted repeater_tree_plan_weighted_lent
#define repeater_tree_judge repeater_tree_judge_lent
#define repeater_tree_score repeater_tree_score_lent
#define repeater_tree_delete_pin repeater_tree_delete_pin_lent

#ifdef __cplusplus
}
#endif

#endif
