/*
 * tuning.c - what the three numbers of the tuning do to levels of several
 * shapes, for those who choose them. Prints Markdown.
 *
 *     tuning [ROUNDS]
 *
 * A table has means over five levels of its shape, because one level alone may
 * be lucky with a tuning. Each level is built anew for each tuning and played:
 * six analyses, with writes before each. Levels and writes come from a generator
 * with fixed seeds, so they are the same under every tuning, and so must be what
 * a collection frees, keeps and leaves: that is checked. After the sixth analysis
 * a collection by clusters and a plain one are timed on the same heap, in turns,
 * and the sixth analysis on the heap before it. Each time is the least of ROUNDS
 * rounds; the heap is put back before each, outside the measured time.
 */
#define _POSIX_C_SOURCE 199309L
#include "pakzid.h"

#include <inttypes.h>
#include <stdbool.h>
#include <stdio.h>
#include <stdlib.h>
#include <string.h>
#include <time.h>

enum { N = 4095, R = 4, ANALYSES = 6, SEEDS = 5 };

typedef struct {
    pakzid_control control;
    uint32_t records[N], slots[PAKZID_SLOTS_LENGTH(N)], roots[R], sinks[PAKZID_SINKS_LENGTH];
    uint64_t sink_sets[N];
} heap;

/* The heap in use, and what it was before and after the last analysis. */
static heap at, unanalysed, analysed;
static uint32_t work[PAKZID_WORK_LENGTH(N)];
static uint64_t map[PAKZID_MAP_LENGTH(N)];

#define RECORDS at.records, N
#define SLOTS at.slots, PAKZID_SLOTS_LENGTH(N)
#define ROOTS at.roots, R
#define SINKS at.sinks, PAKZID_SINKS_LENGTH, at.sink_sets, N
#define HEAP RECORDS, SLOTS, ROOTS, SINKS
#define WORK work, PAKZID_WORK_LENGTH(N)
#define MAP map, PAKZID_MAP_LENGTH(N)

static uint64_t random_state;

static uint32_t below(uint32_t bound)
{
    random_state = random_state * 6364136223846793005u + 1442695040888963407u;
    return (uint32_t)(random_state >> 33) % bound;
}

static double microseconds(void)
{
    struct timespec now;
    clock_gettime(CLOCK_MONOTONIC, &now);
    return 1e6 * (double)now.tv_sec + (double)now.tv_nsec / 1e3;
}

/* --- Calls that must not be refused --------------------------------------- */

static void must(const char *call, uint32_t refusal)
{
    if (refusal != 0) {
        fprintf(stderr, "tuning: %s refused with %" PRIu32 "\n", call, refusal);
        exit(1);
    }
}

static uint32_t allocate(uint32_t width)
{
    pakzid_allocated_in_place a = pakzid_allocate_in_place(&at.control, width, RECORDS, SLOTS);
    must("allocate", a.refusal);
    return a.object;
}

static void store(uint32_t object, uint32_t slot, uint32_t word)
{
    must("write", pakzid_write_in_place(&at.control, object, slot, word, RECORDS, SLOTS, SINKS));
}

static uint32_t word_in(uint32_t object, uint32_t slot)
{
    pakzid_word a = pakzid_read(at.control, object, slot, RECORDS, SLOTS);
    must("read", a.refusal);
    return a.word;
}

static void set_root(uint32_t index, uint32_t object)
{
    pakzid_done a = pakzid_set_root(at.control, index, object, RECORDS, ROOTS);
    must("set_root", a.refusal);
    at.control = a.control;
}

static void analyse(void)
{
    pakzid_analysed a = pakzid_analyse(at.control, HEAP, WORK);
    must("analyse", a.refusal);
    at.control = a.control;
}

static pakzid_collected collect(bool by_clusters)
{
    pakzid_collected a = by_clusters ? pakzid_collect_clusters(at.control, HEAP, WORK, MAP)
                                     : pakzid_collect_plain(at.control, HEAP, WORK, MAP);
    must(by_clusters ? "collect_clusters" : "collect_plain", a.refusal);
    return a;
}

/* --- Levels ---------------------------------------------------------------- */

enum { VALUE, FIRST_POINTER, ROOMS = 80, TREES = 4, TREE = 950, WEB = 3800 };

/* The objects whose words the game changes. */
static uint32_t first_object, last_object;

/* Makes a tree of so many objects, each in the next slot of one before it, and
 * answers its top; nothing was freed yet, so their numbers follow each other. Of
 * the eight slots the first has a value, and the last two stay empty here. */
static uint32_t grow(uint32_t count)
{
    uint32_t top = 0, children[N + 1] = {0};
    for (uint32_t i = 0; i < count; i++) {
        uint32_t object = allocate(8), parent;
        store(object, VALUE, 0x80000000u);
        if (i == 0) {
            top = object;
            continue;
        }
        do
            parent = top + below(i);
        while (children[parent] == 5);
        store(parent, FIRST_POINTER + children[parent]++, object);
    }
    return top;
}

/* Many small rooms: root 0 names a list with an entry for each room, and one or
 * two objects of a room have a door to another room. */
static void build_rooms(void)
{
    uint32_t entry[ROOMS], room[ROOMS], size[ROOMS];
    for (uint32_t i = 0; i < ROOMS; i++)
        entry[i] = allocate(2);
    for (uint32_t i = 0; i < ROOMS; i++) {
        size[i] = 5 + below(8);
        room[i] = grow(size[i]);
        store(entry[i], 0, room[i]);
        if (i > 0)
            store(entry[i - 1], 1, entry[i]);
    }
    for (uint32_t i = 0; i < ROOMS; i++)
        for (uint32_t doors = 1 + below(2); doors > 0; doors--)
            store(room[i] + below(size[i]), 5 + doors, room[below(ROOMS)]);
    set_root(0, entry[0]);
    first_object = room[0];
    last_object = room[ROOMS - 1] + size[ROOMS - 1] - 1;
}

/* Four big trees, one under each root. */
static void build_world(void)
{
    for (uint32_t index = 0; index < TREES; index++)
        set_root(index, grow(TREE));
    first_object = 1;
    last_object = TREES * TREE;
}

/* One tree, half of whose objects have a pointer in every slot, to any object. */
static void build_web(void)
{
    set_root(0, grow(WEB));
    first_object = 1;
    last_object = WEB;
    for (uint32_t object = 1; object <= WEB; object++)
        for (uint32_t slot = FIRST_POINTER; object % 2 == 0 && slot < 8; slot++)
            if (word_in(object, slot) == 0)
                store(object, slot, 1 + below(WEB));
}

static const struct {
    const char *name, *what;
    uint32_t objects;
    void (*build)(void);
} shapes[] = {
    {"rooms", "80 rooms of 5 to 12 objects in a list, each with one or two doors to other rooms", 1100, build_rooms},
    {"world", "four trees of 950 objects", N, build_world},
    {"web", "a tree of 3,800 objects, half of which have seven pointers each, to any object", N, build_web},
};

enum { SHAPES = sizeof shapes / sizeof shapes[0] };

/* --- The game --------------------------------------------------------------- */

static uint32_t any_object(void)
{
    return first_object + below(last_object - first_object + 1);
}

/* Clears some pointer of the level, and stores it again if it is to stay. If it
 * was one inside a cluster, that is dissolved. */
static void touch_pointer(bool stays)
{
    uint32_t object, slot, word;
    do {
        object = any_object();
        slot = FIRST_POINTER + below(8 - FIRST_POINTER);
        word = word_in(object, slot);
    } while (word == 0);
    store(object, slot, 0);
    if (stays)
        store(object, slot, word);
}

/* What happens before each analysis: some values change, which dissolves nothing,
 * three pointers are cleared and stored again, one is cut for good, and sparks
 * fly that nothing points to. */
static void play(void)
{
    for (uint32_t i = 0; i < 20; i++)
        store(any_object(), VALUE, 0x80000000u + below(1000));
    for (uint32_t i = 0; i < 4; i++)
        touch_pointer(i > 0);
    for (uint32_t i = 0; i < 8; i++)
        store(allocate(1), 0, any_object());
}

/* --- Tunings ----------------------------------------------------------------- */

enum { LEAST = PAKZID_USUAL_LEAST_MEMBERS, OUTS = PAKZID_USUAL_OUTS_PER_TEN, LOWEST = PAKZID_USUAL_LOWEST_LIMIT };

typedef struct {
    uint32_t least_members, outs_per_ten, lowest_limit;
} tuning;

/* The usual tuning, others that differ from it in one number, and two that make
 * a collection scan least: on rooms and world, and on web. */
static const tuning tunings[] = {
    {LEAST, OUTS, LOWEST}, {1, OUTS, LOWEST},    {2, OUTS, LOWEST},   {8, OUTS, LOWEST},   {32, OUTS, LOWEST},
    {LEAST, 0, LOWEST},    {LEAST, 10, LOWEST},  {LEAST, 40, LOWEST}, {LEAST, 80, LOWEST}, {LEAST, OUTS, 1},
    {LEAST, OUTS, 32},     {LEAST, OUTS, 256},   {LEAST, OUTS, 4095}, {2, OUTS, 4095},     {1, 80, 4095},
};

enum { TUNINGS = sizeof tunings / sizeof tunings[0] };

/* Sums over the levels of a shape. */
typedef struct {
    uint32_t clusters, members, limit, dissolved, kept, scanned;
    double by_clusters, plainly, analysis;
} outcome;

static void build(uint32_t shape, uint32_t seed, tuning t)
{
    random_state = seed;
    pakzid_done a = pakzid_create(shapes[shape].objects, R, t.least_members, t.outs_per_ten, t.lowest_limit, HEAP);
    must("create", a.refusal);
    at.control = a.control;
    shapes[shape].build();
}

/* Plays up to the last analysis and keeps the heap from before and after it. */
static void play_level(outcome *o)
{
    for (uint32_t i = 1; i <= ANALYSES; i++) {
        play();
        o->dissolved += at.control.write_loss;
        if (i == ANALYSES)
            unanalysed = at;
        analyse();
    }
    analysed = at;
    o->limit += at.control.limit;
    for (uint32_t object = 1; object <= at.control.objects; object++) {
        uint32_t head = at.records[object - 1] >> 16;
        o->members += head != 0;
        o->clusters += head == object;
    }
}

static double shorter(double least, double took)
{
    return took < least ? took : least;
}

static double time_analysis(void)
{
    at = unanalysed;
    double from = microseconds();
    analyse();
    return microseconds() - from;
}

static double time_collection(bool by_clusters)
{
    at = analysed;
    double from = microseconds();
    collect(by_clusters);
    return microseconds() - from;
}

static void time_calls(outcome *o, uint32_t rounds)
{
    double least[2] = {1e9, 1e9}, analysis = 1e9; /* of collections: plainly, by clusters */
    for (uint32_t round = 0; round < rounds; round++) {
        analysis = shorter(analysis, time_analysis());
        /* The two kinds change places: what a call finds in the caches depends on
         * the one before it. */
        for (uint32_t turn = 0; turn < 2; turn++) {
            uint32_t kind = (round + turn) % 2;
            least[kind] = shorter(least[kind], time_collection(kind != 0));
        }
    }
    o->plainly += least[0];
    o->by_clusters += least[1];
    o->analysis += analysis;
}

/* --- What must be the same under every tuning ------------------------------- */

static struct {
    pakzid_collected collected;
    uint64_t map[PAKZID_MAP_LENGTH(N)];
    uint32_t slots[PAKZID_SLOTS_LENGTH(N)], roots[R];
} first;

static bool same_as_first(pakzid_collected a)
{
    return a.freed == first.collected.freed && a.kept == first.collected.kept && memcmp(first.map, map, sizeof map) == 0
        && memcmp(first.slots, at.slots, sizeof at.slots) == 0 && memcmp(first.roots, at.roots, sizeof at.roots) == 0;
}

/* Collects in both ways: freed, kept, map, slots and roots must be those of a
 * plain collection under the first tuning. */
static void check(bool is_first, outcome *o)
{
    at = analysed;
    pakzid_collected plainly = collect(false);
    if (is_first) {
        first.collected = plainly;
        memcpy(first.map, map, sizeof map);
        memcpy(first.slots, at.slots, sizeof at.slots);
        memcpy(first.roots, at.roots, sizeof at.roots);
    }
    bool same = same_as_first(plainly);
    at = analysed;
    pakzid_collected by_clusters = collect(true);
    if (!same || !same_as_first(by_clusters)) {
        fprintf(stderr, "tuning: a collection differs from that under the first tuning\n");
        exit(1);
    }
    o->kept += by_clusters.kept;
    o->scanned += by_clusters.scanned;
}

/* --- The tables --------------------------------------------------------------- */

static void print_legend(void)
{
    printf("Tunings: means over %d levels of each shape, after %d analyses with writes before each. The first row is\n"
           "the usual tuning, and an empty cell its number.\n\n"
           "least, outs, lowest   least members, out pointers for ten members, lowest size limit\n"
           "limit                 the size limit in the end\n"
           "clusters, members     in the heap in the end\n"
           "dissolved             members of clusters that writes dissolved on the way; each such write is a slow one\n"
           "scanned               objects that a collection by clusters reads; a plain one reads all that it keeps\n"
           "collect               time of that collection, in microseconds, and divided by that of a plain one\n"
           "analyse               time of the last analysis, in microseconds\n\n",
           SEEDS, ANALYSES);
}

static void print_head(uint32_t shape, const outcome *o)
{
    printf("%s: %s; kept %" PRIu32 "\n\n", shapes[shape].name, shapes[shape].what, o->kept / SEEDS);
    printf("| least | outs | lowest | limit | clusters | members | dissolved | scanned | collect | / plain | analyse |\n"
           "|------:|-----:|-------:|------:|---------:|--------:|----------:|--------:|--------:|--------:|--------:|\n");
}

static void print_number(int width, uint32_t number, bool shown)
{
    if (shown)
        printf("| %*" PRIu32 " ", width, number);
    else
        printf("| %*s ", width, "");
}

static void print_row(tuning t, const outcome *o, bool is_first)
{
    print_number(5, t.least_members, is_first || t.least_members != LEAST);
    print_number(4, t.outs_per_ten, is_first || t.outs_per_ten != OUTS);
    print_number(6, t.lowest_limit, is_first || t.lowest_limit != LOWEST);
    printf("| %5" PRIu32 " | %8" PRIu32 " | %7" PRIu32 " | %9" PRIu32 " | %7" PRIu32 " | %7.1f | %7.2f | %7.1f |\n",
           o->limit / SEEDS, o->clusters / SEEDS, o->members / SEEDS, o->dissolved / SEEDS, o->scanned / SEEDS,
           o->by_clusters / SEEDS, o->by_clusters / o->plainly, o->analysis / SEEDS);
}

int main(int argc, char **argv)
{
    uint32_t rounds = argc > 1 ? (uint32_t)strtoul(argv[1], NULL, 0) : 300;
    print_legend();
    for (uint32_t shape = 0; shape < SHAPES; shape++) {
        outcome outcomes[TUNINGS] = {0};
        for (uint32_t seed = 1; seed <= SEEDS; seed++)
            for (uint32_t i = 0; i < TUNINGS; i++) {
                build(shape, seed, tunings[i]);
                play_level(&outcomes[i]);
                check(i == 0, &outcomes[i]);
                time_calls(&outcomes[i], rounds);
            }
        print_head(shape, &outcomes[0]);
        for (uint32_t i = 0; i < TUNINGS; i++)
            print_row(tunings[i], &outcomes[i], i == 0);
        putchar('\n');
    }
    return 0;
}
