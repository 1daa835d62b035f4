/*
 * A script of a level: a door holds its switch in two slots and clears one of them in each frame. Its cluster stays, and each
 * collection skips it. Where one slot alone holds the switch, the first frame dissolves the cluster, and each collection scans it.
 */
#include "../../include/pakzid.h"

#include <stdio.h>

enum { N = 16, R = 2, FRAMES = 100, DOOR = 1, SWITCH = 3 };

static uint32_t records[N], slots[PAKZID_SLOTS_LENGTH(N)], roots[R], sinks[PAKZID_SINKS_LENGTH], work[PAKZID_WORK_LENGTH(N)];
static uint64_t sets[N], map[PAKZID_MAP_LENGTH(N)];
#define USUAL PAKZID_USUAL_LEAST_MEMBERS, PAKZID_USUAL_OUTS_PER_TEN, PAKZID_USUAL_LOWEST_LIMIT
#define RECORDS records, N
#define SLOTS slots, PAKZID_SLOTS_LENGTH(N)
#define ROOTS roots, R
#define SINKS sinks, PAKZID_SINKS_LENGTH, sets, N
#define WORK work, PAKZID_WORK_LENGTH(N)
#define MAP map, PAKZID_MAP_LENGTH(N)

static pakzid_control control;
static int failed;

static void expect(const char *what, uint32_t frame, uint32_t got, uint32_t want)
{
    if (got != want) {
        printf("frames: %s in frame %u: %u, expected %u\n", what, (unsigned)frame, (unsigned)got, (unsigned)want);
        failed = 1;
    }
}

static void store(uint32_t object, uint32_t slot, uint32_t word)
{
    expect("refusal", 0, pakzid_write_in_place(&control, object, slot, word, RECORDS, SLOTS, SINKS), 0);
}

/* Heap H of the trials, all six objects in cluster 1. The switch is in a root too, so that no frame frees it. */
static void build(void)
{
    static const uint32_t stores[][3] = {{DOOR, 0, 2}, {DOOR, 1, SWITCH}, {2, 0, 4}, {SWITCH, 0, 5}, {4, 0, 6}};
    control = pakzid_create(N, R, USUAL, RECORDS, SLOTS, ROOTS, SINKS).control;
    for (uint32_t object = 1; object <= 6; object++)
        control = pakzid_allocate(control, object == DOOR ? 3 : 1, RECORDS, SLOTS).control;
    for (size_t i = 0; i < sizeof stores / sizeof stores[0]; i++)
        store(stores[i][0], stores[i][1], stores[i][2]);
    control = pakzid_set_root(control, 0, DOOR, RECORDS, ROOTS).control;
    control = pakzid_set_root(control, 1, SWITCH, RECORDS, ROOTS).control;
    for (int i = 0; i < 2; i++)
        control = pakzid_analyse(control, RECORDS, SLOTS, ROOTS, SINKS, WORK).control;
}

/* Slot 2 of the door holds the word. What a collection of each frame scans, the cluster of the door and write loss are given. */
static void frames(uint32_t word, uint32_t scanned, uint32_t cluster, uint32_t loss)
{
    build();
    store(DOOR, 2, word);
    for (uint32_t frame = 1; frame <= FRAMES; frame++) {
        store(DOOR, 1, 0);
        pakzid_collected swept = pakzid_collect_clusters(control, RECORDS, SLOTS, ROOTS, SINKS, WORK, MAP);
        expect("refusal", frame, swept.refusal, 0);
        expect("scanned", frame, swept.scanned, scanned);
        expect("kept", frame, swept.kept, 6);
        store(DOOR, 1, SWITCH);
        expect("the door's cluster", frame, records[DOOR - 1] >> 16, cluster);
        expect("write loss", frame, control.write_loss, loss);
    }
}

int main(void)
{
    frames(SWITCH, 0, 1, 0);
    frames(0, 6, 0, 6);
    if (!failed)
        printf("frames: ok\n");
    return failed;
}
