/*
 * The tuning. Create and load take each number up to both ends of its range and refuse it past them, in their order of tests; a heap
 * has what it was handed; and each number decides which clusters an analysis leaves, to the very member and pointer.
 */
#include "../../include/pakzid.h"

#include <stdio.h>
#include <string.h>

enum { N = 64, R = 2, SINKS = PAKZID_SINKS_LENGTH };

/* With an even R there is no byte between the buffers. */
static struct {
    uint32_t records[N], slots[PAKZID_SLOTS_LENGTH(N)], roots[R], sinks[SINKS];
    uint64_t sets[N];
} heap;
static uint32_t work[PAKZID_WORK_LENGTH(N)];
static int failed;

#define RECORDS heap.records, N
#define SLOTS heap.slots, PAKZID_SLOTS_LENGTH(N)
#define ROOTS heap.roots, R
#define LISTED heap.sinks, SINKS, heap.sets, N
#define HEAP RECORDS, SLOTS, ROOTS, LISTED
#define NO_ROOM heap.records, N - 1, SLOTS, ROOTS, LISTED

static void expect(const char *what, size_t row, size_t got, size_t want)
{
    if (got != want) {
        printf("tuning: %s in row %zu: %zu, expected %zu\n", what, row, got, want);
        failed = 1;
    }
}

/* --- Create and load ------------------------------------------------------- */

static const struct {
    uint32_t least, outs, lowest, refusal;
} ranges[] = {
    {4, 25, 8, 0},            {1, 25, 8, 0},            {4095, 25, 8, 0},         {4, 0, 8, 0},
    {4, 80, 8, 0},            {4, 25, 1, 0},            {4, 25, 4095, 0},         {1, 0, 1, 0},
    {4095, 80, 4095, 0},
    {0, 25, 8, 30},           {4096, 25, 8, 30},        {65540, 25, 8, 30},       {0xFFFFFFFF, 25, 8, 30},
    {4, 81, 8, 30},           {4, 281, 8, 30},          {4, 0xFFFFFFFF, 8, 30},   {4, 25, 0, 30},
    {4, 25, 4096, 30},        {4, 25, 65544, 30},       {4, 25, 0xFFFFFFFF, 30},  {0, 81, 0, 30},
};

/* The answer is as expected; accepted it has n, r and this tuning, and refused it has zeros and the heap is as it was. */
static void expect_done(const char *what, size_t row, pakzid_done got, uint32_t refusal)
{
    pakzid_control made = {N, R, 0, 0, 0, 0, ranges[row].least, ranges[row].outs, ranges[row].lowest}, none = {0};
    expect(what, row, got.refusal, refusal);
    expect("the control record", row, memcmp(&got.control, refusal == 0 ? &made : &none, sizeof made), 0);
    for (size_t i = 0; i < sizeof heap; i++)
        if (((const uint8_t *)&heap)[i] != (refusal == 0 ? 0 : 0xA5)) {
            expect(what, row, i, sizeof heap); /* the byte that is wrong */
            break;
        }
    memset(&heap, 0xA5, sizeof heap);
}

/* Tests in their order: 1, 30, 2. */
static void creates(size_t row)
{
    uint32_t least = ranges[row].least, outs = ranges[row].outs, lowest = ranges[row].lowest, refusal = ranges[row].refusal;
    expect_done("create", row, pakzid_create(N, R, least, outs, lowest, HEAP), refusal);
    expect_done("create, 2", row, pakzid_create(N, R, least, outs, lowest, NO_ROOM), refusal ? 30 : 2);
    expect_done("create, 1", row, pakzid_create(0, R, least, outs, lowest, HEAP), 1);
    expect_done("create, 1 and 2", row, pakzid_create(N, R + 64, least, outs, lowest, NO_ROOM), 1);
}

/* 30 comes before all that an image can be refused for, and before 2. */
static void loads(size_t row)
{
    static const uint8_t bytes[] = {8, 0, 0, 0, 1, 0, 1, 0, N, 0, R, 0, 0, 0,       /* version, n, r, last */
                                    0, 0, 0, 0, 2, 0,                               /* no object */
                                    4 * R, 0, 0, 0, 3, 0, 0, 0, 0, 0, 0, 0, 0, 0}; /* nil in both roots */
    uint8_t changed[sizeof bytes];
    uint32_t least = ranges[row].least, outs = ranges[row].outs, lowest = ranges[row].lowest, refusal = ranges[row].refusal;
    expect_done("load", row, pakzid_load(least, outs, lowest, bytes, sizeof bytes, HEAP), refusal);
    expect_done("load, 2", row, pakzid_load(least, outs, lowest, bytes, sizeof bytes, NO_ROOM), refusal ? 30 : 2);
    expect_done("load of nothing", row, pakzid_load(least, outs, lowest, bytes, 0, HEAP), refusal ? 30 : 26);
    expect_done("load, cut", row, pakzid_load(least, outs, lowest, bytes, sizeof bytes - 1, NO_ROOM), refusal ? 30 : 26);
    memcpy(changed, bytes, sizeof bytes);
    changed[6] = 2; /* the version */
    expect_done("load, 27", row, pakzid_load(least, outs, lowest, changed, sizeof changed, HEAP), refusal ? 30 : 27);
    changed[4] = 4; /* the first kind */
    expect_done("load, 28", row, pakzid_load(least, outs, lowest, changed, sizeof changed, HEAP), refusal ? 30 : 28);
}

/* --- Analyses -------------------------------------------------------------- */

/*
 * A list of so many objects, with so many pointers to one more object, a lamp, which is written before each analysis and so in no
 * cluster. The first analysis finds all objects written; the second forms the clusters that are given.
 */
static const struct {
    uint32_t least, outs, lowest, members, pointers, clusters, left, out_loss, limit;
} levels[] = {
    {4, 25, 8, 4, 10, 1, 4, 0, 16},      {4, 25, 8, 4, 11, 0, 0, 4, 16},      {4, 25, 8, 3, 0, 0, 0, 0, 16},
    {3, 25, 8, 3, 0, 1, 3, 0, 16},       {5, 25, 8, 4, 0, 0, 0, 0, 16},       {1, 25, 8, 1, 2, 1, 1, 0, 16},
    {1, 25, 8, 1, 3, 0, 0, 1, 16},       {4, 0, 8, 4, 0, 1, 4, 0, 16},        {4, 0, 8, 4, 1, 0, 0, 4, 16},
    {4, 10, 8, 4, 4, 1, 4, 0, 16},       {4, 10, 8, 4, 5, 0, 0, 4, 16},       {4, 80, 8, 4, 29, 1, 4, 0, 16},
    {1, 80, 8, 1, 8, 1, 1, 0, 16},       {1, 79, 8, 1, 8, 0, 0, 1, 16},       {4, 79, 8, 1, 8, 0, 0, 1, 16},
    {2, 80, 8, 1, 8, 0, 0, 0, 16},       {1, 25, 1, 5, 0, 3, 5, 0, 2},        {4, 25, 1, 5, 0, 0, 0, 0, 2},
    {1, 25, 2, 9, 0, 3, 9, 0, 4},        {1, 0, 2, 9, 0, 1, 1, 8, 4},         {4, 25, 8, 40, 0, 3, 40, 0, 16},
    {4095, 80, 8, 40, 0, 0, 0, 0, 16},   {4, 25, 20, 40, 0, 1, 40, 0, 40},    {4, 25, 4095, 40, 0, 1, 40, 0, 4095},
    {40, 25, 4095, 40, 0, 1, 40, 0, 4095}, {41, 25, 4095, 40, 0, 0, 0, 0, 4095},
};

static pakzid_control store(pakzid_control control, uint32_t object, uint32_t slot, uint32_t word)
{
    return pakzid_write(control, object, slot, word, RECORDS, SLOTS, LISTED).control;
}

static void analyses(size_t row)
{
    uint32_t members = levels[row].members, lamp = members + 1, placed = 0;
    pakzid_analysed last = {0};
    pakzid_control control = pakzid_create(N, R, levels[row].least, levels[row].outs, levels[row].lowest, HEAP).control;
    for (uint32_t object = 1; object <= lamp; object++)
        control = pakzid_allocate(control, object == lamp ? 1 : 8, RECORDS, SLOTS).control;
    for (uint32_t object = 1; object <= members; object++)
        control = store(control, object, 0, object < members ? object + 1 : 0);
    for (uint32_t slot = 8; slot-- > 0;) /* from the last slot on, so that the list keeps its own */
        for (uint32_t object = members; object > 0 && placed < levels[row].pointers; object--, placed++)
            control = store(control, object, slot, lamp);
    control = pakzid_set_root(control, 0, 1, RECORDS, ROOTS).control;
    for (int i = 0; i < 2; i++) {
        control = store(control, lamp, 0, 0);
        last = pakzid_analyse(control, HEAP, work, PAKZID_WORK_LENGTH(N));
        control = last.control;
    }
    expect("refusal", row, last.refusal, 0);
    expect("clusters", row, last.clusters, levels[row].clusters);
    expect("members", row, last.members, levels[row].left);
    expect("out loss", row, last.control.out_loss, levels[row].out_loss);
    expect("limit", row, last.control.limit, levels[row].limit);
}

int main(void)
{
    memset(&heap, 0xA5, sizeof heap);
    for (size_t row = 0; row < sizeof ranges / sizeof ranges[0]; row++) {
        creates(row);
        loads(row);
    }
    for (size_t row = 0; row < sizeof levels / sizeof levels[0]; row++)
        analyses(row);
    if (!failed)
        printf("tuning: ok\n");
    return failed;
}
