/*
 * frame.c - an engine's frame loop over a Pakzid heap.
 *
 * The level has three doors, each with its switch, and the player an inventory,
 * which is a list of items. All doors and switches use one sound bank, which is
 * a sink. Each frame moves the player and lets off a spark that nothing points
 * to. Every second frame ends with an analysis, every third with a collection by
 * clusters. Frame 12 ends with a save, which is loaded into other buffers; the
 * game goes on with the loaded heap. frame.expected has the output; how it
 * follows from the rules:
 *
 *   frame  2  Every object was written while the level was built: no cluster.
 *   frame  3  No cluster yet, so all that is kept is scanned. Three sparks go.
 *   frame  4  Level, doors and switches were left alone since frame 2: seven
 *             members. The player was written, and so was the item.
 *   frame  6  The list of two items gives a cluster of one (the newer item was
 *             written), too small to be left. The level's head is reached and
 *             no member has a pointer out, since one to a sink does not count;
 *             scanned are the player, two items and the bank, which the set of
 *             the cluster names.
 *   frame  8  The third door was cut off, over a pointer inside the cluster,
 *             which is dissolved; so the limit is halved. The level and the
 *             second door were written; nothing of four members remains.
 *   frame  9  All nine that are kept are scanned. Door, switch and sparks go.
 *   frame 10  A script still knows the third door: 22, the object is free.
 *             Level, two doors and two switches were left alone: five members.
 *   frame 12  Scanned are the player and the bank. The items dropped in frame
 *             11 go, with three sparks. Seven objects with fifteen words in all
 *             are saved, and a list of one sink: 26 + 4 * 2 + 4 * 7 + 4 * 15
 *             bytes and 6 + 2. The loaded heap has no limit yet, since no
 *             analysis has run on it.
 *   frame 13  Two saves that someone has changed: in one the objects are longer
 *             than the file, in the other root 0 names an object that the save
 *             does not have. Both are refused, and the heap is as it was.
 *   frame 14  Only the player and the sparks were written since the load: the
 *             cluster of five is back at the first analysis of the loaded heap.
 *   frame 15  The search for free objects went on after the saved `last`, and
 *             the sparks of three frames go.
 */
#include "pakzid.h"

#include <stdio.h>
#include <stdlib.h>
#include <string.h>

enum {
    OBJECTS = 32,
    ROOTS = 2,
    DOORS = 3,
    FRAMES = 15
};

/* Roots, and slots by what they are for. */
enum { LEVEL_ROOT, PLAYER_ROOT };
enum { DOOR_SWITCH, DOOR_SOUND, DOOR_STATE, DOOR_WIDTH };
enum { SWITCH_DOOR, SWITCH_SOUND, SWITCH_WIDTH };
enum { PLAYER_ITEMS, PLAYER_PLACE, PLAYER_WIDTH };
enum { ITEM_NEXT, ITEM_WIDTH };
enum { SPARK_FROM, SPARK_WIDTH };

/* Two sets of buffers, of which one has the heap, and scratch for analyses and
 * collections. */
typedef struct {
    uint32_t records[OBJECTS], slots[PAKZID_SLOTS_LENGTH(OBJECTS)], roots[ROOTS], sinks[PAKZID_SINKS_LENGTH];
    uint64_t sink_sets[OBJECTS];
} buffers;
static buffers first, second, *heap = &first;
static pakzid_control control;
static uint32_t work[PAKZID_WORK_LENGTH(OBJECTS)];
static uint64_t map[PAKZID_MAP_LENGTH(OBJECTS)];

/* The saved game: the bytes of a file. */
static uint8_t image[PAKZID_IMAGE_LENGTH(OBJECTS, ROOTS)];
static uint32_t image_length;
enum { OBJECTS_CHUNK = 6 + 8, SINKS_CHUNK = 6 + 2 }; /* where the objects begin, and how long the list of one sink is */

/* The tuning, which a create and each load are handed; the game would be the
 * same with any other, but for what analyses and `scanned` say. */
#define TUNING PAKZID_USUAL_LEAST_MEMBERS, PAKZID_USUAL_OUTS_PER_TEN, PAKZID_USUAL_LOWEST_LIMIT

#define LENGTH(array) (sizeof(array) / sizeof(array)[0])
#define RECORDS heap->records, LENGTH(heap->records)
#define SLOTS heap->slots, LENGTH(heap->slots)
#define ROOT_WORDS heap->roots, LENGTH(heap->roots)
#define SINKS heap->sinks, LENGTH(heap->sinks), heap->sink_sets, LENGTH(heap->sink_sets)
#define WORK work, LENGTH(work)
#define MAP map, LENGTH(map)

/* Ends the game if a call that must not fail was refused. */
static void must(const char *call, uint32_t refusal)
{
    if (refusal != 0) {
        printf("%s: refused with %u\n", call, (unsigned)refusal);
        exit(1);
    }
}

static uint32_t immediate(uint32_t value)
{
    return 0x80000000u + value;
}

static uint32_t allocate(uint32_t width)
{
    pakzid_allocated_in_place a = pakzid_allocate_in_place(&control, width, RECORDS, SLOTS);
    must("allocate", a.refusal);
    return a.object;
}

static void store(uint32_t object, uint32_t slot, uint32_t word)
{
    must("write", pakzid_write_in_place(&control, object, slot, word, RECORDS, SLOTS, SINKS));
}

static uint32_t word_in(uint32_t object, uint32_t slot)
{
    pakzid_word a = pakzid_read(control, object, slot, RECORDS, SLOTS);
    must("read", a.refusal);
    return a.word;
}

static void set_root(uint32_t index, uint32_t object)
{
    pakzid_done a = pakzid_set_root(control, index, object, RECORDS, ROOT_WORDS);
    must("set_root", a.refusal);
    control = a.control;
}

/* --- The level ----------------------------------------------------------- */

static uint32_t level, player, door[DOORS];

static void build(void)
{
    pakzid_done created = pakzid_create(OBJECTS, ROOTS, TUNING, RECORDS, SLOTS, ROOT_WORDS, SINKS);
    must("create", created.refusal);
    control = created.control;

    uint32_t sounds = allocate(0);
    level = allocate(DOORS);
    set_root(LEVEL_ROOT, level);
    for (uint32_t i = 0; i < DOORS; i++) {
        door[i] = allocate(DOOR_WIDTH);
        uint32_t button = allocate(SWITCH_WIDTH);
        store(level, i, door[i]);
        store(door[i], DOOR_SWITCH, button);
        store(door[i], DOOR_SOUND, sounds);
        store(button, SWITCH_DOOR, door[i]);
        store(button, SWITCH_SOUND, sounds);
    }
    player = allocate(PLAYER_WIDTH);
    set_root(PLAYER_ROOT, player);

    pakzid_done declared = pakzid_declare_sink(control, sounds, RECORDS, SLOTS, ROOT_WORDS, SINKS);
    must("declare_sink", declared.refusal);
    control = declared.control;
}

/* --- The game ------------------------------------------------------------ */

static void pick_up(void)
{
    uint32_t item = allocate(ITEM_WIDTH);
    store(item, ITEM_NEXT, word_in(player, PLAYER_ITEMS));
    store(player, PLAYER_ITEMS, item);
}

static void play(uint32_t frame)
{
    store(player, PLAYER_PLACE, immediate(frame));
    switch (frame) {
    case 3:
    case 5:
        pick_up();
        break;
    case 7:
        store(door[1], DOOR_STATE, immediate(1));
        break;
    case 8:
        store(level, 2, 0);
        break;
    case 10:
        printf("frame %2u: write to door %u refused with %u\n", (unsigned)frame, (unsigned)door[2],
               (unsigned)pakzid_write_in_place(&control, door[2], DOOR_STATE, immediate(1), RECORDS, SLOTS, SINKS));
        break;
    case 11:
        store(player, PLAYER_ITEMS, 0);
        break;
    }
    store(allocate(SPARK_WIDTH), SPARK_FROM, door[0]);
}

/* --- The heap's upkeep --------------------------------------------------- */

static void analyse(uint32_t frame)
{
    pakzid_analysed a = pakzid_analyse(control, RECORDS, SLOTS, ROOT_WORDS, SINKS, WORK);
    must("analyse", a.refusal);
    control = a.control;
    printf("frame %2u: analysed, clusters %u, members %u, limit %u\n", (unsigned)frame, (unsigned)a.clusters,
           (unsigned)a.members, (unsigned)control.limit);
}

static void collect(uint32_t frame)
{
    pakzid_collected a = pakzid_collect_clusters(control, RECORDS, SLOTS, ROOT_WORDS, SINKS, WORK, MAP);
    must("collect_clusters", a.refusal);
    control = a.control;
    printf("frame %2u: collected, kept %u, freed %u, scanned %u, gone:", (unsigned)frame, (unsigned)a.kept,
           (unsigned)a.freed, (unsigned)a.scanned);
    for (uint32_t object = 1; object <= OBJECTS; object++)
        if ((map[object / 64] >> object % 64 & 1) != 0)
            printf(" %u", (unsigned)object);
    putchar('\n');
}

/* --- Saved games --------------------------------------------------------- */

static void save(uint32_t frame)
{
    pakzid_saved a = pakzid_save(control, RECORDS, SLOTS, ROOT_WORDS, SINKS, image, LENGTH(image));
    must("save", a.refusal);
    image_length = a.length;
    printf("frame %2u: saved, %u bytes\n", (unsigned)frame, (unsigned)image_length);
}

/* Loads the saved game into the other buffers, whatever they hold; the game
 * goes on there. Objects keep their numbers. */
static void load(uint32_t frame)
{
    heap = &second;
    memset(heap, 0xA5, sizeof *heap);
    pakzid_done a = pakzid_load(TUNING, image, image_length, RECORDS, SLOTS, ROOT_WORDS, SINKS);
    must("load", a.refusal);
    control = a.control;
    printf("frame %2u: loaded, objects %u, roots %u, last %u, limit %u\n", (unsigned)frame, (unsigned)control.objects,
           (unsigned)control.roots, (unsigned)control.last, (unsigned)control.limit);
}

/* Loads the saved game with another number in the four bytes from `at` on, over
 * the heap in use. A refused load gives a control record of zeros, so the game
 * keeps its own. */
static void load_changed(uint32_t frame, const char *what, size_t at, uint32_t number)
{
    static uint8_t changed[sizeof image];
    memcpy(changed, image, image_length);
    for (size_t i = 0; i < 4; i++)
        changed[at + i] = (uint8_t)(number >> 8 * i);

    buffers before = *heap;
    pakzid_done a = pakzid_load(TUNING, changed, image_length, RECORDS, SLOTS, ROOT_WORDS, SINKS);
    printf("frame %2u: %s, load refused with %u, heap %s\n", (unsigned)frame, what, (unsigned)a.refusal,
           memcmp(heap, &before, sizeof before) == 0 ? "as it was" : "changed");
}

int main(void)
{
    build();
    for (uint32_t frame = 1; frame <= FRAMES; frame++) {
        play(frame);
        if (frame % 2 == 0)
            analyse(frame);
        if (frame % 3 == 0)
            collect(frame);
        if (frame == 12) {
            save(frame);
            load(frame);
        }
        if (frame == 13) {
            load_changed(frame, "length 0xFFFFFFFF", OBJECTS_CHUNK, 0xFFFFFFFF);
            load_changed(frame, "root to a free object", image_length - SINKS_CHUNK - 4 * ROOTS, door[2]);
        }
    }
    return 0;
}
