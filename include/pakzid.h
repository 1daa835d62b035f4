/*
 * pakzid.h - the C interface of the Pakzid object heap.
 *
 * A heap is a set of buffers that the engine owns, and a control record that it
 * keeps. The library has no state of its own, allocates nothing and calls
 * nothing back: each call is lent what it needs, and is done with it when it
 * returns. docs/HEAP.md has every rule in full.
 *
 * Objects are numbered from 1 to n, and n is at most 4,095. An object has a
 * width from 0 to 8: that many slots, each holding one word. Roots are indexed
 * from 0 to r - 1, and r is at most 64.
 *
 * Words
 *
 *   0                          nil
 *   1 to n                     a pointer: the number of an object
 *   n + 1 to 0x7FFFFFFF        illegal
 *   0x80000000 and above       an immediate: a value of the engine's own
 *
 * A root is nil or a pointer.
 *
 * Buffers
 *
 *   buffer    element    at least this long    what it is
 *   records   uint32_t   n                     record i - 1 describes object i
 *   slots     uint32_t   8 * n                 object i has 8, from 8 * (i - 1)
 *   roots     uint32_t   r                     one word for each root
 *   sinks     uint32_t   64                    the list of sinks; 0 is an empty place
 *   sink_sets uint64_t   n                     see below
 *   work      uint32_t   10 * n + 64           scratch; all 0 after acceptance
 *   map       uint64_t   n / 64 + 1            which objects were freed
 *   image     uint8_t    160 + 36 * n + 4 * r  the heap as bytes; see save
 *
 * (PAKZID_SLOTS_LENGTH, PAKZID_SINKS_LENGTH, PAKZID_WORK_LENGTH,
 * PAKZID_MAP_LENGTH and PAKZID_IMAGE_LENGTH compute these.)
 * A buffer is handed over as a pointer and its length in elements. It may be
 * longer than needed; the rest is never touched. Work and map may hold anything
 * before a call, and may be others at each call, or shared by heaps that take
 * turns.
 *
 * The engine reads these buffers as it likes, and changes them by the calls
 * alone. A heap may be copied: it is its records, slots, roots, sinks, sink sets
 * and control record, with no address inside.
 *
 * Sinks
 *
 * A sink is an object that very many others point to. At most 64 objects are
 * sinks at a time; each is in one place of the list `sinks`. Word h - 1 of
 * `sink_sets` is for the cluster with head h: bit k is set exactly if a member
 * points to the sink in place k. A sink that no root leads to is freed like any
 * other object, and its place is empty then.
 *
 * Tuning
 *
 * An analysis decides by three numbers which clusters it forms and leaves.
 * Create and load are handed them, the control record carries them, and they
 * hold for as long as the heap does. Each level may have its own:
 *
 *   number         range       usual   what it does
 *   least_members  1 to 4,095    4     a new cluster with fewer members is deleted
 *   outs_per_ten   0 to 80      25     a new cluster of s members with p pointers
 *                                      out of it (those to sinks do not count) is
 *                                      deleted if 10 * p is more than this number
 *                                      times s. 25 allows two and a half for each
 *                                      member, 0 none, 80 all that there can be
 *   lowest_limit   1 to 4,095    8     the size limit never falls below. That limit
 *                                      is the most members that a new cluster may
 *                                      have: at the first analysis a sixteenth of
 *                                      the objects in use; at each later one half
 *                                      of what it was, where write_loss exceeds
 *                                      out_loss, and else twice that
 *
 * Every choice in these ranges is legal, also one under which no cluster is ever
 * left (least_members above all that a cluster can have). No choice changes what
 * the game sees: all answers are the same, but for `scanned`, what an analysis
 * answers, and control records. It is a matter of time alone. The usual numbers:
 *
 *   pakzid_create(n, r, PAKZID_USUAL_LEAST_MEMBERS, PAKZID_USUAL_OUTS_PER_TEN,
 *                 PAKZID_USUAL_LOWEST_LIMIT, records, n, slots, ...)
 *
 * Stack
 *
 * Each call that goes through the whole heap (declare_sink, analyse, both
 * collections, save) takes up to 40,000 bytes of stack, the others less than
 * 2,000.
 *
 * Images
 *
 * An image is a heap as bytes, in chunks. A chunk is the length of its body
 * (four bytes), its kind (two bytes) and its body. Every number is
 * little-endian.
 *
 *   kind            body
 *   0x0001          version (1), n, r, last; two bytes each
 *   0x0002          each object in use, by number: number (two bytes), width and
 *                   sink (0 or 1; one byte each), its words (four bytes each)
 *   0x0003          the roots; four bytes each
 *   0x8001          the sinks, in the order of the list; two bytes each
 *   0x8000 and up   anything else; a load passes over it
 *
 * The first three stand in this order, once each. A heap with sinks has 0x8001
 * behind them, once; without it a load lists the sinks by number. Others, which
 * save does not write, may follow. Clusters, written bits, limit, losses and
 * tuning are in no image.
 *
 * What the engine must see to (nothing here can test it)
 *
 *   - Each pointer is valid for its length, aligned for its element, and not
 *     NULL, even where the length is 0.
 *   - No two buffers of one call overlap, and none overlaps a control record
 *     that is lent in place.
 *   - One thread at a time uses a heap. Different heaps are independent.
 *
 * Answers
 *
 * `refusal` is 0 if the call was accepted, and else the number of the first of
 * its tests that failed, in the order given with the call. A refused call
 * changes no buffer and no control record; its other answers are 0, and the
 * control record it gives back is the one handed in (for create and load: all 0).
 *
 *   number   meaning                                              given by
 *    1       n is not 1 to 4,095, or r is not 1 to 64             create
 *    2       a buffer is too short                                all
 *    3       width above 8                                        allocate
 *    4       no such object: its number is 0 or above n           read, show, write,
 *                                                                 declare_sink
 *    5       no such slot: the object is not that wide            read, write
 *    6       an illegal word, or an immediate for a root          write, set_root
 *    7       no such root: the index is not below r               set_root
 *   20       a field of the control record is out of range: n or  all but create, load
 *            r as for 1; last or a loss above n; a number of the
 *            tuning as for 30; the limit neither 0 nor from
 *            lowest_limit to 4,095
 *   21       damage: the record of the object is broken           read, show, write
 *   21       damage anywhere in the heap                          declare_sink, analyse,
 *                                                                 both collections, save
 *   22       the object is free                                   read, show, write,
 *                                                                 declare_sink
 *   23       the word points to an object that is free or broken  write, set_root
 *   24       no object is free                                    allocate
 *   25       write loss would pass n                              write
 *   26       a chunk ends past the image, or the image before     load
 *            its third chunk
 *   27       a chunk is out of place, or its body is wrong        load
 *   28       the kind of a chunk is below 0x8000 and unknown      load
 *   29       a new sink, and 64 are listed                        declare_sink
 *   30       least_members or lowest_limit is not 1 to 4,095, or  create, load
 *            outs_per_ten is above 80
 *
 * As long as nothing but the library stores into the buffers of a heap, and each
 * call is handed the latest control record, 20, 21 and 25 do not occur.
 */
#ifndef PAKZID_H
#define PAKZID_H

#include <stddef.h>
#include <stdint.h>

#ifdef __cplusplus
extern "C" {
#endif

#define PAKZID_SLOTS_LENGTH(objects) (8 * (objects))
#define PAKZID_SINKS_LENGTH 64
#define PAKZID_WORK_LENGTH(objects) (10 * (objects) + 64)
#define PAKZID_MAP_LENGTH(objects) ((objects) / 64 + 1)
#define PAKZID_IMAGE_LENGTH(objects, roots) (160 + 36 * (objects) + 4 * (roots))

/* The usual tuning: the numbers for a level of which nothing else is known. */
#define PAKZID_USUAL_LEAST_MEMBERS 4
#define PAKZID_USUAL_OUTS_PER_TEN 25
#define PAKZID_USUAL_LOWEST_LIMIT 8

/*
 * The control record. The engine keeps one for each heap, and replaces it by
 * the one in the answer of each call, refused or not (but not by that of a
 * refused create or load). It may read the fields; the calls alone set them. The
 * last three stay as create or load was handed them.
 */
typedef struct {
    uint32_t objects;       /* n */
    uint32_t roots;         /* r */
    uint32_t last;          /* object allocated last */
    uint32_t limit;         /* size limit; 0 until an analysis has run */
    uint32_t write_loss;    /* members of clusters dissolved by writes since the last analysis */
    uint32_t out_loss;      /* members of clusters that the last analysis deleted for out pointers */
    uint32_t least_members; /* fewest members of a cluster that is left, 1 to 4,095 */
    uint32_t outs_per_ten;  /* most pointers out of it for ten members, 0 to 80 */
    uint32_t lowest_limit;  /* the size limit is never below, 1 to 4,095 */
} pakzid_control;

/* create, write, set_root, declare_sink, load */
typedef struct {
    uint32_t refusal;
    pakzid_control control;
} pakzid_done;

typedef struct {
    uint32_t refusal;
    uint32_t object;
    pakzid_control control;
} pakzid_allocated;

typedef struct {
    uint32_t refusal;
    uint32_t word;
    pakzid_control control;
} pakzid_word;

/* show: the part slots[start .. start + length) of the lent slots */
typedef struct {
    uint32_t refusal;
    uint32_t start;
    uint32_t length;
    pakzid_control control;
} pakzid_part;

typedef struct {
    uint32_t refusal;
    uint32_t clusters; /* formed by this analysis and left */
    uint32_t members;  /* of those clusters */
    pakzid_control control;
} pakzid_analysed;

typedef struct {
    uint32_t refusal;
    uint32_t freed;   /* objects freed: the ones in the map */
    uint32_t kept;    /* objects in use afterwards */
    uint32_t scanned; /* objects whose slots were read */
    pakzid_control control;
} pakzid_collected;

typedef struct {
    uint32_t refusal;
    uint32_t length; /* of the image, in bytes */
    pakzid_control control;
} pakzid_saved;

typedef struct {
    uint32_t refusal;
    uint32_t object;
} pakzid_allocated_in_place;

/*
 * Makes an empty heap: zeroes records, slots, roots, sinks and sink sets up to
 * the lengths above, whatever they held, and gives the first control record,
 * with the three numbers of the tuning in it.
 * Tests: 1, 30, 2.
 */
pakzid_done pakzid_create(uint32_t objects, uint32_t roots,
                          uint32_t least_members, uint32_t outs_per_ten, uint32_t lowest_limit,
                          uint32_t *records, size_t records_length,
                          uint32_t *slots, size_t slots_length,
                          uint32_t *root_words, size_t root_words_length,
                          uint32_t *sinks, size_t sinks_length,
                          uint64_t *sink_sets, size_t sink_sets_length);

/*
 * Gives a free object the width, with nil in every slot, and answers its number.
 * The search begins after `last` and goes round. An object that no path of
 * pointers from a root leads to by the next collection is freed there.
 * Tests: 20, 2, 3, 24.
 */
pakzid_allocated pakzid_allocate(pakzid_control control, uint32_t width,
                                 uint32_t *records, size_t records_length,
                                 uint32_t *slots, size_t slots_length);

/*
 * Answers the word in a slot.
 * Tests: 20, 2, 4, 21, 22, 5.
 */
pakzid_word pakzid_read(pakzid_control control, uint32_t object, uint32_t slot,
                        const uint32_t *records, size_t records_length,
                        const uint32_t *slots, size_t slots_length);

/*
 * Answers where the words of an object are in the slots, and how many; the
 * length may be 0 although the call is accepted. These words are to be read
 * only: a store past the library sets no written bit and dissolves nothing, and
 * a collection may then free what is in use.
 * Tests: 20, 2, 4, 21, 22.
 */
pakzid_part pakzid_show(pakzid_control control, uint32_t object,
                        const uint32_t *records, size_t records_length,
                        const uint32_t *slots, size_t slots_length);

/*
 * Stores a word in a slot. If the word that was there pointed into the object's
 * own cluster, and none of the object's slots holds it after the write, that
 * cluster is dissolved. The set at the head of the object's cluster is made
 * exact. A write into a cluster that is dissolved, or while sinks are listed,
 * takes a pass over the records; any other takes the same short time in every
 * heap.
 * Tests: 20, 2, 4, 21, 22, 5, 6, 23, and last 25.
 */
pakzid_done pakzid_write(pakzid_control control, uint32_t object, uint32_t slot, uint32_t word,
                         uint32_t *records, size_t records_length,
                         uint32_t *slots, size_t slots_length,
                         const uint32_t *sinks, size_t sinks_length,
                         uint64_t *sink_sets, size_t sink_sets_length);

/*
 * Stores nil or a pointer in a root.
 * Tests: 20, 2, 7, 6, 23.
 */
pakzid_done pakzid_set_root(pakzid_control control, uint32_t index, uint32_t word,
                            const uint32_t *records, size_t records_length,
                            uint32_t *roots, size_t roots_length);

/*
 * Makes an object a sink, for as long as it lives: it is put into the first
 * empty place of the list, and a pointer to it does not count against a cluster.
 * Its own cluster is dissolved. A second declaration is accepted and changes
 * nothing. Goes through the whole heap; changes records, sinks and sink sets.
 * Tests: 20, 2, 4, 21, 22, 29.
 */
pakzid_done pakzid_declare_sink(pakzid_control control, uint32_t object,
                                uint32_t *records, size_t records_length,
                                const uint32_t *slots, size_t slots_length,
                                const uint32_t *roots, size_t roots_length,
                                uint32_t *sinks, size_t sinks_length,
                                uint64_t *sink_sets, size_t sink_sets_length);

/*
 * Forms clusters for later collections, out of objects that are in none and
 * were not written since the analysis before, and leaves those that the tuning
 * allows. The engine decides when; the game can't tell from any other answer
 * whether it ran, nor by which tuning, but for `scanned`. Changes records, sink
 * sets and work only.
 * Tests: 20, 2, 21.
 */
pakzid_analysed pakzid_analyse(pakzid_control control,
                               uint32_t *records, size_t records_length,
                               const uint32_t *slots, size_t slots_length,
                               const uint32_t *roots, size_t roots_length,
                               const uint32_t *sinks, size_t sinks_length,
                               uint64_t *sink_sets, size_t sink_sets_length,
                               uint32_t *work, size_t work_length);

/*
 * The two collections. Each frees the objects that can't be reached along
 * pointers from a root, and names them in the map: object i is bit i % 64 of
 * map[i / 64]. Both keep the same objects. The plain one scans all that it keeps;
 * that by clusters passes over the members of a cluster whose head it meets,
 * unless they have pointers out of it, and finds the sinks that they point to in
 * the set. The places of freed sinks are empty then. Roots stay as they are.
 * Tests of both: 20, 2, 21.
 */
pakzid_collected pakzid_collect_plain(pakzid_control control,
                                      uint32_t *records, size_t records_length,
                                      uint32_t *slots, size_t slots_length,
                                      const uint32_t *roots, size_t roots_length,
                                      uint32_t *sinks, size_t sinks_length,
                                      uint64_t *sink_sets, size_t sink_sets_length,
                                      uint32_t *work, size_t work_length,
                                      uint64_t *map, size_t map_length);

pakzid_collected pakzid_collect_clusters(pakzid_control control,
                                         uint32_t *records, size_t records_length,
                                         uint32_t *slots, size_t slots_length,
                                         const uint32_t *roots, size_t roots_length,
                                         uint32_t *sinks, size_t sinks_length,
                                         uint64_t *sink_sets, size_t sink_sets_length,
                                         uint32_t *work, size_t work_length,
                                         uint64_t *map, size_t map_length);

/*
 * Writes the heap as an image and answers the length of it, in bytes: 26, 4 for
 * each root, for each object in use 4 and 4 for each of its slots, and, if there
 * are sinks, 6 and 2 for each of them. So no image is longer than
 * PAKZID_IMAGE_LENGTH. Changes no byte past that length, and nothing of the heap.
 * Tests: 20, 2, 21, and last 2 once more, if the image does not fit.
 */
pakzid_saved pakzid_save(pakzid_control control,
                         const uint32_t *records, size_t records_length,
                         const uint32_t *slots, size_t slots_length,
                         const uint32_t *roots, size_t roots_length,
                         const uint32_t *sinks, size_t sinks_length,
                         const uint64_t *sink_sets, size_t sink_sets_length,
                         uint8_t *image, size_t image_length);

/*
 * Makes the heap of an image, with the n and r that the image names: sets
 * records, slots, roots, sinks and sink sets up to the lengths above, whatever
 * they held, and gives the control record. `image_length` is that of the image,
 * in bytes. The heap has no clusters, and its list of sinks no empty place
 * between two of them. Its tuning is what this call is handed, whatever that of
 * the saved heap was. Loaded from the image of a heap, it answers each later call
 * as that heap would have, under any tuning, but for `scanned`, what an analysis
 * answers, and control records; the bytes of a later save may have the sinks in
 * another order.
 *
 * The image may come from anywhere: all of it is tested before the first store,
 * and what is accepted is a heap without damage. The buffers may be those of a
 * heap in use: a refused load changes none of them, and that heap goes on with
 * its own control record (that of the answer is all 0).
 * Tests: 30, then at each chunk 26, 27, 28, and last 2.
 */
pakzid_done pakzid_load(uint32_t least_members, uint32_t outs_per_ten, uint32_t lowest_limit,
                        const uint8_t *image, size_t image_length,
                        uint32_t *records, size_t records_length,
                        uint32_t *slots, size_t slots_length,
                        uint32_t *roots, size_t roots_length,
                        uint32_t *sinks, size_t sinks_length,
                        uint64_t *sink_sets, size_t sink_sets_length);

/*
 * Allocate and write for a control record that is lent and changed where it is.
 * Tests, effects and refusals are those of the calls by value; a refused call
 * leaves the control record as it was.
 */

pakzid_allocated_in_place pakzid_allocate_in_place(pakzid_control *control, uint32_t width,
                                                   uint32_t *records, size_t records_length,
                                                   uint32_t *slots, size_t slots_length);

/* Answers the refusal, 0 if accepted. */
uint32_t pakzid_write_in_place(pakzid_control *control, uint32_t object, uint32_t slot, uint32_t word,
                               uint32_t *records, size_t records_length,
                               uint32_t *slots, size_t slots_length,
                               const uint32_t *sinks, size_t sinks_length,
                               uint64_t *sink_sets, size_t sink_sets_length);

#ifdef __cplusplus
}
#endif

#endif
