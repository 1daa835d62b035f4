/*
 * Images as they cross: the bytes of a small heap, and the heap that a load makes of them; images cut, with chunks in
 * every order, of every kind, with hostile lengths and with sizes at their bounds, each taken or refused as it should
 * be; and the longest images, which are as long as the header says.
 */
#include "../../include/pakzid.h"

#include <stdio.h>
#include <string.h>

enum { N = 4, R = 2, THREE = 54, SAVED = 62, SINKS = PAKZID_SINKS_LENGTH, MOST_OBJECTS = 4095, MOST_ROOTS = 64 };

/* The tuning that every load is handed. */
#define TUNING 3, 40, 16

/* Object 1 points to itself and holds an immediate, and root 1 names it. Object 4 is a sink. 2 and 3 are free. */
static const uint8_t bytes[SAVED] = {
    8, 0, 0, 0, 1, 0,       /* eight bytes of kind 1 */
    1, 0, N, 0, R, 0, 4, 0, /* version, n, r, last */
    20, 0, 0, 0, 2, 0,      /* twenty bytes of kind 2 */
    1, 0, 3, 0,             /* object 1, width 3, no sink */
    1, 0, 0, 0, 0x78, 0x56, 0x34, 0x92, 0, 0, 0, 0,
    4, 0, 0, 1,             /* object 4, width 0, a sink */
    8, 0, 0, 0, 3, 0,       /* eight bytes of kind 3 */
    0, 0, 0, 0, 1, 0, 0, 0,
    2, 0, 0, 0, 1, 0x80,    /* two bytes of kind 0x8001 */
    4, 0,                   /* the sink */
};

/* Where the four chunks begin, and where the last one ends. */
static const size_t place[] = {0, 14, 40, THREE, SAVED};
enum { VERSION = 6, WIDTH_1 = 22, SINK_1 = 23, WORD_1_0 = 24, OBJECT_4 = 36, ROOT_1 = 50 };

static uint32_t records[MOST_OBJECTS], slots[PAKZID_SLOTS_LENGTH(MOST_OBJECTS)], roots[MOST_ROOTS], sinks[SINKS + 1];
static uint64_t sets[MOST_OBJECTS];
static uint8_t image[PAKZID_IMAGE_LENGTH(MOST_OBJECTS, MOST_ROOTS)];
static size_t length; /* of the image */
static int failed;

#define HEAP(n, r) records, n, slots, PAKZID_SLOTS_LENGTH(n), roots, r, sinks, SINKS, sets, n

static void expect(const char *what, size_t got, size_t want)
{
    if (got != want) {
        printf("%s: %zu, expected %zu\n", what, got, want);
        failed = 1;
    }
}

/* --- The small heap ------------------------------------------------------- */

static void dirty(void)
{
    memset(records, 0xA5, sizeof records);
    memset(slots, 0xA5, sizeof slots);
    memset(roots, 0xA5, sizeof roots);
    memset(sinks, 0xA5, sizeof sinks);
    memset(sets, 0xA5, sizeof sets);
}

/* Records, slots, roots, sinks and sets are those of the heap in the bytes, and past them as `dirty` left them. */
static void expect_heap(void)
{
    static const uint32_t words[] = {0x301, 0, 0, 0x005, 0xA5A5A5A5};
    for (uint32_t i = 0; i <= N; i++)
        expect("record", records[i], words[i]);
    for (uint32_t i = 0; i <= 8 * N; i++)
        expect("slot", slots[i], i == 0 ? 1 : i == 1 ? 0x92345678 : i < 8 * N ? 0 : 0xA5A5A5A5);
    expect("root 0", roots[0], 0);
    expect("root 1", roots[1], 1);
    expect("past the roots", roots[2], 0xA5A5A5A5);
    for (uint32_t i = 0; i <= SINKS; i++)
        expect("place", sinks[i], i == 0 ? 4 : i < SINKS ? 0 : 0xA5A5A5A5);
    for (uint32_t i = 0; i <= N; i++)
        expect("set", sets[i], i < N ? 0 : 0xA5A5A5A5A5A5A5A5);
}

static void small_heap(void)
{
    pakzid_control control = {N, R, 4, 0, 0, 0, TUNING};
    dirty();
    pakzid_done loaded = pakzid_load(TUNING, bytes, SAVED, HEAP(N, R));
    expect("load", loaded.refusal, 0);
    expect("control record", memcmp(&loaded.control, &control, sizeof control), 0);
    expect_heap();

    memset(image, 0xA5, sizeof image);
    pakzid_saved saved = pakzid_save(control, HEAP(N, R), image, SAVED + 1);
    expect("save", saved.refusal, 0);
    expect("length", saved.length, SAVED);
    expect("bytes", memcmp(image, bytes, SAVED), 0);
    expect("byte past the image", image[SAVED], 0xA5);
}

/* --- Images of the small heap, changed ------------------------------------ */

static void put(const uint8_t *from, size_t count)
{
    memcpy(image + length, from, count);
    length += count;
}

static void put_chunk(uint32_t kind, uint32_t body)
{
    const uint8_t front[] = {(uint8_t)body, 0, 0, 0, (uint8_t)kind, (uint8_t)(kind >> 8)};
    put(front, sizeof front);
    memset(image + length, 7, body);
    length += body;
}

/* The image of the small heap, unchanged. */
static void whole(void)
{
    length = 0;
    put(bytes, SAVED);
}

static void set_length(size_t chunk, uint32_t to)
{
    for (uint32_t i = 0; i < 4; i++)
        image[place[chunk] + i] = (uint8_t)(to >> 8 * i);
}

/* Loads the image, over the small heap: accepted it gives the same heap, refused it changes nothing. The next image
 * begins as the whole one. */
static void expect_load(const char *what, uint32_t refusal)
{
    static const pakzid_control zeros;
    pakzid_done a = pakzid_load(TUNING, image, length, HEAP(N, R));
    expect(what, a.refusal, refusal);
    if (a.refusal != 0)
        expect("control record of zeros", memcmp(&a.control, &zeros, sizeof zeros), 0);
    expect_heap();
    whole();
}

static void expect_with(const char *what, size_t at, uint8_t byte, uint32_t refusal)
{
    image[at] = byte;
    expect_load(what, refusal);
}

static void cuts(void)
{
    for (size_t cut = 0; cut < SAVED; cut++) {
        length = cut;
        expect_load("cut", cut == THREE ? 0 : 26);
    }
    for (size_t stray = 1; stray <= 5; stray++) {
        put(bytes, stray);
        expect_load("stray bytes", 26);
    }
}

/* All lists of at most four chunks. A digit of `list` is the kind of a chunk, 0 the end. */
static void orders(void)
{
    for (uint32_t list = 0; list < 256; list++) {
        uint32_t count = 0, right = 0; /* right: how many begin as they should */
        length = 0;
        for (uint32_t rest = list; rest % 4 != 0; rest /= 4, count++) {
            right += right == count && rest % 4 == count + 1;
            put(bytes + place[rest % 4 - 1], place[rest % 4] - place[rest % 4 - 1]);
        }
        expect_load("chunks in this order", right < count ? 27 : right < 3 ? 26 : 0);
    }
}

/* Each of the four chunks, and one after them, as each of the 65,536 kinds. Without a list of sinks the load makes one. */
static void kinds(void)
{
    for (uint32_t at = 0; at < 5; at++)
        for (uint32_t kind = 0; kind < 0x10000; kind++) {
            int known = 1 <= kind && kind <= 3, further = kind >= 0x8000;
            int fits = at < 3 ? kind == at + 1 : further && (at == 3 || kind != 0x8001);
            if (at == 4)
                put_chunk(0, 3);
            image[place[at] + 4] = (uint8_t)kind;
            image[place[at] + 5] = (uint8_t)(kind >> 8);
            expect_load("this kind in this place", fits ? 0 : known || further ? 27 : 28);
        }
}

/* Each chunk longer than what is left, whatever its kind. */
static void hostile_lengths(void)
{
    static const uint32_t too_long[] = {SAVED, 0x7FFFFFFF, 0x80000000, 0xFFFFFFF4, 0xFFFFFFFA, 0xFFFFFFFF};
    for (uint32_t at = 0; at < 5; at++)
        for (size_t i = 0; i < sizeof too_long / sizeof too_long[0]; i++)
            for (uint32_t kind = 0; kind < 256; kind++) {
                if (at == 4)
                    put_chunk(0x8000, 3);
                set_length(at, too_long[i]);
                image[place[at] + 4] = (uint8_t)kind;
                expect_load("longer than what is left", 26);
            }
}

/* The image of the small heap into buffers of these lengths. */
static uint32_t load_into(size_t of_records, size_t of_slots, size_t of_roots, size_t of_sinks, size_t of_sets)
{
    return pakzid_load(TUNING, bytes, SAVED, records, of_records, slots, of_slots, roots, of_roots, sinks, of_sinks, sets, of_sets)
        .refusal;
}

/* Of two faults the chunk decides that comes first; 2 comes after all chunks. */
static void first_faults(void)
{
    image[WIDTH_1] = 9;
    expect_with("width 9, and the next chunk cut", place[2] + 3, 0xFF, 27);
    image[WIDTH_1] = 9;
    expect_with("width 9, and the next kind unknown", place[2] + 4, 9, 27);
    image[place[1] + 4] = 9;
    expect_with("kind 9, and the next chunk cut", place[2] + 3, 0xFF, 28);
    image[place[1] + 4] = 9;
    expect_with("kind 9, and a root of no object", ROOT_1, 2, 28);
    put_chunk(7, 1);
    length--;
    expect_with("a root of no object, and the next chunk cut", ROOT_1, 2, 27);
    length = place[1];
    expect_with("version 2, and nothing after it", VERSION, 2, 27);

    expect("too few records", load_into(N - 1, 8 * N, R, SINKS, N), 2);
    expect("too few slots", load_into(N, 8 * N - 1, R, SINKS, N), 2);
    expect("too few roots", load_into(N, 8 * N, R - 1, SINKS, N), 2);
    expect("too few places", load_into(N, 8 * N, R, SINKS - 1, N), 2);
    expect("too few sets", load_into(N, 8 * N, R, SINKS, N - 1), 2);
    expect("a root of no object, and no room", (image[ROOT_1] = 2, pakzid_load(TUNING, image, SAVED, HEAP(0, 0)).refusal), 27);
    whole();
    put_chunk(0, 0);
    expect("an unknown kind at the end, and no room", pakzid_load(TUNING, image, length, HEAP(0, 0)).refusal, 28);
    expect("a stray byte at the end, and no room", pakzid_load(TUNING, image, SAVED + 1, HEAP(0, 0)).refusal, 26);
    expect_heap();
    whole();
}

static void bodies(void)
{
    expect_with("version 0x101", VERSION + 1, 1, 27);
    expect_with("object 0", OBJECT_4, 0, 27);
    expect_with("object 1 twice", OBJECT_4, 1, 27);
    expect_with("object 5 of 4", OBJECT_4, 5, 27);
    expect_with("width 4, and words for 3", WIDTH_1, 4, 27);
    expect_with("sink byte 2", SINK_1, 2, 27);
    expect_with("word to a free object", WORD_1_0, 3, 27);
    expect_with("illegal word", WORD_1_0 + 3, 0x7F, 27);
    expect_with("root to a free object", ROOT_1, 3, 27);
    expect_with("immediate as a root", ROOT_1 + 3, 0x80, 27);
}

/* The three chunks, and a list of sinks with this body. */
static void expect_list(const char *what, const uint8_t *body, uint32_t count, uint32_t refusal)
{
    length = THREE;
    put_chunk(0x8001, count);
    memcpy(image + length - count, body, count);
    expect_load(what, refusal);
}

static void lists(void)
{
    static const uint8_t four[] = {4, 0, 4, 0}, one[] = {4, 0, 1, 0}, nil[] = {0, 0}, high[] = {4, 1};
    expect_list("the sink", four, 2, 0);
    expect_list("no number", four, 0, 27);
    expect_list("half a number", four, 1, 27);
    expect_list("a number and a half", four, 3, 27);
    expect_list("the sink twice", four, 4, 27);
    expect_list("an object that is no sink", one, 4, 27);
    expect_list("no sink but that object", one + 2, 2, 27);
    expect_list("nil", nil, 2, 27);
    expect_list("a number above n", high, 2, 27);
    expect_with("a sink that is not listed", SINK_1, 1, 27);
    put(bytes + THREE, SAVED - THREE);
    expect_load("two lists", 27);
    length = THREE;
    put_chunk(0x8002, 5);
    put(bytes + THREE, SAVED - THREE);
    expect_load("another kind before the list", 0);
}

/* --- Other heaps ---------------------------------------------------------- */

/* 65 objects of width 0, of which so many are sinks, and no list: they are listed by number. */
static void crowd(uint32_t count, uint32_t refusal)
{
    static const uint8_t sizes[] = {1, 0, 65, 0, 1, 0, 65, 0};
    length = 0;
    put(bytes, VERSION);
    put(sizes, sizeof sizes);
    put_chunk(2, 0);
    image[length - 6] = 4, image[length - 5] = 1; /* 260 bytes */
    for (uint32_t object = 1; object <= 65; object++) {
        const uint8_t entry[] = {(uint8_t)object, 0, 0, object <= count};
        put(entry, sizeof entry);
    }
    put_chunk(3, 4);
    memset(image + length - 4, 0, 4);
    expect("so many sinks", pakzid_load(TUNING, image, length, HEAP(65, 1)).refusal, refusal);
    for (uint32_t k = 0; refusal == 0 && k < SINKS; k++)
        expect("listed", sinks[k], k < count ? k + 1 : 0);
}

/* Heaps without an object in use, with sizes at their bounds. */
static void sizes(void)
{
    static const struct {
        uint32_t n, r, last, refusal;
    } rows[] = {
        {1, 1, 0, 0}, {1, 1, 1, 0}, {1, 64, 0, 0}, {4095, 1, 4095, 0}, {4095, 64, 0, 0},
        {0, 1, 0, 27}, {1, 0, 0, 27}, {1, 1, 2, 27}, {1, 1, 0x100, 27}, {1, 65, 0, 27}, {4096, 1, 0, 27},
        {0xFFFF, 1, 0, 27},
    };
    for (size_t i = 0; i < sizeof rows / sizeof rows[0]; i++) {
        uint32_t n = rows[i].n, r = rows[i].r, last = rows[i].last;
        const uint8_t body[] = {1, 0, (uint8_t)n, (uint8_t)(n >> 8), (uint8_t)r, 0, (uint8_t)last,
                                (uint8_t)(last >> 8)};
        length = 0;
        put(bytes, VERSION);
        put(body, sizeof body);
        put_chunk(2, 0);
        put_chunk(3, 0);
        image[length - 6] = (uint8_t)(4 * r);
        image[length - 5] = (uint8_t)(4 * r >> 8);
        memset(image + length, 0, 4 * r);
        pakzid_done a = pakzid_load(TUNING, image, length + 4 * r, HEAP(MOST_OBJECTS, MOST_ROOTS));
        expect("sizes of a heap", a.refusal, rows[i].refusal);
        expect("n", a.control.objects, a.refusal ? 0 : n);
        expect("r", a.control.roots, a.refusal ? 0 : r);
        expect("last", a.control.last, a.refusal ? 0 : last);
    }
}

/* Every object in use and of width 8, and as many sinks as there can be. */
static void longest(uint32_t n, uint32_t r)
{
    uint32_t count = n < SINKS ? n : SINKS;
    size_t most = PAKZID_IMAGE_LENGTH(n, r) - 2 * (SINKS - count);
    pakzid_control control = pakzid_create(n, r, TUNING, HEAP(n, r)).control;
    for (uint32_t object = 1; object <= n; object++)
        control = pakzid_allocate(control, 8, records, n, slots, PAKZID_SLOTS_LENGTH(n)).control;
    for (uint32_t object = 1; object <= count; object++)
        control = pakzid_declare_sink(control, object, HEAP(n, r)).control;
    expect("one sink more", pakzid_declare_sink(control, n, HEAP(n, r)).refusal, n > SINKS ? 29 : 0);
    expect("one of them again", pakzid_declare_sink(control, 1, HEAP(n, r)).refusal, 0);
    expect("a byte too little", pakzid_save(control, HEAP(n, r), image, most - 1).refusal, 2);
    expect("longest image", pakzid_save(control, HEAP(n, r), image, most).length, most);
    dirty();
    expect("longest image loaded", pakzid_load(TUNING, image, most, HEAP(n, r)).refusal, 0);
}

int main(void)
{
    small_heap();
    whole();
    cuts();
    orders();
    kinds();
    hostile_lengths();
    first_faults();
    bodies();
    lists();
    sizes();
    crowd(1, 0);
    crowd(SINKS, 0);
    crowd(SINKS + 1, 27);
    longest(1, 1);
    longest(MOST_OBJECTS, MOST_ROOTS);
    if (!failed)
        printf("images: ok\n");
    return failed;
}
