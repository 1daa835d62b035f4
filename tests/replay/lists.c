/*
 * lists.c - writes two call lists that are alike up to some point.
 *
 *   lists SEED LEFT RIGHT
 *
 * The same seed gives the same lists. The calls are made up while the plain heap runs them, so that most of them name objects
 * that exist; a few are to be refused. The right list then has one change, chosen by the seed (see `changes`).
 */
#include "plain.h"

#include <stdio.h>
#include <stdlib.h>
#include <string.h>

/* A change of the right list adds up to ADDED calls to a list that may be full. */
enum { MOST_CALLS = 3000, ROOM = MOST_CALLS + 64, ADDED = 20 };

typedef struct {
    const char *name;
    int numbers;
    uint32_t number[5];
} call;

typedef struct {
    call calls[ROOM + ADDED];
    int count;
} list;

static uint64_t state;
static plain_heap heap, copy; /* the heap, and what was saved last */
static bool is_saved;
static list left, right;

/* A number below `bound`. */
static uint32_t below(uint32_t bound)
{
    state = state * 6364136223846793005u + 1442695040888963407u;
    return (uint32_t)((state >> 33) % bound);
}

static bool chance(uint32_t percent)
{
    return below(100) < percent;
}

static void add(const char *name, int numbers, uint32_t a, uint32_t b, uint32_t c)
{
    if (left.count < ROOM)
        left.calls[left.count++] = (call){name, numbers, {a, b, c}};
}

/* An object in use, if a few tries find one; now and then any number, even one that no heap has. */
static uint32_t some_object(void)
{
    static const uint32_t far[] = {0, 4096, 65535, 65536, 0x7FFFFFFF, 0x80000000, 0xFFFFFFFF};
    uint32_t object = 1 + below(heap.objects);

    if (chance(1))
        return chance(50) ? heap.objects + 1 : far[below(7)];
    for (int tries = 0; heap.object[object].free && tries < 20; tries++)
        object = chance(70) && heap.last > 0 ? 1 + below(heap.last) : 1 + below(heap.objects);
    return object;
}

static uint32_t some_word(void)
{
    if (chance(15))
        return 0;
    return chance(10) ? 0x80000000 + below(1000) : some_object();
}

static void add_allocate(void)
{
    uint32_t width = chance(2) ? 9 + below(100000) : chance(70) ? 1 + below(3) : below(9);

    add("allocate", 1, width, 0, 0);
    plain_allocate(&heap, width);
}

static void add_write(uint32_t object, uint32_t word)
{
    bool exists = 1 <= object && object <= heap.objects;
    uint32_t width = exists && !heap.object[object].free ? heap.object[object].width : 0;
    uint32_t slot = chance(2) ? below(70000) : below(width + (chance(3) || width == 0));

    add("write", 3, object, slot, word);
    plain_write(&heap, object, slot, word);
}

static void add_root(uint32_t word)
{
    uint32_t index = chance(3) ? heap.roots + below(3) : below(heap.roots);

    add("root", 2, index, word, 0);
    plain_set_root(&heap, index, word);
}

static void add_collect(void)
{
    static plain_collected done;

    add(chance(70) ? "collect clusters" : "collect plain", 0, 0, 0, 0);
    plain_collect(&heap, &done);
}

/* A save or a load, now and then before anything is saved. */
static void add_save(void)
{
    if (chance(50)) {
        add("save", 0, 0, 0, 0);
        copy = heap;
        is_saved = true;
    } else if (is_saved || chance(30)) {
        add("load", 0, 0, 0, 0);
        if (is_saved)
            heap = copy;
    }
}

/* A new object that something in use points to. */
static void add_linked(void)
{
    add_allocate();
    if (chance(85))
        add_write(some_object(), heap.last);
    else
        add_root(heap.last);
}

static void add_sink(uint32_t object)
{
    add("sink", 1, object, 0, 0);
    plain_declare_sink(&heap, object);
}

/* More new sinks than a heap may have. */
static void add_many_sinks(void)
{
    for (int i = 0; i < 66; i++) {
        add_linked();
        add_sink(heap.last);
    }
}

/* The next call or two. `busy` and `analyses` are how often, out of 100, it writes, and else analyses. */
static void add_step(uint32_t busy, uint32_t analyses)
{
    uint32_t object = some_object();

    if (chance(busy)) {
        add_write(object, some_word());
    } else if (chance(analyses)) {
        add("analyse", 0, 0, 0, 0);
    } else if (chance(12)) {
        add_collect();
    } else if (chance(10)) {
        add("show", 1, object, 0, 0);
    } else if (chance(10)) {
        add("read", 2, object, below(4), 0);
    } else if (chance(8)) {
        add_root(some_word());
    } else if (chance(10)) {
        add_sink(object);
    } else if (chance(1)) {
        add_many_sinks();
    } else if (chance(10)) {
        add_save();
    } else {
        add_linked();
    }
}

/* A number from `low` to `high`: one of these two, or a small one. */
static uint32_t from_range(uint32_t low, uint32_t high, uint32_t small)
{
    return chance(20) ? high : chance(20) ? low : low + below(small);
}

/* Gives a create numbers of the analysis of its own; now and then one of them is out of its range. */
static void tune(call *made)
{
    static const uint32_t low[] = {1, 0, 1}, high[] = {4095, 80, 4095}, small[] = {6, 40, 24}, outside[] = {4096, 65536, 0xFFFFFFFF};

    made->numbers = 5;
    for (int i = 0; i < 3; i++)
        made->number[2 + i] = from_range(low[i], high[i], small[i]);
    if (chance(6)) {
        uint32_t wrong = below(3);
        made->number[2 + wrong] = chance(40) && low[wrong] == 1 ? 0 : chance(40) ? high[wrong] + 1 : outside[below(3)];
    }
}

/* The left list: a heap that is small more often than not, so that numbers are given again. */
static void make_left(void)
{
    static const uint32_t most[] = {4, 12, 40, 200, 1000, 4095};
    static const int lengths[] = {6, 30, 120, 500, MOST_CALLS};
    uint32_t objects = 1 + below(most[below(6)]), roots = 1 + below(chance(80) ? 4 : 64);
    int length = 1 + (int)below((uint32_t)lengths[below(5)]);
    uint32_t busy = below(60), analyses = below(40);

    plain_create(&heap, objects, roots);
    is_saved = false;
    if (chance(2))
        add("create", 2, chance(50) ? 0 : 4096 + below(100000), chance(50) ? roots : 65, 0);
    else
        add("create", 2, objects, roots, 0);
    if (chance(50))
        tune(&left.calls[0]);
    while (left.count < length)
        add_step(busy, analyses);
}

/* Puts a call before the one with this index. */
static void insert(int at, call made)
{
    memmove(&right.calls[at + 1], &right.calls[at], (size_t)(right.count - at) * sizeof(call));
    right.calls[at] = made;
    right.count++;
}

static void drop(int at)
{
    right.count--;
    memmove(&right.calls[at], &right.calls[at + 1], (size_t)(right.count - at) * sizeof(call));
}

/* The next call with this name after a random place, round the list; its end if there is none. */
static int find(const char *name)
{
    int from = (int)below((uint32_t)right.count);

    for (int i = 0; i < right.count; i++)
        if (strcmp(right.calls[(from + i) % right.count].name, name) == 0)
            return (from + i) % right.count;
    return right.count;
}

/* The changes of the right list. */
static const char *const changes[] = {
    "none", "write dropped", "write made a read", "word changed", "collection added", "collection dropped", "analyses added",
    "collections of the other kind", "list cut", "calls added", "sizes changed", "root changed", "sink changed", "another list", "save dropped", "load added", "load dropped",
    "analysis numbers changed",
};

/* Another last number for a call that has one. */
static void change_number(int at)
{
    call *made = &right.calls[at];

    if (at < right.count && made->numbers > 0)
        made->number[made->numbers - 1] = chance(30) ? 0 : chance(10) ? 0x80000001 : some_object();
}

/* A read in place of a write keeps the calls of both lists in step, which a dropped write does not. */
static void make_read(int at)
{
    if (at < right.count && right.calls[at].numbers == 3)
        right.calls[at] = (call){"read", 2, {right.calls[at].number[0], right.calls[at].number[1], 0}};
}

static void turn_collections(void)
{
    for (int i = 0; i < right.count; i++)
        if (strncmp(right.calls[i].name, "collect", 7) == 0)
            right.calls[i].name = chance(50) ? "collect plain" : "collect clusters";
}

static void add_analyses(void)
{
    for (int i = 0; i < 20; i++)
        insert(1 + (int)below((uint32_t)right.count), (call){"analyse", 0, {0}});
}

/* A right list that has nothing to do with the left one. */
static void make_another(void)
{
    list kept = left;

    left.count = 0;
    make_left();
    right = left;
    left = kept;
}

static void make_right(const char *change)
{
    int writes = find("write"), collections = find("collect clusters"), roots = find("root"), saves = find("save"), loads = find("load");

    if (strcmp(change, "write dropped") == 0 && writes < right.count)
        drop(writes);
    else if (strcmp(change, "write made a read") == 0)
        make_read(writes);
    else if (strcmp(change, "word changed") == 0)
        change_number(writes);
    else if (strcmp(change, "root changed") == 0)
        change_number(roots);
    else if (strcmp(change, "sink changed") == 0)
        change_number(find("sink"));
    else if (strcmp(change, "another list") == 0)
        make_another();
    else if (strcmp(change, "save dropped") == 0 && saves < right.count)
        drop(saves);
    else if (strcmp(change, "load added") == 0)
        insert(1 + (int)below((uint32_t)right.count), (call){"load", 0, {0}});
    else if (strcmp(change, "load dropped") == 0 && loads < right.count)
        drop(loads);
    else if (strcmp(change, "collection added") == 0)
        insert(collections, (call){"collect plain", 0, {0}});
    else if (strcmp(change, "collection dropped") == 0 && collections < right.count)
        drop(collections);
    else if (strcmp(change, "analyses added") == 0)
        add_analyses();
    else if (strcmp(change, "collections of the other kind") == 0)
        turn_collections();
    else if (strcmp(change, "list cut") == 0)
        right.count = writes;
    else if (strcmp(change, "calls added") == 0)
        insert(right.count, chance(50) ? (call){"allocate", 1, {2, 0, 0}} : (call){"sink", 1, {some_object(), 0, 0}});
    else if (strcmp(change, "sizes changed") == 0)
        right.calls[0].number[below(2)] += 1 + below(3);
    else if (strcmp(change, "analysis numbers changed") == 0)
        tune(&right.calls[0]);
}

/* A number in one of the forms that a list may have. */
static void print_number(FILE *file, uint32_t number)
{
    if (number == 0 && chance(50))
        fprintf(file, " nil");
    else if (number > 0xFFFF || chance(10))
        fprintf(file, chance(50) ? "\t0x%x" : " 0X%08X", (unsigned)number);
    else
        fprintf(file, chance(90) ? " %u" : "  %05u", (unsigned)number);
}

static void print_list(const list *l, const char *path)
{
    FILE *file = fopen(path, "w");

    if (file == NULL) {
        perror(path);
        exit(2);
    }
    for (int i = 0; i < l->count; i++) {
        if (chance(3))
            fprintf(file, chance(50) ? "\n  # a comment\n" : chance(50) ? "wrote build-%u\n" : "loaded b%u # last\n",
                    (unsigned)below(1000));
        fprintf(file, "%s", l->calls[i].name);
        for (int k = 0; k < l->calls[i].numbers; k++)
            print_number(file, l->calls[i].number[k]);
        fprintf(file, chance(95) ? "\n" : chance(50) ? " \t\r\n" : "# said\n");
    }
    if (fclose(file) != 0)
        exit(2);
}

int main(int count, char **arguments)
{
    if (count != 4) {
        fputs("usage: lists SEED LEFT RIGHT\n", stderr);
        return 2;
    }
    state = strtoull(arguments[1], NULL, 10);
    const char *change = changes[state % (sizeof changes / sizeof changes[0])];
    below(1);
    make_left();
    right = left;
    make_right(change);
    print_list(&left, arguments[2]);
    print_list(&right, arguments[3]);
    puts(change);
    return 0;
}
