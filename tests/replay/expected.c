/*
 * expected.c - the report that the program replay should print, made by other means.
 *
 *   expected LIST [LIST]
 *
 * The calls are run by the C reference (tests/reference). The left column of a single list, which is the plain way, is run
 * by the plain heap, which has no clusters at all, and has no image either: a save keeps a copy of it, and a load takes the
 * copy. README.md and docs/DECISIONS.md, "The replay", have the rules.
 */
#include "plain.h"
#include "reference.h"

#include <stdarg.h>
#include <stdio.h>
#include <stdlib.h>
#include <string.h>

enum { MOST_OBJECTS = 4095, MOST_ROOTS = 64, MOST_WORDS = 8, MAP = MOST_OBJECTS / 64 + 1, LONGEST_LINE = 4096 };
enum { MOST_LEAST = 4095, MOST_OUTS = 80, MOST_LOWEST = 4095, MOST_NUMBERS = 5 };
enum { MOST_SINKS = 64, LONGEST_IMAGE = 32 + MOST_OBJECTS * (4 + 4 * MOST_WORDS) + 4 * MOST_ROOTS + 2 * MOST_SINKS };

static _Noreturn void fail(const char *path, unsigned long line, const char *why)
{
    fprintf(stderr, "expected: %s, line %lu: %s\n", path, line, why);
    exit(2);
}

/* Lists. */

typedef enum { CREATE, ALLOCATE, READ, SHOW, WRITE, ROOT, SINK, ANALYSE, SAVE, LOAD, COLLECT_PLAIN, COLLECT_CLUSTERS, KINDS } kind;

static const struct {
    const char *name;
    int numbers;  /* how many it is given; a create may be given MOST_NUMBERS */
    bool answers; /* more than that it is accepted */
} kinds[KINDS] = {
    {"create", 2, false}, {"allocate", 1, true}, {"read", 2, true}, {"show", 1, true}, {"write", 3, false}, {"root", 2, false},
    {"sink", 1, false}, {"analyse", 0, true}, {"save", 0, true}, {"load", 0, true}, {"collect plain", 0, true}, {"collect clusters", 0, true},
};

typedef struct {
    kind kind;
    int numbers; /* how many it has; the others are 0 */
    uint32_t number[MOST_NUMBERS];
    unsigned long line;
} call;

typedef struct {
    const char *path;
    char wrote[LONGEST_LINE + 1], loaded[LONGEST_LINE + 1]; /* the first that the list names, or empty */
    call *calls;
    size_t count;
} list;

static const char blanks[] = " \t\r\n";

/* The number that a word is. */
static uint32_t number_of(const list *l, unsigned long line, const char *word)
{
    char *end;

    if (strcmp(word, "nil") == 0)
        return 0;
    if (*word < '0' || *word > '9')
        fail(l->path, line, "no number");
    unsigned long value = strtoul(word, &end, word[0] == '0' && (word[1] | 32) == 'x' ? 16 : 10);
    if (*end != '\0' || value > UINT32_MAX)
        fail(l->path, line, "a wrong number");
    return (uint32_t)value;
}

/* The kind of call that a line's first word names, with the next one for a collection. */
static kind named_kind(const list *l, unsigned long line, const char *name)
{
    char both[32];

    if (strcmp(name, "collect") == 0) {
        char *way = strtok(NULL, blanks);
        snprintf(both, sizeof both, "collect %s", way == NULL ? "" : way);
        name = both;
    }
    for (int k = CREATE; k < KINDS; k++)
        if (strcmp(name, kinds[k].name) == 0)
            return (kind)k;
    fail(l->path, line, "no call");
}

/* Gives a call all the words that are left of its line as numbers. */
static void add_numbers(const list *l, call *made)
{
    for (char *word; (word = strtok(NULL, blanks)) != NULL;) {
        if (made->numbers == MOST_NUMBERS)
            fail(l->path, made->line, "more numbers than any call has");
        made->number[made->numbers++] = number_of(l, made->line, word);
    }
    if (made->numbers != kinds[made->kind].numbers && (made->kind != CREATE || made->numbers != MOST_NUMBERS))
        fail(l->path, made->line, "too many or too few numbers");
}

/* Adds what a line says to the list. */
static void add_line(list *l, unsigned long line, char *text)
{
    text[strcspn(text, "#")] = '\0';
    char *name = strtok(text, blanks);

    if (name == NULL)
        return;
    if (strcmp(name, "wrote") == 0 || strcmp(name, "loaded") == 0) {
        char *build = name[0] == 'w' ? l->wrote : l->loaded, *word = strtok(NULL, blanks);
        if (word == NULL)
            fail(l->path, line, "no name");
        if (build[0] == '\0')
            strcpy(build, word);
    } else {
        call made = {.kind = named_kind(l, line, name), .line = line};
        add_numbers(l, &made);
        if ((made.kind == CREATE) != (l->count == 0))
            fail(l->path, line, "create must be the first call, and no other");
        l->calls[l->count++] = made;
    }
    if (strtok(NULL, blanks) != NULL)
        fail(l->path, line, "a word too many");
}

static void read_list(list *l, const char *path)
{
    static char text[LONGEST_LINE + 2];
    FILE *file = fopen(path, "r");

    l->path = path;
    for (unsigned long line = 1; file != NULL && fgets(text, sizeof text, file) != NULL; line++) {
        l->calls = realloc(l->calls, (l->count + 1) * sizeof(call));
        if (l->calls == NULL || (strlen(text) > LONGEST_LINE && text[LONGEST_LINE] != '\n'))
            fail(path, line, "no memory, or a line that is too long");
        add_line(l, line, text);
    }
    if (file == NULL || ferror(file) || l->count == 0)
        fail(path, 0, "no list");
    fclose(file);
}

/* Columns: a heap, and the calls that are run on it. */

typedef struct {
    uint32_t refusal, object, word, length, words[MOST_WORDS];
    uint32_t freed, kept, scanned, clusters, members;
    uint32_t bytes, objects, roots; /* of a save; of the heap that a load made */
    uint64_t map[MAP];
} answer;

typedef struct {
    unsigned long line;     /* where the object was given again; 0 for never */
    uint32_t object, index; /* what named it in the other column: this slot of this object, or this root where the object is 0 */
} hand;

typedef struct {
    const char *name;
    const list *list;
    size_t next; /* the next call of the list */
    bool plain;  /* run by the plain heap; if not, `heap` is made from the buffers when it is looked at */
    plain_heap heap;
    pakzid_control control; /* in a plain column only the numbers of the analysis */
    uint32_t records[MOST_OBJECTS], slots[MOST_WORDS * MOST_OBJECTS], roots[MOST_ROOTS], sinks[MOST_SINKS], work[10 * MOST_OBJECTS + 64];
    uint64_t sets[MOST_OBJECTS];
    uint8_t image[LONGEST_IMAGE];
    size_t saved;                 /* the length of the last image; 0 before any save */
    plain_heap copy;              /* what a plain column saved last */
    uint64_t freed[MAP];          /* the objects that any collection freed */
    hand hands[MOST_OBJECTS + 1]; /* the first time that each number changed hands */
} column;

/* The numbers of the analysis that a create names, or the usual ones: least members, outs per ten, lowest limit. */
static const uint32_t *tuning(const call *made)
{
    static const uint32_t usual[] = {4, 25, 8};

    return made->numbers == MOST_NUMBERS ? made->number + 2 : usual;
}

static void run_collect_plain(plain_heap *heap, answer *a)
{
    static plain_collected done;

    plain_collect(heap, &done);
    a->freed = done.freed;
    a->kept = a->scanned = done.kept; /* what a plain collection keeps it has scanned */
    for (uint32_t i = 1; i <= heap->objects; i++)
        a->map[i / 64] |= (uint64_t)done.freed_object[i] << i % 64;
}

/* A create in a plain column. The plain heap leaves the tests of a create to its caller; the numbers of the analysis are kept for a
 * load, which tests them. */
static plain_answer create_plain(column *c, const call *made)
{
    const uint32_t n = made->number[0], r = made->number[1], *t = tuning(made);

    if (n < 1 || n > MOST_OBJECTS || r < 1 || r > MOST_ROOTS)
        return (plain_answer){1, 0};
    if (t[0] < 1 || t[0] > MOST_LEAST || t[1] > MOST_OUTS || t[2] < 1 || t[2] > MOST_LOWEST)
        return (plain_answer){30, 0};
    plain_create(&c->heap, n, r);
    c->control = (pakzid_control){.least_members = t[0], .outs_per_ten = t[1], .lowest_limit = t[2]};
    return (plain_answer){0, 0};
}

/* A load in a plain column: the copy, or, before any save, an empty image. */
static plain_answer load_plain(column *c, answer *a)
{
    const pakzid_control *t = &c->control;

    if (c->saved == 0)
        return plain_load(&c->heap, t->least_members, t->outs_per_ten, t->lowest_limit, c->image, 0);
    c->heap = c->copy;
    a->objects = c->heap.objects;
    a->roots = c->heap.roots;
    return (plain_answer){0, 0};
}

/* A call on the plain heap. It has no control record: after a refused create every call but a load is refused with 20, and a load
 * with 30. */
static void run_plain(column *c, const call *made, answer *a)
{
    const uint32_t *x = made->number;
    plain_heap *heap = &c->heap;
    plain_answer done = {0, 0};
    plain_shown shown;

    if (made->kind != CREATE && made->kind != LOAD && heap->objects == 0) {
        a->refusal = 20;
        return;
    }
    switch (made->kind) {
    case CREATE: done = create_plain(c, made); break;
    case ALLOCATE: done = plain_allocate(heap, x[0]); a->object = done.value; break;
    case READ: done = plain_read(heap, x[0], x[1]); a->word = done.value; break;
    case WRITE: done = plain_write(heap, x[0], x[1], x[2]); break;
    case ROOT: done = plain_set_root(heap, x[0], x[1]); break;
    case SINK: done = plain_declare_sink(heap, x[0]); break;
    case SHOW:
        shown = plain_show(heap, x[0]);
        done.refusal = shown.refusal;
        a->length = shown.length;
        memcpy(a->words, shown.words, shown.length * sizeof *a->words);
        break;
    case SAVE:
        done = plain_save(heap);
        a->bytes = done.value;
        c->saved = done.value;
        c->copy = *heap;
        break;
    case LOAD: done = load_plain(c, a); break;
    default: run_collect_plain(heap, a);
    }
    a->refusal = done.refusal;
}

/* A load of the last image, with the column's own numbers of the analysis. Refused, it gives a control record of zeros, and the column
 * goes on with its own. */
static void run_load(column *c, answer *a)
{
    const pakzid_control *t = &c->control;
    pakzid_done done = ref_load(t->least_members, t->outs_per_ten, t->lowest_limit, c->image, c->saved, c->records, MOST_OBJECTS, c->slots,
                                MOST_WORDS * MOST_OBJECTS, c->roots, MOST_ROOTS, c->sinks, MOST_SINKS, c->sets, MOST_OBJECTS);

    a->refusal = done.refusal;
    if (done.refusal != 0)
        return;
    c->control = done.control;
    a->objects = done.control.objects;
    a->roots = done.control.roots;
}

/* A call by the reference, whose answers all have a refusal and a control record. */
static void run_reference(column *c, const call *made, answer *a)
{
    const uint32_t *x = made->number, *t = tuning(made);

#define RECORDS c->records, MOST_OBJECTS
#define SLOTS c->slots, MOST_WORDS *MOST_OBJECTS
#define ROOTS c->roots, MOST_ROOTS
#define SINKS c->sinks, MOST_SINKS, c->sets, MOST_OBJECTS
#define WALK RECORDS, SLOTS, ROOTS, SINKS, c->work, 10 * MOST_OBJECTS + 64
#define RUN(type, function, ...) type done = function(__VA_ARGS__); c->control = done.control; a->refusal = done.refusal
#define COLLECT(function) RUN(pakzid_collected, function, c->control, WALK, a->map, MAP); \
    a->freed = done.freed; a->kept = done.kept; a->scanned = done.scanned
    switch (made->kind) {
    case CREATE: { RUN(pakzid_done, ref_create, x[0], x[1], t[0], t[1], t[2], RECORDS, SLOTS, ROOTS, SINKS); break; }
    case ALLOCATE: { RUN(pakzid_allocated, ref_allocate, c->control, x[0], RECORDS, SLOTS); a->object = done.object; break; }
    case READ: { RUN(pakzid_word, ref_read, c->control, x[0], x[1], RECORDS, SLOTS); a->word = done.word; break; }
    case SHOW: {
        RUN(pakzid_part, ref_show, c->control, x[0], RECORDS, SLOTS);
        a->length = done.length;
        memcpy(a->words, c->slots + done.start, done.length * sizeof *a->words);
        break;
    }
    case WRITE: { RUN(pakzid_done, ref_write, c->control, x[0], x[1], x[2], RECORDS, SLOTS, SINKS); break; }
    case ROOT: { RUN(pakzid_done, ref_set_root, c->control, x[0], x[1], RECORDS, ROOTS); break; }
    case SINK: { RUN(pakzid_done, ref_declare_sink, c->control, x[0], RECORDS, SLOTS, ROOTS, SINKS); break; }
    case ANALYSE: { RUN(pakzid_analysed, ref_analyse, c->control, WALK); a->clusters = done.clusters; a->members = done.members; break; }
    case SAVE: {
        RUN(pakzid_saved, ref_save, c->control, RECORDS, SLOTS, ROOTS, SINKS, c->image, LONGEST_IMAGE);
        a->bytes = done.length;
        c->saved = done.refusal == 0 ? done.length : c->saved;
        break;
    }
    case LOAD: run_load(c, a); break;
    case COLLECT_PLAIN: { COLLECT(ref_collect_plain); break; }
    default: { COLLECT(ref_collect_clusters); break; }
    }
}

static bool has(const uint64_t *map, uint32_t object)
{
    return map[object / 64] >> object % 64 & 1;
}

/* Runs the column's next call, if there is one. */
static void run(column *c, const call *made, answer *a)
{
    memset(a, 0, sizeof *a);
    if (made == NULL)
        return;
    c->next++;
    if (c->plain)
        run_plain(c, made, a);
    else
        run_reference(c, made, a);
    for (uint32_t i = 0; i < MAP; i++)
        c->freed[i] |= a->map[i];
}

/* The heap of a column as the game sees it. Numbers that it lacks are free. */
static const plain_heap *view(column *c)
{
    if (c->plain)
        return &c->heap;
    for (uint32_t i = 1; i <= MOST_OBJECTS; i++) {
        uint32_t record = i <= c->control.objects ? c->records[i - 1] : 0;
        plain_object *o = &c->heap.object[i];
        *o = (plain_object){.free = record == 0, .sink = record >> 2 & 1, .width = record >> 8 & 15};
        memcpy(o->words, c->slots + MOST_WORDS * (i - 1), o->width * sizeof *o->words);
    }
    c->heap.objects = c->control.objects;
    c->heap.roots = c->control.roots;
    memcpy(c->heap.root, c->roots, sizeof c->roots);
    return &c->heap;
}

/* Text. */

typedef struct {
    size_t length;
    char bytes[1 << 15]; /* 4,095 freed objects need 24 KB */
} text;

/* The cells of the row at hand: the call and both answers. */
static text cells[3];

static void put(text *t, const char *format, ...)
{
    va_list values;

    va_start(values, format);
    t->length += (size_t)vsnprintf(t->bytes + t->length, sizeof t->bytes - t->length, format, values);
    va_end(values);
    if (t->length >= sizeof t->bytes)
        fail("report", 0, "a cell is too long");
}

static void put_word(text *t, uint32_t word)
{
    put(t, word == 0 ? "nil" : word <= MOST_OBJECTS ? "object %u" : "immediate 0x%08x", (unsigned)word);
}

static void put_words(text *t, const uint32_t *words, uint32_t count)
{
    for (uint32_t i = 0; i < count; i++) {
        put(t, i == 0 ? "words " : ", ");
        put_word(t, words[i]);
    }
}

/* The call as the list has it, but with all numbers in one form: decimal up to 65535. */
static void put_call(text *t, const call *made)
{
    put(t, "%s", kinds[made->kind].name);
    for (int i = 0; i < made->numbers; i++)
        put(t, made->number[i] <= 0xFFFF ? " %u" : " 0x%08x", (unsigned)made->number[i]);
}

/* What a refusal means. The numbers that are not here can't be met: buffers are long enough, and no heap or image is damaged. */
static const char *const meanings[] = {
    [1] = "sizes out of range", [3] = "width above 8", [4] = "no such object", [5] = "no such slot", [6] = "illegal word",
    [7] = "no such root", [20] = "control record out of order", [22] = "the object is free",
    [23] = "the word names a free object", [24] = "no object is free", [26] = "the image is cut",
    [29] = "64 sinks are listed", [30] = "an analysis number is out of range",
};

static void put_collected(text *t, const answer *a)
{
    const char *before = "; freed objects ";

    put(t, "freed %u, kept %u, scanned %u", (unsigned)a->freed, (unsigned)a->kept, (unsigned)a->scanned);
    for (uint32_t i = 1; i <= MOST_OBJECTS; i++)
        if (has(a->map, i)) {
            put(t, "%s%u", before, (unsigned)i);
            before = ", ";
        }
}

static void put_answer(text *t, const call *made, const answer *a)
{
    if (made == NULL)
        put(t, "no call");
    else if (a->refusal != 0)
        put(t, "refused %u: %s", (unsigned)a->refusal, meanings[a->refusal]);
    else if (made->kind == ALLOCATE || made->kind == READ)
        put_word(t, made->kind == READ ? a->word : a->object);
    else if (made->kind == SHOW && a->length == 0)
        put(t, "no words");
    else if (made->kind == SHOW)
        put_words(t, a->words, a->length);
    else if (made->kind == ANALYSE)
        put(t, "clusters %u, members %u", (unsigned)a->clusters, (unsigned)a->members);
    else if (made->kind == SAVE)
        put(t, "bytes %u", (unsigned)a->bytes);
    else if (made->kind == LOAD)
        put(t, "objects %u, roots %u", (unsigned)a->objects, (unsigned)a->roots);
    else if (made->kind >= COLLECT_PLAIN)
        put_collected(t, a);
    else
        put(t, "accepted");
}

/* How many bytes of a cell go on its next line: it is broken at a blank. */
static int fitting(const char *rest, size_t width)
{
    if (strlen(rest) <= width)
        return (int)strlen(rest);
    while (rest[width] != ' ')
        width--;
    return (int)width;
}

/* Prints the cells in as many lines as the longest needs, if the row is wanted, and empties them. */
static void print_row(bool wanted)
{
    const char *at[3] = {cells[0].bytes, cells[1].bytes, cells[2].bytes};

    while (wanted && (*at[0] != '\0' || *at[1] != '\0' || *at[2] != '\0')) {
        int fit[3] = {fitting(at[0], 31), fitting(at[1], 30), fitting(at[2], 30)};
        printf("%-31.*s | %-30.*s |%s%.*s\n", fit[0], at[0], fit[1], at[1], fit[2] > 0 ? " " : "", fit[2], at[2]);
        for (int i = 0; i < 3; i++)
            at[i] += fit[i] + (at[i][fit[i]] == ' ');
    }
    for (int i = 0; i < 3; i++)
        cells[i].bytes[cells[i].length = 0] = '\0';
}

/* The report. */

static column columns[2];
static bool single;            /* one list, run in both columns */
static bool differs;           /* calls or their answers */
static unsigned long first[2]; /* the lines of the calls that differ first; 0 in a column that has no more calls */

/* Names a row's calls, one of which may be missing, and their lines. */
static void put_place(text *t, const call *left, const call *right)
{
    const call *made = left == NULL ? right : left;
    bool both = left != NULL && right != NULL;

    if (both
        && (left->kind != right->kind || left->numbers != right->numbers
            || memcmp(left->number, right->number, sizeof left->number) != 0)) {
        put(t, "Line %lu, ", left->line);
        put_call(t, left);
        put(t, "; line %lu, ", right->line);
        made = right;
    } else if (both && left->line != right->line) {
        put(t, "Lines %lu and %lu, ", left->line, right->line);
    } else {
        put(t, "Line %lu, ", made->line);
    }
    put_call(t, made);
}

static const call *next_call(const column *c)
{
    return c->next < c->list->count ? &c->list->calls[c->next] : NULL;
}

/* Runs the analyses before the next compared call of a column. The left column of a single list leaves them out. */
static void run_analyses(int side)
{
    static answer a;

    for (const call *made; (made = next_call(&columns[side])) != NULL && made->kind == ANALYSE;) {
        if (single)
            columns[0].next++;
        put_place(&cells[0], made, NULL);
        run(&columns[side], made, &a);
        put_answer(&cells[1 + side], made, &a);
        put(&cells[1], single ? "left out" : "");
        print_row(true);
    }
}

/* Plain and by clusters are one kind, and scanned counts are not compared. */
static bool agree(const call *const *made, const answer *a)
{
    return made[0] != NULL && made[1] != NULL
        && (made[0]->kind == made[1]->kind || (made[0]->kind >= COLLECT_PLAIN && made[1]->kind >= COLLECT_PLAIN))
        && a[0].refusal == a[1].refusal && a[0].object == a[1].object && a[0].word == a[1].word
        && a[0].length == a[1].length && memcmp(a[0].words, a[1].words, sizeof a[0].words) == 0
        && a[0].bytes == a[1].bytes && a[0].objects == a[1].objects && a[0].roots == a[1].roots
        && a[0].freed == a[1].freed && a[0].kept == a[1].kept && memcmp(a[0].map, a[1].map, sizeof a[0].map) == 0;
}

/* Finds what names the object: the first slot that does, or else the first root. */
static bool find_name(const plain_heap *heap, uint32_t object, hand *found)
{
    for (uint32_t i = 0; i < MOST_WORDS * heap->objects; i++) {
        *found = (hand){.object = i / MOST_WORDS + 1, .index = i % MOST_WORDS};
        if (plain_slot_word(heap, found->object, found->index) == object)
            return true;
    }
    found->object = 0;
    for (found->index = 0; found->index < heap->roots; found->index++)
        if (heap->root[found->index] == object)
            return true;
    return false;
}

/* Notes the object that a column was given in this turn, if it changed hands now for the first time. */
static void note_hand(int side, const call *const *made, const answer *a)
{
    column *c = &columns[side], *other = &columns[1 - side];
    uint32_t given = a[side].object;
    hand found = {0};

    if (given == 0 || given == a[1 - side].object || !has(c->freed, given) || c->hands[given].line != 0)
        return;
    if (view(other)->object[given].free || !find_name(&other->heap, given, &found))
        return;
    found.line = made[side]->line;
    c->hands[given] = found;
}

/* Runs the next compared call of each column. False where no call is left. */
static bool take_turn(void)
{
    static answer a[2];
    const call *made[2] = {next_call(&columns[0]), next_call(&columns[1])};

    if (made[0] == NULL && made[1] == NULL)
        return false;
    run(&columns[0], made[0], &a[0]);
    run(&columns[1], made[1], &a[1]);
    bool apart = !agree(made, a), row = apart;
    put(&cells[0], apart ? "* " : "");
    put_place(&cells[0], made[0], made[1]);
    for (int side = 0; side < 2; side++) {
        if (apart && !differs)
            first[side] = made[side] == NULL ? 0 : made[side]->line;
        row = row || kinds[made[side]->kind].answers || a[side].refusal != 0;
        put_answer(&cells[1 + side], made[side], &a[side]);
        note_hand(side, made, a);
    }
    differs = differs || apart;
    print_row(row);
    return true;
}

static void put_object(text *t, const plain_object *o)
{
    put(t, o->free ? "free" : "width %u", (unsigned)o->width);
    put(t, o->width > 0 ? ", " : "");
    put_words(t, o->words, o->width);
    put(t, o->sink ? ", sink" : "");
}

/* Prints the objects that at least one heap has, each with both columns. Answers whether they differ. */
static bool print_objects(const plain_heap *left, const plain_heap *right)
{
    bool any = false, apart = false;

    for (uint32_t i = 1; i <= left->objects || i <= right->objects; i++) {
        const plain_object *o = &left->object[i], *p = &right->object[i];
        if (o->free && p->free)
            continue;
        bool same = o->free == p->free && o->width == p->width && o->sink == p->sink
            && memcmp(o->words, p->words, o->width * sizeof *o->words) == 0;
        put(&cells[0], "%sobject %u", same ? "" : "* ", (unsigned)i);
        put_object(&cells[1], o);
        put_object(&cells[2], p);
        print_row(true);
        any = true;
        apart = apart || !same;
    }
    if (!any)
        puts("none");
    return apart;
}

static bool print_roots(const plain_heap *left, const plain_heap *right)
{
    bool apart = false;

    for (uint32_t i = 0; i < left->roots || i < right->roots; i++) {
        bool same = i < left->roots && i < right->roots && left->root[i] == right->root[i];
        put(&cells[0], "%sroot %u", same ? "" : "* ", (unsigned)i);
        for (int side = 0; side < 2; side++) {
            const plain_heap *heap = side == 0 ? left : right;
            put(&cells[1 + side], i < heap->roots ? "" : "no root");
            if (i < heap->roots)
                put_word(&cells[1 + side], heap->root[i]);
        }
        print_row(true);
        apart = apart || !same;
    }
    return apart;
}

static void print_hands(void)
{
    bool any = false;

    puts("\nObjects that changed hands");
    for (uint32_t i = 0; i < 2 * (MOST_OBJECTS + 1); i++) {
        const column *c = &columns[i % 2];
        const hand *h = &c->hands[i / 2];
        if (h->line == 0)
            continue;
        printf("Object %u: given again at line %lu (%s), while ", (unsigned)i / 2, h->line, c->name);
        printf(h->object == 0 ? "root %u" : "slot %u of object %u", (unsigned)h->index, (unsigned)h->object);
        printf(" (%s) still named it.\n", columns[1 - i % 2].name);
        any = true;
    }
    if (!any)
        puts("none");
}

static void print_verdict(bool survivors_differ)
{
    int longer = first[0] == 0;

    if (differs && first[0] != 0 && first[1] != 0)
        printf("\nThe columns differ first at line %lu (%s) and line %lu (%s).\n", first[0], columns[0].name, first[1], columns[1].name);
    else if (differs)
        printf("\nThe columns differ: the %s has more calls, from line %lu on.\n", columns[longer].name, first[longer]);
    else
        puts(survivors_differ ? "\nThe columns differ in what survives." : "\nThe columns agree.");
}

/* A build is named by the list of its own column, or else by the other. */
static void print_build(const char *did, const char *own, const char *other)
{
    printf("Build that %s: %s\n", did, own[0] != '\0' ? own : other[0] != '\0' ? other : "not named");
}

int main(int count, char **arguments)
{
    static list lists[2];

    if (count < 2)
        fail("arguments", 0, "one list or two");
    for (int side = 0; side < 2; side++) {
        read_list(&lists[side], arguments[count < 3 ? 1 : 1 + side]);
        columns[side].list = &lists[side];
    }
    single = columns[0].plain = count < 3;
    columns[0].name = single ? "plain heap" : "build that wrote";
    columns[1].name = single ? "as listed" : "build that loaded";

    print_build("wrote", lists[0].wrote, lists[1].wrote);
    print_build("loaded", lists[1].loaded, lists[0].loaded);
    puts(single ? "\nCall                            | Plain heap                     | As listed"
                : "\nCall                            | Build that wrote               | Build that loaded");
    do {
        if (!single)
            run_analyses(0);
        run_analyses(1);
    } while (take_turn());
    puts("\nSurvivors");
    bool objects_differ = print_objects(view(&columns[0]), view(&columns[1]));
    bool roots_differ = print_roots(&columns[0].heap, &columns[1].heap);
    print_hands();
    print_verdict(objects_differ || roots_differ);
    return fflush(stdout) == 0 ? 0 : 2;
}
