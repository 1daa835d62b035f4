/*
 * The structs word by word. Each kind of answer is got from the library twice, accepted and refused, with values that
 * tell all of its fields apart, and compared as raw words with what is expected at each offset. The same values put in
 * by the header's names must give the same words.
 */
#include "../../include/pakzid.h"

#include <stdio.h>
#include <string.h>

enum { N = 20, R = 3, LEAST = 5, OUTS = 12, LOWEST = 10, MOST = 13, SAVED = 26 + 4 * R + 12 * (4 + 4 * 4) };

static uint32_t records[N], slots[PAKZID_SLOTS_LENGTH(N)], roots[R], sinks[PAKZID_SINKS_LENGTH], work[PAKZID_WORK_LENGTH(N)];
static uint64_t sets[N], map[PAKZID_MAP_LENGTH(N)];
static uint8_t image[SAVED];
static int failed;

static void same_words(const char *what, const char *side, const void *got, const uint32_t *want, size_t count)
{
    uint32_t words[MOST];
    memcpy(words, got, count * sizeof *words);
    for (size_t i = 0; i < count; i++)
        if (words[i] != want[i]) {
            printf("%s, %s: word %zu is %u, expected %u\n", what, side, i, words[i], want[i]);
            failed = 1;
        }
}

/* Two answers of one kind, as the library gave them and as the header names them. */
static void answers(const char *what, size_t size, size_t count, const void *got, const void *named, const uint32_t *want,
                    const void *got2, const void *named2, const uint32_t *want2)
{
    if (size != count * sizeof(uint32_t)) {
        printf("%s: %zu bytes, expected %zu\n", what, size, count * sizeof(uint32_t));
        failed = 1;
        return;
    }
    same_words(what, "library", got, want, count);
    same_words(what, "header", named, want, count);
    same_words(what, "library, refused", got2, want2, count);
    same_words(what, "header, refused", named2, want2, count);
    for (size_t i = 0; i < count; i++)
        for (size_t j = i + 1; j < count; j++)
            if (want[i] == want[j] && want2[i] == want2[j]) {
                printf("%s: words %zu and %zu are not told apart\n", what, i, j);
                failed = 1;
            }
}

#define ANSWERS(what, type, count, got, named, want, got2, named2, want2) \
    answers(what, sizeof(type), count, &(got), &(named), want, &(got2), &(named2), want2)
#define WORDS(...) ((const uint32_t[]){__VA_ARGS__})
#define TUNING LEAST, OUTS, LOWEST
#define RECORDS records, N
#define SLOTS slots, PAKZID_SLOTS_LENGTH(N)
#define ROOTS roots, R
#define SINKS sinks, PAKZID_SINKS_LENGTH, sets, N
#define WORK work, PAKZID_WORK_LENGTH(N)
#define MAP map, PAKZID_MAP_LENGTH(N)
#define IMAGE image, SAVED

/* n, r, last, limit, write loss, out loss and the tuning: nine values, each in its range */
#define HANDED N, R, 9, 11, 7, 6, TUNING
#define HANDED_NAMED {.objects = N, .roots = R, .last = 9, .limit = 11, .write_loss = 7, .out_loss = 6, \
                      .least_members = LEAST, .outs_per_ten = OUTS, .lowest_limit = LOWEST}
static const uint32_t handed_words[] = {HANDED};
static pakzid_control handed;

/* Twelve objects of four slots: root 0 leads to 1 and from there to 2 to 5, root 2 to 6 and 7; 8 to 12 are garbage. */
static void build(void)
{
    handed = pakzid_create(N, R, TUNING, RECORDS, SLOTS, ROOTS, SINKS).control;
    for (int i = 1; i <= 12; i++)
        handed = pakzid_allocate(handed, 4, RECORDS, SLOTS).control;
    static const uint32_t stores[][3] = {{1, 0, 2}, {1, 1, 3}, {2, 0, 4}, {2, 1, 5}, {6, 0, 7}, {7, 2, 0x80000063}};
    for (size_t i = 0; i < sizeof stores / sizeof stores[0]; i++)
        handed = pakzid_write(handed, stores[i][0], stores[i][1], stores[i][2], RECORDS, SLOTS, SINKS).control;
    handed = pakzid_set_root(handed, 0, 1, RECORDS, ROOTS).control;
    handed = pakzid_set_root(handed, 2, 6, RECORDS, ROOTS).control;
    memcpy(&handed, handed_words, sizeof handed);
}

/* Twelve objects are in the image, and limit and losses are not. A refused load gives no heap. */
static void images(void)
{
    pakzid_saved saved = pakzid_save(handed, RECORDS, SLOTS, ROOTS, SINKS, IMAGE);
    pakzid_saved cut = pakzid_save(handed, RECORDS, SLOTS, ROOTS, SINKS, image, SAVED - 1);
    pakzid_saved saved_named = {.refusal = 0, .length = SAVED, .control = HANDED_NAMED};
    pakzid_saved cut_named = {.refusal = 2, .length = 0, .control = HANDED_NAMED};
    ANSWERS("saved", pakzid_saved, 11, saved, saved_named, WORDS(0, SAVED, HANDED), cut, cut_named, WORDS(2, 0, HANDED));

    pakzid_done loaded = pakzid_load(TUNING, IMAGE, RECORDS, SLOTS, ROOTS, SINKS);
    pakzid_done none = pakzid_load(TUNING, image, 0, RECORDS, SLOTS, ROOTS, SINKS);
    same_words("load", "library", &loaded, WORDS(0, N, R, 9, 0, 0, 0, TUNING), 10);
    same_words("load", "refused", &none, WORDS(26, 0, 0, 0, 0, 0, 0, 0, 0, 0), 10);
}

static void small_calls(void)
{
    pakzid_allocated given = pakzid_allocate(handed, 4, RECORDS, SLOTS), wide = pakzid_allocate(handed, 9, RECORDS, SLOTS);
    pakzid_allocated given_named = {.refusal = 0, .object = 13, .control = HANDED_NAMED};
    pakzid_allocated wide_named = {.refusal = 3, .object = 0, .control = HANDED_NAMED};
    given_named.control.last = 13;
    ANSWERS("allocated", pakzid_allocated, 11, given, given_named, WORDS(0, 13, N, R, 13, 11, 7, 6, TUNING), wide, wide_named,
            WORDS(3, 0, HANDED));

    pakzid_word read = pakzid_read(handed, 7, 2, RECORDS, SLOTS), past = pakzid_read(handed, 7, 4, RECORDS, SLOTS);
    pakzid_word read_named = {.refusal = 0, .word = 0x80000063, .control = HANDED_NAMED};
    pakzid_word past_named = {.refusal = 5, .word = 0, .control = HANDED_NAMED};
    ANSWERS("word", pakzid_word, 11, read, read_named, WORDS(0, 0x80000063, HANDED), past, past_named, WORDS(5, 0, HANDED));

    pakzid_part part = pakzid_show(handed, 3, RECORDS, SLOTS), none = pakzid_show(handed, N + 1, RECORDS, SLOTS);
    pakzid_part part_named = {.refusal = 0, .start = 16, .length = 4, .control = HANDED_NAMED};
    pakzid_part none_named = {.refusal = 4, .start = 0, .length = 0, .control = HANDED_NAMED};
    ANSWERS("part", pakzid_part, 12, part, part_named, WORDS(0, 16, 4, HANDED), none, none_named, WORDS(4, 0, 0, HANDED));
}

/* Objects 1 to 5 become a cluster at the second analysis. The limit is halved, and raised to the lowest that there is. */
static void analyses(void)
{
    pakzid_analyse(handed, RECORDS, SLOTS, ROOTS, SINKS, WORK);
    pakzid_analysed formed = pakzid_analyse(handed, RECORDS, SLOTS, ROOTS, SINKS, WORK);
    pakzid_analysed cut = pakzid_analyse(handed, RECORDS, SLOTS, ROOTS, SINKS, work, PAKZID_WORK_LENGTH(N) - 1);
    pakzid_analysed formed_named = {.refusal = 0, .clusters = 1, .members = 5, .control = HANDED_NAMED};
    pakzid_analysed cut_named = {.refusal = 2, .clusters = 0, .members = 0, .control = HANDED_NAMED};
    formed_named.control.limit = LOWEST;
    formed_named.control.write_loss = formed_named.control.out_loss = 0;
    ANSWERS("analysed", pakzid_analysed, 12, formed, formed_named, WORDS(0, 1, 5, N, R, 9, LOWEST, 0, 0, TUNING), cut, cut_named,
            WORDS(2, 0, 0, HANDED));
}

static void collections(void)
{
    pakzid_collected swept = pakzid_collect_clusters(handed, RECORDS, SLOTS, ROOTS, SINKS, WORK, MAP);
    pakzid_collected cut = pakzid_collect_clusters(handed, RECORDS, SLOTS, ROOTS, SINKS, WORK, map, 0);
    pakzid_collected swept_named = {.refusal = 0, .freed = 6, .kept = 7, .scanned = 2, .control = HANDED_NAMED};
    pakzid_collected cut_named = {.refusal = 2, .freed = 0, .kept = 0, .scanned = 0, .control = HANDED_NAMED};
    ANSWERS("collected", pakzid_collected, 13, swept, swept_named, WORDS(0, 6, 7, 2, HANDED), cut, cut_named,
            WORDS(2, 0, 0, 0, HANDED));
    pakzid_collected plain = pakzid_collect_plain(handed, RECORDS, SLOTS, ROOTS, SINKS, WORK, MAP);
    same_words("collected plainly", "library", &plain, WORDS(0, 0, 7, 7, HANDED), 13);
}

/*
 * The write cuts a pointer inside the cluster of five; a second one finds none. It leaves 3 in both slots: in place, the
 * cluster stays while one of them holds it.
 */
static void writes(void)
{
    uint32_t before[N];
    memcpy(before, records, sizeof before);
    pakzid_done cut = pakzid_write(handed, 1, 0, 3, RECORDS, SLOTS, SINKS), past = pakzid_write(handed, 1, 4, 3, RECORDS, SLOTS, SINKS);
    pakzid_done cut_named = {.refusal = 0, .control = HANDED_NAMED}, past_named = {.refusal = 5, .control = HANDED_NAMED};
    cut_named.control.write_loss = 12;
    ANSWERS("done", pakzid_done, 10, cut, cut_named, WORDS(0, N, R, 9, 11, 12, 6, TUNING), past, past_named, WORDS(5, HANDED));

    memcpy(records, before, sizeof before);
    pakzid_control lent = handed;
    same_words("write in place", "refusal", WORDS(pakzid_write_in_place(&lent, 1, 4, 3, RECORDS, SLOTS, SINKS)), WORDS(5), 1);
    same_words("write in place", "refused", &lent, WORDS(HANDED), 9);
    same_words("write in place", "accepted", WORDS(pakzid_write_in_place(&lent, 1, 1, 0, RECORDS, SLOTS, SINKS)), WORDS(0), 1);
    same_words("write in place", "held", &lent, WORDS(HANDED), 9);
    same_words("write in place", "accepted", WORDS(pakzid_write_in_place(&lent, 1, 0, 0, RECORDS, SLOTS, SINKS)), WORDS(0), 1);
    same_words("write in place", "record", &lent, WORDS(N, R, 9, 11, 12, 6, TUNING), 9);

    lent = handed;
    pakzid_allocated_in_place given = pakzid_allocate_in_place(&lent, 4, RECORDS, SLOTS);
    same_words("allocate in place", "record", &lent, WORDS(N, R, 10, 11, 7, 6, TUNING), 9);
    pakzid_allocated_in_place wide = pakzid_allocate_in_place(&lent, 9, RECORDS, SLOTS);
    same_words("allocate in place", "refused", &lent, WORDS(N, R, 10, 11, 7, 6, TUNING), 9);
    pakzid_allocated_in_place given_named = {.refusal = 0, .object = 10}, wide_named = {.refusal = 3, .object = 0};
    ANSWERS("allocated in place", pakzid_allocated_in_place, 2, given, given_named, WORDS(0, 10), wide, wide_named, WORDS(3, 0));
}

/* The other calls that answer pakzid_done. */
static void done(void)
{
    pakzid_done set = pakzid_set_root(handed, 1, 2, RECORDS, ROOTS), past = pakzid_set_root(handed, R, 2, RECORDS, ROOTS);
    same_words("set root", "library", &set, WORDS(0, HANDED), 10);
    same_words("set root", "refused", &past, WORDS(7, HANDED), 10);
    pakzid_done sink = pakzid_declare_sink(handed, 2, RECORDS, SLOTS, ROOTS, SINKS), none = pakzid_declare_sink(handed, 0, RECORDS, SLOTS, ROOTS, SINKS);
    same_words("declare sink", "library", &sink, WORDS(0, HANDED), 10);
    same_words("declare sink", "refused", &none, WORDS(4, HANDED), 10);
    pakzid_done empty = pakzid_create(N, R, TUNING, RECORDS, SLOTS, ROOTS, SINKS), wrong = pakzid_create(N, 65, TUNING, RECORDS, SLOTS, ROOTS, SINKS);
    same_words("create", "library", &empty, WORDS(0, N, R, 0, 0, 0, 0, TUNING), 10);
    same_words("create", "refused", &wrong, WORDS(1, 0, 0, 0, 0, 0, 0, 0, 0, 0), 10);
}

int main(void)
{
    build();
    pakzid_control named = HANDED_NAMED;
    ANSWERS("control", pakzid_control, 9, handed, named, handed_words, handed, named, handed_words);
    images();
    build();
    small_calls();
    analyses();
    collections();
    writes();
    done();
    if (!failed)
        printf("layout: ok\n");
    return failed;
}
