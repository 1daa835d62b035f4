/* Control records as they cross: each is refused or taken, and comes back as it was. */
#include "../../include/pakzid.h"

#include <stdio.h>
#include <string.h>

static int failed;

static void expect(const char *what, size_t got, size_t want)
{
    if (got != want) {
        printf("%s: %zu, expected %zu\n", what, got, want);
        failed = 1;
    }
}

/* each row differs in one field from one that is fine; a fine one has the usual tuning, or one at the ends of its ranges */
static const struct {
    const char *what;
    pakzid_control control;
    uint32_t refusal;
} rows[] = {
    {"least", {1, 1, 0, 0, 0, 0, 1, 0, 1}, 0},
    {"most", {4095, 64, 4095, 4095, 4095, 4095, 4095, 80, 4095}, 0},
    {"no objects", {0, 1, 0, 0, 0, 0, 4, 25, 8}, 20},
    {"too many objects", {4096, 1, 0, 0, 0, 0, 4, 25, 8}, 20},
    {"no roots", {10, 0, 0, 0, 0, 0, 4, 25, 8}, 20},
    {"too many roots", {10, 65, 0, 0, 0, 0, 4, 25, 8}, 20},
    {"last is n", {10, 1, 10, 0, 0, 0, 4, 25, 8}, 0},
    {"last above n", {10, 1, 11, 0, 0, 0, 4, 25, 8}, 20},
    {"limit 8", {10, 1, 0, 8, 0, 0, 4, 25, 8}, 0},
    {"limit 7", {10, 1, 0, 7, 0, 0, 4, 25, 8}, 20},
    {"limit 1", {10, 1, 0, 1, 0, 0, 4, 25, 8}, 20},
    {"limit 4096", {10, 1, 0, 4096, 0, 0, 4, 25, 8}, 20},
    {"write loss above n", {10, 1, 0, 0, 11, 0, 4, 25, 8}, 20},
    {"out loss above n", {10, 1, 0, 0, 0, 11, 4, 25, 8}, 20},

    {"least members 1", {10, 1, 0, 8, 0, 0, 1, 25, 8}, 0},
    {"least members 4095, far above limit and n", {10, 1, 0, 8, 0, 0, 4095, 25, 8}, 0},
    {"least members 0", {10, 1, 0, 8, 0, 0, 0, 25, 8}, 20},
    {"least members 4096", {10, 1, 0, 8, 0, 0, 4096, 25, 8}, 20},
    {"least members 65540", {10, 1, 0, 8, 0, 0, 65540, 25, 8}, 20},
    {"least members 2^32 - 1", {10, 1, 0, 8, 0, 0, 0xFFFFFFFF, 25, 8}, 20},
    {"outs per ten 0", {10, 1, 0, 8, 0, 0, 4, 0, 8}, 0},
    {"outs per ten 80", {10, 1, 0, 8, 0, 0, 4, 80, 8}, 0},
    {"outs per ten 81", {10, 1, 0, 8, 0, 0, 4, 81, 8}, 20},
    {"outs per ten 281", {10, 1, 0, 8, 0, 0, 4, 281, 8}, 20},
    {"outs per ten 2^32 - 1", {10, 1, 0, 8, 0, 0, 4, 0xFFFFFFFF, 8}, 20},
    {"lowest limit 1", {10, 1, 0, 8, 0, 0, 4, 25, 1}, 0},
    {"lowest limit 1, limit 1", {10, 1, 0, 1, 0, 0, 4, 25, 1}, 0},
    {"lowest limit 4095, no limit yet", {10, 1, 0, 0, 0, 0, 4, 25, 4095}, 0},
    {"lowest limit 4095, limit 4095", {10, 1, 0, 4095, 0, 0, 4, 25, 4095}, 0},
    {"lowest limit 4095, limit 4094", {10, 1, 0, 4094, 0, 0, 4, 25, 4095}, 20},
    {"lowest limit 16, limit 16", {10, 1, 0, 16, 0, 0, 4, 25, 16}, 0},
    {"lowest limit 17, limit 16", {10, 1, 0, 16, 0, 0, 4, 25, 17}, 20},
    {"lowest limit 0", {10, 1, 0, 8, 0, 0, 4, 25, 0}, 20},
    {"lowest limit 0, no limit yet", {10, 1, 0, 0, 0, 0, 4, 25, 0}, 20},
    {"lowest limit 4096, no limit yet", {10, 1, 0, 0, 0, 0, 4, 25, 4096}, 20},
    {"lowest limit 65544", {10, 1, 0, 8, 0, 0, 4, 25, 65544}, 20},
    {"lowest limit 2^32 - 1", {10, 1, 0, 8, 0, 0, 4, 25, 0xFFFFFFFF}, 20},
};

int main(void)
{
    /* no object is in use: where the control record is taken, 22 follows for a read, and the image is short */
    static uint32_t records[4095], slots[8 * 4095], roots[64], sinks[PAKZID_SINKS_LENGTH];
    static uint64_t sets[4095];
    static uint8_t image[PAKZID_IMAGE_LENGTH(0, 64)];
    for (size_t i = 0; i < sizeof rows / sizeof rows[0]; i++) {
        pakzid_word read = pakzid_read(rows[i].control, 1, 0, records, 4095, slots, 8 * 4095);
        expect(rows[i].what, read.refusal, rows[i].refusal ? rows[i].refusal : 22);
        expect("word", read.word, 0);
        expect("control record back", memcmp(&read.control, &rows[i].control, sizeof read.control), 0);

        pakzid_saved saved = pakzid_save(rows[i].control, records, 4095, slots, 8 * 4095, roots, 64, sinks, PAKZID_SINKS_LENGTH, sets,
                                         4095, image, sizeof image);
        size_t length = rows[i].refusal ? 0 : 26 + 4 * rows[i].control.roots;
        expect(rows[i].what, saved.refusal, rows[i].refusal);
        expect("length", saved.length, length);
        expect("control record back from save", memcmp(&saved.control, &rows[i].control, sizeof saved.control), 0);
    }

    if (!failed)
        printf("control: ok\n");
    return failed;
}
