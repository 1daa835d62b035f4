/*
 * level.c - writes examples/large.calls, always the same list: a level of rooms with doors, switches and things to pick up, and
 * a player with an inventory, on a heap of 4,095 objects.
 *
 *   level > examples/large.calls
 *
 * Fewer objects are made than the heap has numbers, so each new one has the next number.
 */
#include <stdint.h>
#include <stdio.h>

enum { ROOMS = 48, DOORS = 3, THINGS = 2, BAGS = 3, FRAMES = 80 };

/* A thing is in a room or in a bag, in this slot of it. */
typedef struct {
    unsigned thing, holder, slot;
} place;

static uint64_t state = 412;
static unsigned last;
static unsigned textures, player, spark, bags[BAGS], rooms[ROOMS], doors[ROOMS][DOORS], switches[ROOMS][DOORS];
static place things[ROOMS * THINGS], lost;

/* A number below `bound`. */
static unsigned below(unsigned bound)
{
    state = state * 6364136223846793005u + 1442695040888963407u;
    return (unsigned)((state >> 33) % bound);
}

static unsigned allocate(unsigned width)
{
    printf("allocate %u\n", width);
    return ++last;
}

static void put(unsigned object, unsigned slot, unsigned target)
{
    if (target == 0)
        printf("write %u %u nil\n", object, slot);
    else
        printf("write %u %u %u\n", object, slot, target);
}

static void put_value(unsigned object, unsigned slot, unsigned value)
{
    printf("write %u %u 0x%x\n", object, slot, 0x80000000 + value);
}

/* A door leads to a room, shows a texture and has a switch, which knows its door and whether it is on. */
static void make_door(int room, int door)
{
    unsigned made = allocate(3), its_switch = allocate(2);

    put(rooms[room], 1 + door, made);
    put(made, 0, its_switch);
    put(made, 1, rooms[below(room + 1)]);
    put(made, 2, textures);
    put(its_switch, 0, made);
    put_value(its_switch, 1, 0);
    doors[room][door] = made;
    switches[room][door] = its_switch;
}

/* Slot 0 of a room is the next room, then come its doors and the things that lie in it. */
static void make_room(int room)
{
    printf("# room %d\n", room);
    rooms[room] = allocate(1 + DOORS + THINGS);
    if (room == 0)
        printf("root 0 %u\n", rooms[0]);
    else
        put(rooms[room - 1], 0, rooms[room]);
    for (int door = 0; door < DOORS; door++)
        make_door(room, door);
    for (int i = 0; i < THINGS; i++) {
        unsigned thing = allocate(1);
        put(rooms[room], 1 + DOORS + i, thing);
        put_value(thing, 0, below(100));
        things[room * THINGS + i] = (place){thing, rooms[room], 1 + DOORS + i};
    }
}

/* The textures are a sink: every door points to them, and they are in no cluster. Slots 0 to 2 of the player are the bags, slot 3 is a spark. */
static void make_level(void)
{
    printf("# the textures and the player\n");
    textures = allocate(8);
    printf("sink %u\n", textures);
    player = allocate(4);
    printf("root 1 %u\n", player);
    for (int i = 0; i < BAGS; i++) {
        bags[i] = allocate(8);
        put(player, i, bags[i]);
    }
    for (int room = 0; room < ROOMS; room++)
        make_room(room);
}

/* A thing goes from where it is into a bag. What was in that place of the bag is lost. */
static void pick_up(void)
{
    place *from = &things[below(ROOMS * THINGS)];
    unsigned bag = bags[below(BAGS)], slot = below(8);

    if (from->thing == 0)
        return;
    for (int i = 0; i < ROOMS * THINGS; i++)
        if (things[i].holder == bag && things[i].slot == slot && &things[i] != from) {
            lost = things[i];
            things[i] = (place){0, 0, 0};
        }
    put(from->holder, from->slot, 0);
    put(bag, slot, from->thing);
    *from = (place){from->thing, bag, slot};
}

/* A door breaks: its room lets go of it, and nothing else leads there. */
static void break_door(void)
{
    int room = (int)below(ROOMS), door = (int)below(DOORS);

    if (doors[room][door] == 0)
        return;
    printf("# a door of room %d breaks\n", room);
    put(rooms[room], 1 + door, 0);
    doors[room][door] = switches[room][door] = 0;
}

static void turn_switch(void)
{
    int room = (int)below(ROOMS), door = (int)below(DOORS);

    if (switches[room][door] == 0)
        return;
    put_value(switches[room][door], 1, below(2));
    printf("read %u 0\n", switches[room][door]);
}

/* Every frame has a new spark for the old one, which is garbage then. */
static void make_frame(int frame)
{
    printf("# frame %d\n", frame);
    spark = allocate(2);
    put(spark, 0, player);
    put(player, 3, spark);
    for (int i = 0; i < 3; i++)
        turn_switch();
    pick_up();
    if (frame % 4 == 1)
        break_door();
    if (frame % 3 == 2)
        printf("show %u\n", bags[below(BAGS)]);
    if (frame % 10 == 9) /* the game still has the number of a thing that is lost, and asks for a slot that no thing has */
        printf("read %u 0\nread %u 4\nroot 64 1\n", lost.thing, things[0].thing == 0 ? spark : things[0].thing);
    if (frame % 5 == 0)
        printf("analyse\n");
    if (frame % 3 == 0)
        printf("collect %s\n", frame % 12 == 0 ? "plain" : "clusters");
}

int main(void)
{
    printf("# A generated level: %d rooms with doors and switches, a player with an inventory, %d frames.\n", ROOMS, FRAMES);
    printf("wrote 412\nloaded 415\ncreate 4095 64\n");
    make_level();
    printf("analyse\nanalyse\n");
    for (int frame = 1; frame <= FRAMES; frame++)
        make_frame(frame);
    printf("show %u\ncollect clusters\n", player);
    return 0;
}
