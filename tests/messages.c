/* The C calls of the start-up message in buffers of exactly the bytes lent: messages [--heap] VECTORS, as `exact` has the others. Every vector of
 * examples/messages.txt is asked as it stands, in just enough room, in a byte less and more, with areas of other sizes, and cut short. With
 * --rows it prints, of each call and number, the first vector that shows it: the rows of docs/REFUSALS.md.
 * Exit status 1 where an answer is not the vector's. */
#define _DEFAULT_SOURCE
#include "lent.h"
#include "message_vector.h"

static unsigned long calls, failed;
static struct message_vector now;

static void wrong(const char *why)
{
    if (failed++ < 20)
        printf("%s: %s\n", now.name, why);
}

/* What is asked of the vector: its own rooms or others, all of its message or the begin, and the number that the answer has to be. */
struct trial {
    size_t message_bytes, given_bytes, room, area_room;
    int number; /* -1 for any refusal */
};

static uint32_t read_once(const struct trial *it, enum place place, uint8_t *init)
{
    uint8_t *message = lend(place, 0, it->message_bytes, now.message.at), *codecs = lend(place, 1, it->room, NULL);
    const uint32_t number = bim_init_read(message, it->message_bytes, codecs, it->room, init, it->area_room);
    if (number != BIM_ACCEPTED && !all_zero(codecs, it->room))
        wrong("a refusal left words of codecs");
    if (number == BIM_ACCEPTED && !(is(codecs, it->room, now.codecs.at, now.codecs.length) && is(init, it->area_room, now.init.at, now.init.length)))
        wrong("other words");
    give_back(place, 0, message);
    give_back(place, 1, codecs);
    return number;
}

static uint32_t write_once(const struct trial *it, enum place place, uint8_t *area)
{
    uint8_t *init = lend(place, 0, now.init.length, now.init.at), *codecs = lend(place, 1, now.codecs.length, now.codecs.at);
    uint8_t *given = lend(place, 2, it->given_bytes, now.given.at), *message = lend(place, 3, it->room, NULL);
    const uint32_t number = bim_init_write(init, now.init.length, codecs, now.codecs.length, given, it->given_bytes, message, it->room, area,
                                           it->area_room);
    if (number != BIM_ACCEPTED && !all_zero(message, it->room))
        wrong("a refusal left bytes");
    if (number == BIM_ACCEPTED && !(is(message, it->room, now.message.at, now.message.length) && bim_init_area_bytes(area) == now.message.length))
        wrong("another message");
    give_back(place, 0, init);
    give_back(place, 1, codecs);
    give_back(place, 2, given);
    give_back(place, 3, message);
    return number;
}

static void ask(const struct trial *it)
{
    const size_t right = now.writes ? BIM_INIT_AREA : BIM_INIT;
    int place;
    for (place = 0; place < places; place++) {
        uint8_t *area = lend((enum place)place, 4, it->area_room, NULL);
        const uint32_t number = now.writes ? write_once(it, (enum place)place, area) : read_once(it, (enum place)place, area);
        calls++;
        if (it->number >= 0 ? number != (uint32_t)it->number : number == BIM_ACCEPTED)
            wrong("another number");
        if (number == now.number && it->area_room == right && it->number == (int)now.number && bim_word(area) != now.place)
            wrong("another place");
        if (number == BIM_AREA_SIZE ? !all_zero(area, it->area_room) : number != BIM_ACCEPTED && !all_zero(area + 4, it->area_room - 4))
            wrong("a refusal left words");
        give_back((enum place)place, 4, area);
    }
}

static struct trial as_it_is(void)
{
    struct trial it;
    it.message_bytes = now.message.length;
    it.given_bytes = now.given.length;
    it.room = now.room;
    it.area_room = now.writes ? BIM_INIT_AREA : BIM_INIT;
    it.number = (int)now.number;
    return it;
}

/* Just enough room, a byte more and a byte less. */
static void ask_rooms(void)
{
    const size_t enough = now.writes ? now.message.length : now.codecs.length;
    struct trial it = as_it_is();
    it.room = enough;
    ask(&it);
    it.room = enough + 1;
    ask(&it);
    it.room = enough - 1;
    it.number = now.writes ? BIM_PAYLOAD_ROOM : BIM_EVENT_ROOM;
    if (enough > 0)
        ask(&it);
}

/* Areas of other sizes; an accepted message cut short at every byte, or what is given. */
static void ask_others(void)
{
    static const size_t areas[] = {0, 1, 4, 7, 9, 12, 127, 129, 152};
    struct trial it = as_it_is();
    size_t i;
    it.number = BIM_AREA_SIZE;
    for (i = 0; i < sizeof areas / sizeof areas[0]; i++) {
        it.area_room = areas[i];
        ask(&it);
    }
    it = as_it_is();
    if (now.number == BIM_ACCEPTED && !now.writes) {
        it.number = BIM_PAST_END;
        for (i = 0; i < now.message.length; i += i < 40 ? 1 : 997) {
            it.message_bytes = i;
            ask(&it);
        }
    } else if (now.number == BIM_ACCEPTED) {
        it.given_bytes = 0;
        it.number = BIM_TEXT_BYTES;
        ask(&it);
    }
}

/* A row of the document, once for each call and number. */
static void print_row(void)
{
    static unsigned char shown[2][64];
    size_t i;
    if (now.number == BIM_ACCEPTED || now.number >= sizeof shown[0] || shown[now.writes][now.number]++ > 0)
        return;
    printf("| %lu | %s | %s | ", (unsigned long)now.number, bim_refusal_name(now.number), now.name);
    if (now.writes)
        printf("`bim_init_write` | %lu at word %lu |\n", (unsigned long)now.number, (unsigned long)now.place);
    else {
        printf("`");
        for (i = 0; i < now.message.length; i++)
            printf("%02x", now.message.at[i]);
        printf("%s`, %lu words lent | %lu at bit %lu |\n", now.message.length == 0 ? "-" : "", (unsigned long)(now.room / 4),
               (unsigned long)now.number, (unsigned long)now.place);
    }
}

int main(int argc, char **argv)
{
    unsigned long vectors = 0;
    const int rows = argc == 3 && strcmp(argv[1], "--rows") == 0, heap = argc == 3 && strcmp(argv[1], "--heap") == 0;
    FILE *file;
    if (argc != 2 + rows + heap || (file = fopen(argv[argc - 1], "r")) == NULL) {
        fprintf(stderr, "messages [--heap | --rows] VECTORS\n");
        return 2;
    }
    if (heap)
        places = HEAP + 1;
    make_arenas();
    if (rows)
        printf("| no. | refused because | shown by | message | answer |\n|---|---|---|---|---|\n");
    while (next_message(file, &now)) {
        const struct trial it = as_it_is();
        vectors++;
        ask(&it);
        if (rows)
            print_row();
        if (rows)
            continue;
        if (now.number == BIM_ACCEPTED)
            ask_rooms();
        ask_others();
    }
    fclose(file);
    if (!rows || failed > 0)
        printf("messages: %lu vectors, %lu calls in buffers of exactly the bytes lent, %lu otherwise than expected\n", vectors, calls, failed);
    return failed > 0 || vectors == 0;
}
