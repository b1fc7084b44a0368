/* Which receiver of a fleet holds what, by element, and what each makes of payloads: before a table is shipped. A receiver is a table and a party that
 * reads by it. */
#include "payloads.h"
#include "faults.h"
#include "names.h"
#include "reach.h"
#include "reading.h"

static const char usage[] = "[-n NAMES] [-p PARTY].. TABLE.. -- " PAYLOADS_USAGE;
static const char help[] =
    "Says which receiver holds what, by element, and what each makes of the payloads: how many it reads whole, with Blanks\n"
    "(of which elements, how many bits) or refuses, and where. A receiver is a TABLE and a PARTY, 0 where none is named;\n"
    "-p may stand several times. The tables need not be of one schema. NAMES has a number and its word on each line.\n"
    PAYLOADS_HELP
    "Without payloads, behind a root, it is told who holds what and no more.\n"
    "An element is, to a receiver:\n"
    "  held    all types that it may have are held\n"
    "  part    some of them are\n"
    "  BLANK   none is: it is a Blank, or refused 9 where it has no length\n"
    "  inside  it stands only inside elements whose types are not held\n"
    "  none    the table has no such element\n"
    "Exit status, the sum of those that apply:\n"
    "  0  every receiver reads every payload, without Blanks\n"
    "  1  some receiver refuses some, or a shelf is damaged\n"
    "  2  a wrong call, or a table is wrong, or a file could not be read or written\n"
    "  4  some receiver reads some with Blanks\n";
enum { STATUS_BLANKS = 4 };

/* What a receiver met, and how often: Blanks of an element and type; refusals 9 by place; other refusals by number. */
struct finding {
    struct finding *next;
    uint32_t number; /* BIM_ACCEPTED of Blanks */
    int has_name, has_type;
    uint32_t name, type;
    uint32_t open, path[BIM_MOST_NAMES]; /* of a refusal 9: the open elements */
    unsigned long count, payloads, last; /* how often, in how many payloads, and in which of them last */
    unsigned long long bits;
    char *first_path; /* of a refusal: where it was met first */
    struct origin first;
    uint32_t place;
};

/* How an element is held. The greatest that applies is told. */
enum { SEEN_NOWHERE, SEEN_INSIDE, SEEN_NOT_HELD = 2, SEEN_HELD = 4 };

struct receiver {
    struct receiver *next;
    const char *path;
    uint32_t party;
    const uint8_t *table;
    size_t table_bytes;
    unsigned long whole, with_blanks, by_number[64];
    struct finding *findings, **last;
    uint8_t seen[BIM_MOST_NAME + 1];
};

static struct receiver *receivers, **last_receiver = &receivers;
static int several_parties;
static unsigned long payloads, unreadable, damaged;
static int status = STATUS_DONE;

/* The roots that were met: a name of a type. */
static uint8_t roots[BIM_MOST_TYPES][BIM_MOST_NAME / 8 + 1];

static void meet_root(uint32_t name, uint32_t type)
{
    if (type < BIM_MOST_TYPES && name <= BIM_MOST_NAME)
        roots[type][name / 8] |= (uint8_t)(1u << name % 8);
}

static void *room_of(size_t count)
{
    void *room = calloc(1, count);
    if (room == NULL)
        abort();
    return room;
}

/* THE DRY RUN */

static int is_finding(const struct finding *one, const struct finding *other)
{
    return one->number == other->number && one->has_name == other->has_name && one->has_type == other->has_type && one->name == other->name &&
           one->type == other->type && one->open == other->open && memcmp(one->path, other->path, sizeof one->path) == 0;
}

/* The receiver's finding that is like this one, which is added where there is none. */
static struct finding *finding_like(struct receiver *by, const struct finding *like)
{
    struct finding *it;
    for (it = by->findings; it != NULL; it = it->next)
        if (is_finding(it, like))
            return it;
    it = (struct finding *)room_of(sizeof *it);
    *it = *like;
    *by->last = it;
    by->last = &it->next;
    return it;
}

static void count_finding(struct finding *it, uint32_t bits)
{
    it->count++;
    it->bits += bits;
    it->payloads += it->last != payloads;
    it->last = payloads;
}

static void take_blanks(struct receiver *by, const struct reading *it)
{
    struct finding like;
    uint32_t i;
    for (i = 0; i < bim_area_events(it->area); i++)
        if (bim_event_kind(it->events, i) == BIM_KIND_BLANK) {
            memset(&like, 0, sizeof like);
            like.has_name = like.has_type = 1;
            like.name = bim_event_p(it->events, i);
            like.type = bim_event_q(it->events, i);
            count_finding(finding_like(by, &like), bim_event_bits(it->events, i));
        }
}

/* Notes where a refusal was met first. */
static void note_first(struct finding *it, const struct origin *from, uint32_t place)
{
    const size_t length = strlen(from->path) + 1;
    it->first_path = (char *)room_of(length);
    memcpy(it->first_path, from->path, length);
    it->first = *from;
    it->first.path = it->first_path;
    it->place = place;
}

static void take_refusal(struct receiver *by, const struct reading *it, const struct origin *from)
{
    struct finding like, *found;
    uint32_t i;
    memset(&like, 0, sizeof like);
    like.number = it->number;
    if (it->number == BIM_NOT_HELD) {
        struct unheld unheld;
        find_unheld(it, &unheld);
        like.has_name = unheld.has_name;
        like.has_type = unheld.has_type;
        like.name = unheld.has_name ? unheld.name : 0;
        like.type = unheld.has_type ? unheld.type : 0;
        like.open = bim_area_names(it->area);
        for (i = 0; i < like.open; i++)
            like.path[i] = bim_area_name(it->area, i);
    }
    found = finding_like(by, &like);
    if (found->count == 0)
        note_first(found, from, bim_area_place(it->area));
    count_finding(found, 0);
}

/* One payload, read by every receiver. */
static void take_payload(const struct payload *found)
{
    static struct reading it;
    struct receiver *by;
    payloads++;
    meet_root(found->from.root_name, found->from.root_type);
    memcpy(it.payload, found->bytes, found->count);
    it.payload_bytes = found->count;
    it.root_name = found->from.root_name;
    it.root_type = found->from.root_type;
    for (by = receivers; by != NULL; by = by->next) {
        memcpy(it.table, by->table, by->table_bytes);
        it.table_bytes = by->table_bytes;
        it.party = by->party;
        read_payload(&it);
        by->by_number[it.number & 63]++;
        by->whole += it.number == BIM_ACCEPTED && it.blanks == 0;
        by->with_blanks += it.blanks > 0;
        if (it.number != BIM_ACCEPTED) {
            take_refusal(by, &it, &found->from);
            status |= STATUS_REFUSED;
        }
        if (it.blanks > 0) {
            take_blanks(by, &it);
            status |= STATUS_BLANKS;
        }
    }
    if (payloads % 1000 == 0)
        fprintf(stderr, "fleet: %lu payloads\n", payloads);
}

static void take_unreadable(const char *path, const char *why)
{
    (void)path; /* it has been said of it */
    (void)why;
    unreadable++;
    status |= STATUS_NO_GOOD;
}

static void take_refused_shelf(const char *path, uint32_t number, uint32_t block)
{
    complain(path, 0, "refused %lu, %s, at block %lu", (unsigned long)number, bim_refusal_name(number), (unsigned long)block);
    damaged++;
    status |= STATUS_REFUSED;
}

/* WHAT IS SAID */

/* "1 payload", "2 payloads". */
static void print_count(unsigned long count, const char *what) { printf("%lu %s%s", count, what, count == 1 ? "" : "s"); }

static void print_receiver(unsigned long which, const struct receiver *it)
{
    printf("receiver %lu, ", which);
    put_path(stdout, it->path);
    if (several_parties || it->party != 0)
        printf(", party %lu", (unsigned long)it->party);
}

/* "element rating, type 3", as far as it can be told. */
static void print_element(const struct finding *it)
{
    printf("element %s", it->has_name ? name_of(it->name) : "that cannot be told");
    if (it->has_type)
        printf(", type %lu", (unsigned long)it->type);
}

static void print_finding(const struct finding *it)
{
    uint32_t i;
    if (it->number == BIM_ACCEPTED) {
        fputs("  Blank, ", stdout);
        print_element(it);
        printf(": %lu in ", it->count);
        print_count(it->payloads, "payload");
        printf(", %llu bits\n", it->bits);
        return;
    }
    printf("  refused %lu, %s", (unsigned long)it->number, bim_refusal_name(it->number));
    if (it->number == BIM_NOT_HELD) {
        fputs(", ", stdout);
        print_element(it);
        for (i = 0; i < it->open; i++)
            printf("%s%s", i == 0 ? ", in " : "/", name_of(it->path[i]));
    }
    printf(": %lu, first ", it->count);
    put_origin(&it->first, put_word);
    if (has_place(it->number))
        printf(", at bit %lu", (unsigned long)it->place);
    putchar('\n');
}

static void print_dry_run(unsigned long which, const struct receiver *it)
{
    const struct finding *found;
    uint32_t number;
    putchar('\n');
    print_receiver(which, it);
    printf(": %lu read whole", it->whole);
    if (it->with_blanks > 0)
        printf(", %lu with Blanks", it->with_blanks);
    for (number = 1; number < 64; number++)
        if (it->by_number[number] > 0)
            printf(", %lu refused %lu", it->by_number[number], (unsigned long)number);
    putchar('\n');
    for (number = 0; number < 64; number++)
        for (found = it->findings; found != NULL; found = found->next)
            if (found->number == number)
                print_finding(found);
}

/* WHO HOLDS WHAT */

/* The elements in the order in which they are met, the first receiver's first. */
static uint32_t order[BIM_MOST_NAME + 1], elements;

static void meet(struct reach *it, uint32_t name, uint32_t type, int cast)
{
    struct receiver *by = (struct receiver *)it->whose;
    (void)cast;
    by->seen[name] |= (uint8_t)(!it->by_marks ? SEEN_INSIDE : bim_is_held(it->table, by->party, type) ? SEEN_HELD : SEEN_NOT_HELD);
}

/* Puts a name into the order, once. */
static void meet_in_order(struct reach *it, uint32_t name, uint32_t type, int cast)
{
    static uint8_t met[BIM_MOST_NAME + 1];
    if (!met[name])
        order[elements++] = name;
    met[name] = 1;
    meet(it, name, type, cast);
}

/* Goes through a receiver's table from every root that was met. */
static void look_through(struct receiver *by, int by_marks)
{
    static struct reach reach;
    uint32_t name, type;
    reach_begin(&reach, by->table);
    reach.by_marks = by_marks;
    reach.party = by->party;
    reach.meet = by_marks ? meet : meet_in_order;
    reach.whose = by;
    for (type = 0; type < bim_types(by->table); type++)
        for (name = 0; name <= BIM_MOST_NAME; name++)
            if (roots[type][name / 8] == 0)
                name |= 7; /* none of these eight */
            else if (roots[type][name / 8] >> name % 8 & 1)
                reach_root(&reach, name, type);
}

static const char *seen_in_words(uint8_t seen)
{
    return (seen & SEEN_HELD) != 0 ? (seen & SEEN_NOT_HELD) != 0 ? "part" : "held"
           : (seen & SEEN_NOT_HELD) != 0 ? "BLANK" : (seen & SEEN_INSIDE) != 0 ? "inside" : "none";
}

/* How many characters a word has. */
static size_t width_of(const char *word)
{
    size_t width = 0;
    for (; *word != '\0'; word++)
        width += ((uint8_t)*word & 0xc0) != 0x80;
    return width;
}

static void print_padded(const char *word, size_t width)
{
    size_t i;
    fputs(word, stdout);
    for (i = width_of(word); i < width; i++)
        putchar(' ');
}

/* A line for each element, a column for each receiver. */
static void print_elements(void)
{
    struct receiver *by;
    size_t width = strlen("element");
    unsigned long which;
    uint32_t i;
    for (by = receivers; by != NULL; by = by->next) {
        look_through(by, 0);
        look_through(by, 1);
    }
    for (i = 0; i < elements; i++)
        width = width < width_of(name_of(order[i])) ? width_of(name_of(order[i])) : width;
    print_padded("element", width);
    for (by = receivers, which = 1; by != NULL; by = by->next, which++)
        printf(by->next == NULL ? "  %lu" : "  %-6lu", which);
    putchar('\n');
    for (i = 0; i < elements; i++) {
        print_padded(name_of(order[i]), width);
        for (by = receivers; by != NULL; by = by->next)
            printf(by->next == NULL ? "  %s" : "  %-6s", seen_in_words(by->seen[order[i]]));
        putchar('\n');
    }
}

/* THE CALL */

/* A table file, and a receiver for each of these parties (a bit each). */
static int take_table(const char *path, uint32_t parties)
{
    static uint8_t bytes[BIM_MOST_TABLE + 4], area[BIM_AREA];
    uint8_t *table;
    size_t count;
    uint32_t party;
    if (!read_file(path, bytes, sizeof bytes, &count))
        return 0;
    if (bim_check_table(bytes, count, area, sizeof area) != BIM_ACCEPTED)
        return complain_of_table(path, bytes, count, bim_area_place(area));
    table = (uint8_t *)room_of(count);
    memcpy(table, bytes, count);
    for (party = 0; party < BIM_PARTIES; party++)
        if (parties >> party & 1) {
            struct receiver *it = (struct receiver *)room_of(sizeof *it);
            it->path = path;
            it->party = party;
            it->table = table;
            it->table_bytes = count;
            it->last = &it->findings;
            *last_receiver = it;
            last_receiver = &it->next;
        }
    return 1;
}

/* All of it; of payloads only where some were asked for. */
static void print_all(int asked)
{
    struct receiver *by;
    unsigned long which;
    for (by = receivers, which = 1; by != NULL; by = by->next, which++) {
        print_receiver(which, by);
        putchar('\n');
    }
    putchar('\n');
    print_elements();
    if (asked)
        for (by = receivers, which = 1; by != NULL; by = by->next, which++)
            print_dry_run(which, by);
    if (asked) {
        putchar('\n');
        print_count(payloads, "payload");
        if (unreadable > 0)
            printf(", %lu unreadable", unreadable);
        if (damaged > 0)
            printf(", %lu damaged %s", damaged, damaged == 1 ? "shelf" : "shelves");
        putchar('\n');
    }
}

int main(int argc, char **argv)
{
    struct call call = begin_call("fleet", usage, help, argc, argv);
    struct payloads asked = {0, 0, 0, 0, 0, take_payload, take_unreadable, take_refused_shelf};
    const char *value, *names_path = NULL, *path;
    uint32_t party, parties = 0;
    struct call tables;
    int good = 1;
    for (;;)
        if ((value = option_value(&call, "-n")) != NULL)
            names_path = value;
        else if ((value = option_value(&call, "-p")) != NULL) {
            good &= number_of(value, &party);
            parties |= good && party < BIM_PARTIES ? 1u << party : 1u << BIM_PARTIES;
        } else
            break;
    if (!options_end(&call) || !good)
        return wrong_call(&call);
    tables = call;
    while ((path = take_argument(&call)) != NULL && strcmp(path, "--") != 0)
        ;
    tables.left -= call.left + 1;
    if (path == NULL || tables.left == 0 || !payloads_called(&asked, &call, 0))
        return wrong_call(&call);
    if (parties >> BIM_PARTIES != 0) {
        complain("fleet", 0, "a party is 0 to %d", BIM_PARTIES - 1);
        return finish(STATUS_NO_GOOD);
    }
    several_parties = parties != 0 && (parties & (parties - 1)) != 0;
    if (names_path != NULL && !read_names(names_path))
        return finish(STATUS_NO_GOOD);
    while ((path = take_argument(&tables)) != NULL)
        good &= take_table(path, parties == 0 ? 1 : parties);
    if (!good)
        return finish(STATUS_NO_GOOD);
    if (asked.has_root)
        meet_root(asked.root_name, asked.root_type);
    take_payloads(&asked, &call);
    if (asked.unlisted)
        status |= STATUS_NO_GOOD;
    print_all(call.left > 0);
    return finish(status);
}
