/* Two parties in two threads: threads TABLE ROOT_NAME ROOT_TYPE PAYLOAD [ROUNDS]. Each has a table of its own, sets its mark of each type by turns
 * and clears it, and reads after each setting; between, both read by one table that nobody changes. Every answer has to be the one that is got
 * alone. Exit status 1 where one is not. */
#define _XOPEN_SOURCE 700
#include <pthread.h>
#include "bim_table.h"
#include "io.h"

enum { THREADS = 2 };

struct answer {
    uint32_t number;
    uint8_t events[BIM_MOST_EVENTS * BIM_EVENT], texts[BIM_MOST_PAYLOAD], area[BIM_AREA];
};

static uint8_t shared[BIM_MOST_TABLE], payload[BIM_MOST_PAYLOAD];
static size_t table_bytes, payload_bytes;
static uint32_t root_name, root_type, rounds = 200;

static struct reader {
    uint32_t party;
    unsigned long calls, wrong;
    uint8_t table[BIM_MOST_TABLE];
    struct answer got, alone[BIM_MOST_TYPES][2], of_shared; /* by type and mark */
} readers[THREADS];

static void read_by(const uint8_t *table, uint32_t party, struct answer *answer)
{
    answer->number = bim_read(table, table_bytes, party, root_name, root_type, payload, payload_bytes, answer->events, sizeof answer->events,
                              answer->texts, sizeof answer->texts, answer->area, sizeof answer->area);
}

static int set_mark(struct reader *it, uint32_t type, uint32_t mark)
{
    uint8_t area[BIM_AREA];
    return bim_set_held(it->table, table_bytes, it->party, type, mark, area, sizeof area) == BIM_ACCEPTED;
}

/* Whether two answers are the same, byte for byte. */
static int same(const struct answer *one, const struct answer *other)
{
    return one->number == other->number && memcmp(one->events, other->events, sizeof one->events) == 0 &&
           memcmp(one->texts, other->texts, sizeof one->texts) == 0 && memcmp(one->area, other->area, sizeof one->area) == 0;
}

/* Every mark off and on again, from all on: what is read then, alone or beside the other. */
static void each_mark(struct reader *it, int alone)
{
    uint32_t type, mark;
    for (type = 0; type < bim_types(it->table); type++)
        for (mark = 0; mark < 2; mark++) {
            if (!set_mark(it, type, mark))
                it->wrong++;
            read_by(it->table, it->party, alone ? &it->alone[type][mark] : &it->got);
            if (!alone && !same(&it->got, &it->alone[type][mark]))
                it->wrong++;
            it->calls += 2;
        }
}

static void *run(void *reader)
{
    struct reader *it = (struct reader *)reader;
    uint32_t round;
    for (round = 0; round < rounds; round++) {
        each_mark(it, 0);
        read_by(shared, it->party, &it->got);
        it->wrong += !same(&it->got, &it->of_shared);
        it->calls++;
    }
    return NULL;
}

int main(int argc, char **argv)
{
    pthread_t threads[THREADS];
    unsigned long calls = 0, wrong = 0;
    uint32_t i, type, differ = 0;
    if (argc < 5 || argc > 6 || !number_of(argv[2], &root_name) || !number_of(argv[3], &root_type) ||
        (argc == 6 && !number_of(argv[5], &rounds))) {
        fprintf(stderr, "threads TABLE ROOT_NAME ROOT_TYPE PAYLOAD [ROUNDS]\n");
        return 2;
    }
    if (!read_file(argv[1], shared, sizeof shared, &table_bytes) || !read_file(argv[4], payload, sizeof payload, &payload_bytes))
        return 2;
    for (i = 0; i < THREADS; i++) {
        readers[i].party = i;
        memcpy(readers[i].table, shared, table_bytes);
        read_by(shared, i, &readers[i].of_shared);
        if (bim_check_table(shared, table_bytes, readers[i].got.area, BIM_AREA) != BIM_ACCEPTED)
            return 2;
        for (type = 0; type < bim_types(shared); type++)
            if (!set_mark(&readers[i], type, 1))
                readers[i].wrong++;
        each_mark(&readers[i], 1);
        for (type = 0; type < bim_types(shared); type++)
            differ += !same(&readers[i].alone[type][0], &readers[i].alone[type][1]);
    }
    for (i = 0; i < THREADS; i++)
        if (pthread_create(&threads[i], NULL, run, &readers[i]) != 0)
            abort();
    for (i = 0; i < THREADS; i++) {
        if (pthread_join(threads[i], NULL) != 0)
            abort();
        calls += readers[i].calls;
        wrong += readers[i].wrong;
    }
    /* Marks that bear on nothing would show nothing. */
    if (differ < 2 * THREADS)
        wrong++;
    printf("threads: %lu calls by %d parties, %lu marks that bear on what is read, %lu answers other than alone\n", calls, (int)THREADS,
           (unsigned long)differ, wrong);
    return wrong > 0;
}
