/* From a start-up message to a reading, with nothing typed in by hand:
 *
 *     startup CATALOGUE MESSAGE PAYLOAD..
 *
 * The message says of which schema the stream is; the catalogue has, of each schema that this receiver knows, a line
 *
 *     URI TABLE ROOT_NAME ROOT_TYPE
 *
 * with the table's file beside the catalogue; and by that table the payloads are read. A stream that is coded otherwise than this library reads
 * is declined before a payload of it is touched. */
#include "../tools/faults.h"
#include "../tools/texts.h"

static const char usage[] = "CATALOGUE MESSAGE PAYLOAD..";
static const char help[] =
    "Reads payloads of the stream that a start-up message begins, by the table that the catalogue has for its schema:\n"
    "of each schema a line URI TABLE ROOT_NAME ROOT_TYPE, with the table's file beside the catalogue.\n"
    "Exit status:\n"
    "  0  all were read\n"
    "  1  something was refused, or the stream is coded otherwise than can be read here, or its schema is not known\n"
    "  2  a wrong call, or the catalogue or a table is wrong, or a file could not be read or written\n";

/* A schema of the catalogue. */
struct schema {
    char table[512];
    uint32_t root_name, root_type;
};

/* Nobody's message is longer here; this receiver has no codecs, and lends no room for any. */
static uint8_t message[65536 + 1], init[BIM_INIT];
static uint8_t table[BIM_MOST_TABLE + 4], payload[BIM_MOST_PAYLOAD + 1];
static uint8_t events[BIM_MOST_EVENTS * BIM_EVENT], texts[BIM_MOST_PAYLOAD], area[BIM_AREA];

/* Why a stream cannot be read here, though its message is right; null where it can. */
static const char *why_not(void)
{
    const uint32_t flags = bim_init_flags(init);
    if (bim_init_unit(init) != 0)
        return "it has units of another size";
    if (bim_init_first_stepped(init))
        return "it has a context path table";
    if (flags & BIM_FRAGMENT_REFERENCE_FLAG)
        return "it refers to fragments";
    if (flags & BIM_HIERARCHY_FLAG)
        return "it codes substitutions by hierarchy";
    /* The other flags are about positions, which stand outside of payloads. */
    return bim_init_schemas(init) > 1 ? "it is of more than one schema" : NULL;
}

/* The message's schema in the catalogue: 1 found, 0 not; -1, and a sentence, where a line is no good. */
static int look_up(const char *path, struct schema *schema)
{
    const bim_stretch uri = bim_init_uri(init, 0);
    char line[1024], name[512], root_name[16], root_type[16], extra;
    struct lines lines;
    int more = open_lines(&lines, path, '\n') ? 1 : -1, found = 0;
    while (more > 0 && !found && (more = take_line(&lines, line, sizeof line)) > 0) {
        if (line[0] == '#' || line[0] == '\0')
            continue;
        if (sscanf(line, "%511s %511s %15s %15s %c", name, schema->table, root_name, root_type, &extra) != 4 ||
            !number_of(root_name, &schema->root_name) || !number_of(root_type, &schema->root_type))
            more = complain(path, lines.number, "no URI, table, root name and root type") - 1;
        else
            found = strlen(name) == uri.bytes && memcmp(name, message + uri.place, uri.bytes) == 0;
    }
    if (lines.file != NULL)
        close_lines(&lines);
    return more < 0 ? -1 : found;
}

/* The table that the catalogue names, from beside it. */
static int read_table(const char *catalogue, const struct schema *schema, size_t *bytes)
{
    char path[2048];
    const char *slash = strrchr(catalogue, '/');
    const size_t folder = slash == NULL ? 0 : (size_t)(slash + 1 - catalogue);
    if (folder + strlen(schema->table) >= sizeof path)
        return complain(catalogue, 0, "too long a path");
    memcpy(path, catalogue, folder);
    strcpy(path + folder, schema->table);
    if (!read_file(path, table, sizeof table, bytes))
        return 0;
    if (bim_check_table(table, *bytes, area, sizeof area) != BIM_ACCEPTED) {
        complain_of_table(path, table, *bytes, bim_area_place(area));
        return 0;
    }
    return 1;
}

static int refused(const char *path, uint32_t number, uint32_t place)
{
    put_path(stdout, path);
    printf(": refused %lu, %s, at bit %lu\n", (unsigned long)number, bim_refusal_name(number), (unsigned long)place);
    return STATUS_REFUSED;
}

static int declined(const char *path, const char *why)
{
    put_path(stdout, path);
    printf(": declined: %s\n", why);
    return STATUS_REFUSED;
}

/* 1. The message. */
static int read_message(const char *path)
{
    size_t bytes;
    uint32_t number;
    const char *why;
    if (!read_file(path, message, sizeof message, &bytes))
        return STATUS_NO_GOOD;
    if (bytes == sizeof message)
        return declined(path, "it has over 65536 bytes");
    number = bim_init_read(message, bytes, NULL, 0, init, sizeof init);
    if (number == BIM_EVENT_ROOM)
        return declined(path, "types of it have codecs of their own");
    if (number != BIM_ACCEPTED)
        return refused(path, number, bim_init_place(init));
    why = why_not();
    return why == NULL ? STATUS_DONE : declined(path, why);
}

/* 2. The table of its schema. */
static int find_table(const char *catalogue, const char *path, struct schema *schema, size_t *bytes)
{
    const bim_stretch uri = bim_init_uri(init, 0);
    const int found = look_up(catalogue, schema);
    if (found < 0)
        return STATUS_NO_GOOD;
    put_path(stdout, path);
    printf(": schema ");
    show_text(message + uri.place, uri.bytes);
    if (!found) {
        printf(", which is not known here\n");
        return STATUS_REFUSED;
    }
    printf(", table ");
    put_path(stdout, schema->table);
    printf(", root %lu of type %lu\n", (unsigned long)schema->root_name, (unsigned long)schema->root_type);
    return read_table(catalogue, schema, bytes) ? STATUS_DONE : STATUS_NO_GOOD;
}

/* 3. A payload of it. */
static int read_payload(const char *path, const struct schema *schema, size_t table_bytes)
{
    size_t bytes;
    uint32_t number;
    if (!read_file(path, payload, sizeof payload, &bytes))
        return STATUS_NO_GOOD;
    number = bim_read(table, table_bytes, 0, schema->root_name, schema->root_type, payload, bytes, events, sizeof events, texts, sizeof texts,
                      area, sizeof area);
    if (number != BIM_ACCEPTED)
        return refused(path, number, bim_area_place(area));
    put_path(stdout, path);
    printf(": %lu events, %lu text bytes, %lu bits\n", (unsigned long)bim_area_events(area), (unsigned long)bim_area_text(area),
           (unsigned long)bim_area_bits(area));
    return STATUS_DONE;
}

int main(int argc, char **argv)
{
    struct call call = begin_call("startup", usage, help, argc, argv);
    struct schema schema;
    size_t table_bytes;
    int status, i;
    if (!options_end(&call) || call.left < 2)
        return wrong_call(&call);
    status = read_message(call.next[1]);
    if (status == STATUS_DONE)
        status = find_table(call.next[0], call.next[1], &schema, &table_bytes);
    if (status != STATUS_DONE)
        return finish(status);
    for (i = 2; i < call.left && status != STATUS_NO_GOOD; i++) {
        const int one = read_payload(call.next[i], &schema, table_bytes);
        status = one > status ? one : status;
    }
    return finish(status);
}
