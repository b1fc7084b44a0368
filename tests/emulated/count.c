/* A plugin of qemu-x86_64 that counts as callgrind does for `make bench`: the instructions of some functions, with all that they call, written
 * out and begun anew where the program calls its mark. bin/valgrind builds it and says: functions=FILE,out=FILE. FILE has a line `start ADDRESS`,
 * then `mark|counted|other ADDRESS NAME` for every function, by address. A dump has the lines of callgrind's that peer/src/bin/speed and
 * tests/split read; what is outside the program is all called `libraries`. */
#include <inttypes.h>
#include <stdio.h>
#include <stdlib.h>
#include <string.h>

/* Of qemu's plugin interface, version 1, what is used; Debian has no header of it. */
struct qemu_plugin_tb;
struct qemu_plugin_insn;
extern void qemu_plugin_register_vcpu_tb_trans_cb(uint64_t, void (*)(uint64_t, struct qemu_plugin_tb *));
extern void qemu_plugin_register_vcpu_tb_exec_cb(struct qemu_plugin_tb *, void (*)(unsigned, void *), int, void *);
extern void qemu_plugin_register_vcpu_insn_exec_cb(struct qemu_plugin_insn *, void (*)(unsigned, void *), int, void *);
extern size_t qemu_plugin_tb_n_insns(const struct qemu_plugin_tb *);
extern uint64_t qemu_plugin_tb_vaddr(const struct qemu_plugin_tb *);
extern struct qemu_plugin_insn *qemu_plugin_tb_get_insn(const struct qemu_plugin_tb *, size_t);
extern const void *qemu_plugin_insn_data(const struct qemu_plugin_insn *);
extern size_t qemu_plugin_insn_size(const struct qemu_plugin_insn *);
extern uint64_t qemu_plugin_insn_vaddr(const struct qemu_plugin_insn *);
extern uint64_t qemu_plugin_start_code(void);
extern uint64_t qemu_plugin_end_code(void);
__attribute__((visibility("default"))) int qemu_plugin_version = 1;

enum { PAGE = 4096, LONGEST = 15 };
enum role { OTHER, COUNTED, MARK };
enum end { ON, CALL };
struct function {
    uint64_t address, own;
    enum role role;
    char name[256];
};
/* Instructions that run one after another to the last. */
struct block {
    struct function *in;
    uint64_t address, last, instructions;
    enum role begins;
    enum end end;
};

static struct function libraries = {0, 0, OTHER, "libraries"}, *functions;
static size_t function_count;
static uint64_t start, last_call, from;
static int counting, dumps;
static const char *out;

static void fail(const char *why)
{
    fprintf(stderr, "count: %s\n", why);
    exit(1);
}

static void dump(void)
{
    char name[4096];
    FILE *file;
    uint64_t all = libraries.own;
    size_t i;
    snprintf(name, sizeof name, "%s.%d", out, ++dumps);
    file = fopen(name, "w");
    if (file == NULL)
        fail("no place for a dump");
    fprintf(file, "fn=%s\n0 %" PRIu64 "\n", libraries.name, libraries.own);
    for (i = 0; i < function_count; i++)
        if (functions[i].own > 0) {
            fprintf(file, "fn=%s\n0 %" PRIu64 "\n", functions[i].name, functions[i].own);
            all += functions[i].own;
            functions[i].own = 0;
        }
    libraries.own = 0;
    fprintf(file, "totals: %" PRIu64 "\n", all);
    if (fclose(file) != 0)
        fail("a dump was not written");
}

/* A counted function is left where it goes back to: right behind the call that it came from. Calls and returns are not weighed against each
 * other, as a call over a page's end may be told twice. */
static void run(unsigned processor, void *at)
{
    struct block *block = at;
    (void)processor;
    if (block->begins == MARK)
        dump();
    if (counting && block->address > from && block->address - from <= LONGEST)
        counting = 0;
    if (!counting && block->begins == COUNTED) {
        counting = 1;
        from = last_call;
    }
    if (block->end == CALL)
        last_call = block->last;
    if (counting)
        block->in->own += block->instructions;
}

/* Whether an instruction calls (e8, ff /2), whatever its prefixes. */
static enum end end_of(const uint8_t *bytes, size_t size)
{
    while (size > 1 && (bytes[0] == 0x66 || bytes[0] == 0xf2 || bytes[0] == 0xf3 || bytes[0] == 0x3e || (bytes[0] & 0xf0) == 0x40)) {
        bytes++;
        size--;
    }
    if (bytes[0] == 0xe8 || (bytes[0] == 0xff && size > 1 && (bytes[1] >> 3 & 7) == 2))
        return CALL;
    return ON;
}

static struct function *function_at(uint64_t address)
{
    size_t low = 0, high = function_count;
    while (high - low > 1) {
        const size_t middle = low + (high - low) / 2;
        if (functions[middle].address <= address)
            low = middle;
        else
            high = middle;
    }
    return &functions[low];
}

static struct block *block_of(struct function *in, uint64_t address, uint64_t last, uint64_t instructions, enum role begins, enum end end)
{
    struct block *block = malloc(sizeof *block);
    if (block == NULL)
        fail("no memory");
    block->in = in;
    block->address = address;
    block->last = last;
    block->instructions = instructions;
    block->begins = begins;
    block->end = end;
    return block;
}

static void translated(uint64_t id, struct qemu_plugin_tb *tb)
{
    const uint64_t address = qemu_plugin_tb_vaddr(tb);
    uint64_t instructions = qemu_plugin_tb_n_insns(tb);
    struct qemu_plugin_insn *last = qemu_plugin_tb_get_insn(tb, instructions - 1);
    enum end end = end_of(qemu_plugin_insn_data(last), qemu_plugin_insn_size(last));
    const uint64_t call = qemu_plugin_insn_vaddr(last);
    enum role begins = OTHER;
    struct function *in = &libraries;
    (void)id;
    if (address >= qemu_plugin_start_code() && address < qemu_plugin_end_code()) {
        const uint64_t inside = address - qemu_plugin_start_code() + start;
        in = function_at(inside);
        if (in->address == inside)
            begins = in->role;
    }
    /* An instruction that goes over a page's end is told here up to that end, but runs in a block of its own: the last is counted where it runs. */
    if (instructions > 1 && (qemu_plugin_insn_vaddr(last) + qemu_plugin_insn_size(last)) % PAGE == 0) {
        qemu_plugin_register_vcpu_insn_exec_cb(last, run, 0, block_of(in, call, call, 1, OTHER, end));
        instructions--;
        end = ON;
    }
    qemu_plugin_register_vcpu_tb_exec_cb(tb, run, 0, block_of(in, address, call, instructions, begins, end));
}

static void read_functions(const char *name)
{
    static struct function read;
    char role[16];
    FILE *file = fopen(name, "r");
    if (file == NULL || fscanf(file, "start %" SCNx64, &start) != 1)
        fail("no functions");
    while (fscanf(file, "%15s %" SCNx64 " %255s", role, &read.address, read.name) == 3) {
        read.role = strcmp(role, "mark") == 0 ? MARK : strcmp(role, "counted") == 0 ? COUNTED : OTHER;
        functions = realloc(functions, (function_count + 1) * sizeof *functions);
        if (functions == NULL)
            fail("no memory");
        functions[function_count++] = read;
    }
    if (function_count == 0 || !feof(file))
        fail("functions are written otherwise");
    fclose(file);
}

__attribute__((visibility("default"))) int qemu_plugin_install(uint64_t id, const void *info, int argc, char **argv)
{
    int i;
    (void)info;
    for (i = 0; i < argc; i++)
        if (strncmp(argv[i], "functions=", 10) == 0)
            read_functions(argv[i] + 10);
        else if (strncmp(argv[i], "out=", 4) == 0)
            out = strdup(argv[i] + 4);
    if (function_count == 0 || out == NULL)
        fail("functions=FILE,out=FILE");
    qemu_plugin_register_vcpu_tb_trans_cb(id, translated);
    return 0;
}
