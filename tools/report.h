/* A report as text: for people, for machines, and as a page for a browser. */
#ifndef REPORT_H
#define REPORT_H

#include "bim.h"
#include "io.h"
#include "names.h"

/* The answers that a report counts. */
enum { MOST_ANSWERS = 64 };

/* A number in decimal; %llu is as wide as C99 says, and no wider is needed. */
static inline unsigned long long ull(uint64_t number)
{
    return (unsigned long long)number;
}

/* The next row of those that are printed, from line r on: the lines that were seen, then other where it was; 0 where there is none. The name is
 * good until some more are asked for. */
static inline int report_row(const uint8_t *report, size_t *r, struct bim_report_line *line, const char **name)
{
    while (*r < BIM_REPORT_LINES) {
        *line = bim_report_row(report, (*r)++);
        if (line->seen > 0) {
            *name = name_of((uint32_t)line->name);
            return 1;
        }
    }
    if ((*r)++ > BIM_REPORT_LINES)
        return 0;
    *line = bim_report_other(report);
    *name = "other";
    return line->seen > 0;
}

/* What all elements have together. */
static inline struct bim_report_line report_sums(const uint8_t *report)
{
    struct bim_report_line all = {0, 0, 0, 0}, line;
    const char *name;
    size_t r = 0;
    while (report_row(report, &r, &line, &name)) {
        all.seen += line.seen;
        all.own += line.own;
        all.blanked += line.blanked;
    }
    return all;
}

static inline uint64_t report_refused(const uint8_t *report)
{
    uint64_t count = 0;
    uint32_t number;
    for (number = 1; number < MOST_ANSWERS; number++)
        count += bim_report_answered(report, number);
    return count;
}

static inline void people_line(FILE *out, const char *name, struct bim_report_line line)
{
    fprintf(out, "%-20s %20llu %20llu %20llu\n", name, ull(line.seen), ull(line.own), ull(line.blanked));
}

/* The table for people. */
static inline void report_for_people(FILE *out, const uint8_t *report)
{
    struct bim_report_line line;
    const uint64_t bytes = bim_report_total(report) / 8, payloads = bim_report_answered(report, BIM_ACCEPTED);
    const char *name;
    uint32_t number;
    size_t r = 0;
    fprintf(out, "%-20s %20s %20s %20s\n", "element", "seen", "own bits", "blanked bits");
    while (report_row(report, &r, &line, &name))
        people_line(out, name, line);
    people_line(out, "all elements", report_sums(report));
    fprintf(out, "%-20s %20s %20llu\n", "mode bytes", "", ull(bim_report_mode(report)));
    fprintf(out, "%-20s %20s %20llu\n", "padding", "", ull(bim_report_padding(report)));
    fprintf(out, "%-20s %20s %20llu bits, %llu byte%s in %llu payload%s\n", "total", "", ull(bim_report_total(report)), ull(bytes),
            bytes == 1 ? "" : "s", ull(payloads), payloads == 1 ? "" : "s");
    for (number = 1; number < MOST_ANSWERS; number++)
        if (bim_report_answered(report, number) > 0)
            fprintf(out, "refused %lu: %llu\n", (unsigned long)number, ull(bim_report_answered(report, number)));
    if (bim_report_stopped(report))
        fprintf(out, "stopped: a total would pass 64 bits\n");
}

/* The rows for machines: a word, then numbers, with tabs between them. Names are numbers here. */
static inline void report_for_machines(FILE *out, const uint8_t *report)
{
    const struct bim_report_line other = bim_report_other(report);
    uint32_t number;
    size_t r;
    for (r = 0; r < BIM_REPORT_LINES; r++) {
        const struct bim_report_line line = bim_report_row(report, r);
        if (line.seen > 0)
            fprintf(out, "name\t%llu\t%llu\t%llu\t%llu\n", ull(line.name), ull(line.seen), ull(line.own), ull(line.blanked));
    }
    fprintf(out, "other\t%llu\t%llu\t%llu\n", ull(other.seen), ull(other.own), ull(other.blanked));
    fprintf(out, "mode\t%llu\n", ull(bim_report_mode(report)));
    fprintf(out, "padding\t%llu\n", ull(bim_report_padding(report)));
    fprintf(out, "total\t%llu\n", ull(bim_report_total(report)));
    for (number = 0; number < MOST_ANSWERS; number++)
        if (number == BIM_ACCEPTED || bim_report_answered(report, number) > 0)
            fprintf(out, "payloads\t%lu\t%llu\n", (unsigned long)number, ull(bim_report_answered(report, number)));
    fprintf(out, "stopped\t%d\n", bim_report_stopped(report));
}

/* Text between tags, or in an attribute. */
static inline void page_text(FILE *out, const char *text)
{
    for (; *text != '\0'; text++)
        switch (*text) {
        case '&': fputs("&amp;", out); break;
        case '<': fputs("&lt;", out); break;
        case '>': fputs("&gt;", out); break;
        case '"': fputs("&quot;", out); break;
        default: putc(*text, out);
        }
}

/* A number with its thousands apart, as an eye wants them. */
static inline void page_number(FILE *out, uint64_t number)
{
    char digits[24];
    const int length = snprintf(digits, sizeof digits, "%llu", ull(number));
    int i;
    for (i = 0; i < length; i++) {
        if (i > 0 && (length - i) % 3 == 0)
            putc(',', out);
        putc(digits[i], out);
    }
}

/* How many percent a part is of a whole; none of nothing. */
static inline double part_of(uint64_t part, uint64_t whole)
{
    return whole == 0 ? 0 : 100 * (double)part / (double)whole;
}

/* A piece of a bar; a part of nothing takes no room. */
static inline void page_piece(FILE *out, const char *sort, const char *words, uint64_t bits, uint64_t whole)
{
    if (bits == 0)
        return;
    fprintf(out, "<i class=\"%s\" style=\"width:%.4f%%\" title=\"", sort, part_of(bits, whole));
    page_number(out, bits);
    fprintf(out, " bits %s\"></i>", words);
}

/* A row of numbers; what is no column of it stays empty. */
static inline void page_cells(FILE *out, const uint64_t *numbers, const char *shown)
{
    size_t i;
    for (i = 0; shown[i] != '\0'; i++) {
        fputs("<td>", out);
        if (shown[i] == '+')
            page_number(out, numbers[i]);
        fputs("</td>", out);
    }
}

/* One that stands for a sort of bits in the sum. */
static inline void page_term(FILE *out, const char *before, uint64_t bits, const char *sort, const char *words)
{
    fprintf(out, "%s<span class=\"term\"><i class=\"%s\"></i><b>", before, sort);
    page_number(out, bits);
    fprintf(out, "</b> %s</span>\n", words);
}

/* Larger lines first; those of one size stay in order of first sight, which their index tells. */
struct page_row {
    struct bim_report_line line;
    size_t index;
};

static inline int page_order(const void *one, const void *other)
{
    const struct page_row *a = (const struct page_row *)one, *b = (const struct page_row *)other;
    const uint64_t mine = a->line.own + a->line.blanked, theirs = b->line.own + b->line.blanked;
    return mine != theirs ? (mine < theirs ? 1 : -1) : a->index > b->index ? 1 : -1;
}

static const char page_head[] =
    "<!DOCTYPE html>\n<html lang=\"en\">\n<head>\n<meta charset=\"utf-8\">\n"
    "<meta http-equiv=\"Content-Security-Policy\" content=\"default-src 'none'; style-src 'unsafe-inline'\">\n"
    "<meta name=\"viewport\" content=\"width=device-width, initial-scale=1\">\n<title>Where the bits go</title>\n<style>\n"
    ":root { color-scheme: light dark; --own: #1f6fb4; --blanked: #e08a1e; --mode: #6b7480; --padding: #b4bac2; --line: #d5d9de; --bad: #b3261e }\n"
    "@media (prefers-color-scheme: dark) { :root { --own: #5ba4e6; --blanked: #f0a848; --mode: #98a1ad; --padding: #5c636c; --line: #41474f; --bad: #ff8a80 } }\n"
    "body { font: 15px/1.5 system-ui, sans-serif; max-width: 64rem; margin: 2rem auto; padding: 0 1rem }\n"
    "h1 { font-size: 1.6rem; margin: 0 } h2 { font-size: 1.15rem; margin: 2rem 0 .5rem } p { margin: .4rem 0 }\n"
    "i { display: inline-block } .own { background: var(--own) } .blanked { background: var(--blanked) }\n"
    ".mode { background: var(--mode) } .padding { background: var(--padding) }\n"
    ".bar { display: flex; height: .9rem; min-width: 8rem } .bar i { flex: none } .whole { height: 2rem; margin: .6rem 0 }\n"
    ".term { white-space: nowrap } .term i { width: .8rem; height: .8rem; margin-right: .35rem }\n"
    ".sum { font-variant-numeric: tabular-nums }\n.scroll { overflow-x: auto }\n"
    "table { border-collapse: collapse; width: 100%; font-variant-numeric: tabular-nums }\n"
    "th, td { padding: .2rem .6rem; text-align: right; border-bottom: 1px solid var(--line); white-space: nowrap }\n"
    "th:first-child, td.words { text-align: left } th.bars, td.bars { width: 45%; text-align: left }\n"
    "td.words { white-space: normal } tfoot th, tfoot td { font-weight: 600 } .bad { color: var(--bad); font-weight: 600 }\n"
    "</style>\n</head>\n<body>\n<h1>Where the bits go</h1>\n";

/* One page that needs nothing from elsewhere: the whole as a bar and as a sum, the elements by size, the refused payloads. What it is of is told in
 * words; a note, where there is one, is a warning. */
static inline void report_as_page(FILE *out, const uint8_t *report, const char *of, const char *note)
{
    static struct page_row rows[BIM_REPORT_LINES + 2]; /* the lines, other, and the one that is asked for in vain */
    const struct bim_report_line all = report_sums(report);
    const uint64_t total = bim_report_total(report), mode = bim_report_mode(report), padding = bim_report_padding(report);
    const uint64_t payloads = bim_report_answered(report, BIM_ACCEPTED), refused = report_refused(report);
    uint64_t cells[4], longest;
    size_t count = 0, r = 0;
    uint32_t number;
    const char *name;
    while (report_row(report, &r, &rows[count].line, &name)) {
        rows[count].index = count;
        count++;
    }
    qsort(rows, count, sizeof rows[0], page_order);
    longest = count > 0 ? rows[0].line.own + rows[0].line.blanked : 0;
    fputs(page_head, out);
    fputs("<p>", out);
    page_text(out, of);
    fputs("</p>\n", out);
    if (note[0] != '\0') {
        fputs("<p class=\"bad\">", out);
        page_text(out, note);
        fputs("</p>\n", out);
    }
    if (bim_report_stopped(report))
        fputs("<p class=\"bad\">Stopped: a total would pass 64 bits. What follows is of the payloads before that.</p>\n", out);
    fputs("<h2>All bits</h2>\n<div class=\"bar whole\" id=\"whole\">", out);
    page_piece(out, "own", "of elements", all.own, total);
    page_piece(out, "blanked", "of elements stepped over", all.blanked, total);
    page_piece(out, "mode", "of mode bytes", mode, total);
    page_piece(out, "padding", "of padding", padding, total);
    fputs("</div>\n<p class=\"sum\" id=\"sum\">", out);
    page_term(out, "", all.own, "own", "own");
    page_term(out, "+ ", all.blanked, "blanked", "blanked");
    page_term(out, "+ ", mode, "mode", "mode bytes");
    page_term(out, "+ ", padding, "padding", "padding");
    fputs("= <b>", out);
    page_number(out, total);
    fputs("</b> bits = 8 &times; ", out);
    page_number(out, total / 8);
    fprintf(out, " byte%s in ", total / 8 == 1 ? "" : "s");
    page_number(out, payloads);
    fprintf(out, " payload%s</p>\n", payloads == 1 ? "" : "s");
    fputs("<h2>By element</h2>\n<div class=\"scroll\"><table id=\"elements\">\n<thead><tr><th>element</th><th>seen</th><th>own bits</th>"
          "<th>blanked bits</th><th>share</th><th class=\"bars\">own and blanked</th></tr></thead>\n<tbody>\n", out);
    for (r = 0; r < count; r++) {
        const struct bim_report_line line = rows[r].line;
        const int other = rows[r].index == count - 1 && bim_report_other(report).seen > 0;
        cells[0] = line.seen;
        cells[1] = line.own;
        cells[2] = line.blanked;
        fputs("<tr><th>", out);
        page_text(out, other ? "other" : name_of((uint32_t)line.name));
        fputs("</th>", out);
        page_cells(out, cells, "+++");
        fprintf(out, "<td>%.1f%%</td><td class=\"bars\"><div class=\"bar\">", part_of(line.own + line.blanked, total));
        page_piece(out, "own", "own", line.own, longest);
        page_piece(out, "blanked", "blanked", line.blanked, longest);
        fputs("</div></td></tr>\n", out);
    }
    fputs("</tbody>\n<tfoot>\n<tr><th>all elements</th>", out);
    cells[0] = all.seen;
    cells[1] = all.own;
    cells[2] = all.blanked;
    page_cells(out, cells, "+++");
    fprintf(out, "<td>%.1f%%</td><td class=\"bars\"></td></tr>\n<tr><th>mode bytes</th>", part_of(all.own + all.blanked, total));
    cells[1] = mode;
    page_cells(out, cells, "-+-");
    fprintf(out, "<td>%.1f%%</td><td class=\"bars\"></td></tr>\n<tr><th>padding</th>", part_of(mode, total));
    cells[1] = padding;
    page_cells(out, cells, "-+-");
    fprintf(out, "<td>%.1f%%</td><td class=\"bars\"></td></tr>\n<tr><th>total</th>", part_of(padding, total));
    cells[1] = total;
    page_cells(out, cells, "-+-");
    fprintf(out, "<td>%.1f%%</td>", part_of(all.own + all.blanked + mode + padding, total));
    fputs("<td class=\"bars\"></td></tr>\n</tfoot>\n</table></div>\n<h2>Refused payloads</h2>\n", out);
    if (refused == 0)
        fputs("<p id=\"refused\">None.</p>\n", out);
    else {
        fputs("<div class=\"scroll\"><table id=\"refused\">\n<thead><tr><th>number</th><th>payloads</th><th class=\"bars\">why</th></tr></thead>\n<tbody>\n", out);
        for (number = 1; number < MOST_ANSWERS; number++)
            if (bim_report_answered(report, number) > 0) {
                fprintf(out, "<tr><th>%lu</th><td>", (unsigned long)number);
                page_number(out, bim_report_answered(report, number));
                fputs("</td><td class=\"words\">", out);
                page_text(out, bim_refusal_name(number));
                fputs("</td></tr>\n", out);
            }
        fputs("</tbody>\n</table></div>\n", out);
    }
    fputs("</body>\n</html>\n", out);
}

#endif
