#include "spell.h"
#include "fields.h"

static void add(struct Line *line, const struct History *history, uint32_t n, int inner);

static void add_field(struct Line *line, struct Field field) { line_add_bytes(line, field.at, field.length); }

/* `540..600`, or `540..1080 without 720..779`. */
static void add_window(struct Line *line, const struct Field *fields) {
    add_field(line, fields[0]);
    line_add(line, "..");
    add_field(line, fields[1]);
    if (is(fields[3], "0")) return;
    line_add(line, " without ");
    add_field(line, fields[2]);
    line_add(line, "..");
    add_field(line, fields[3]);
}

/* A part stands before the wording, so this comes to an end. */
static void add_whole(struct Line *line, const struct History *history, uint32_t n, struct Field field, int inner) {
    uint32_t part;
    if (!number(field, WORDINGS - 1, &part) || part >= n) line_add(line, "?");
    else if (line->length < LINE_MOST) add(line, history, part, inner);
}

static void add_part(struct Line *line, const struct History *history, uint32_t n, struct Field field) {
    add_whole(line, history, n, field, 1);
}

static void add_atom(struct Line *line, const struct Field *fields) {
    if (is(fields[1], "1")) line_add(line, "seat ");
    else if (is(fields[1], "2")) line_add(line, "place ");
    else {
        line_add(line, "p");
        add_field(line, fields[1]);
        line_add(line, " ");
    }
    add_field(line, fields[2]);
}

/* `place 7 holder 12`; holder 0 is the one that `q` binds. */
static void add_named(struct Line *line, const struct Field *fields) {
    add_atom(line, fields);
    line_add(line, " holder ");
    add_field(line, fields[3]);
}

/* `every holder: <1>seat 7 -o place 7 holder 0` */
static void add_every(struct Line *line, const struct History *history, uint32_t n, struct Field field, int inner) {
    if (inner) line_add(line, "(");
    line_add(line, "every holder: ");
    add_whole(line, history, n, field, 0);
    if (inner) line_add(line, ")");
}

static void add_pair(struct Line *line, const struct History *history, uint32_t n, const struct Field *fields,
                     const char *sign, int inner) {
    if (inner) line_add(line, "(");
    add_part(line, history, n, fields[1]);
    line_add(line, " %s ", sign);
    add_part(line, history, n, fields[2]);
    if (inner) line_add(line, ")");
}

static void add(struct Line *line, const struct History *history, uint32_t n, int inner) {
    struct Field fields[FIELDS];
    const struct Wording *w = &history->wording[n];
    switch (split(w->line, w->length, fields) > 0 ? fields[0].at[0] : 0) {
    case 'a': add_atom(line, fields); break;
    case 'n': add_named(line, fields); break;
    case 'q': add_every(line, history, n, fields[1], inner); break;
    case 'o': line_add(line, "1"); break;
    case 't': add_pair(line, history, n, fields, "*", inner); break;
    case 'w': add_pair(line, history, n, fields, "&", inner); break;
    case 'p': add_pair(line, history, n, fields, "+", inner); break;
    case 'l': add_pair(line, history, n, fields, "-o", inner); break;
    case 'u': add_pair(line, history, n, fields, "=>", inner); break;
    case 'b': line_add(line, "!"), add_part(line, history, n, fields[1]); break;
    case 'h':
        add_part(line, history, n, fields[1]);
        line_add(line, "@[");
        add_window(line, fields + 2);
        line_add(line, "]");
        break;
    case 's':
        line_add(line, "<"), add_field(line, fields[1]), line_add(line, ">");
        add_part(line, history, n, fields[2]);
        break;
    case 'g':
        line_add(line, "["), add_window(line, fields + 1), line_add(line, "] has [");
        add_window(line, fields + 5), line_add(line, "]");
        break;
    default: line_add(line, "?");
    }
}

void spell_wording(struct Line *line, const struct History *history, uint32_t n) {
    const struct Wording *w = &history->wording[n];
    line_add(line, "%u ", n);
    line_add_bytes(line, w->line, w->length > 0 ? w->length - 1 : 0);
    line_add(line, ": ");
    add(line, history, n, 0);
}

void spell_coupon(struct Line *line, const struct History *history, const struct Coupon *coupon) {
    struct Field fields[FIELDS];
    split(coupon->line, coupon->length, fields);
    line_add(line, "%u %s ", coupon->serial, coupon->single ? "single" : "standing");
    add_window(line, fields + 3);
    line_add(line, ", wording %u: ", coupon->wording);
    add(line, history, coupon->wording, 0);
}
