/* Hands the C entry sheets that nobody would write, on several tills in turn, and checks after each call what
 * include/oysterbrim.h and document 01 say of any call: `fuzz SECONDS SEED FILE..`. A file is a session as tillrun
 * reads it. The calls made depend on the seed and the files alone, how many there are on the time. */
#define _DEFAULT_SOURCE
#include "mutate.h"
#include "../c/guards.h"
#include "oysterbrim.h"
#include <stdio.h>
#include <stdlib.h>
#include <string.h>
#include <sys/mman.h>
#include <time.h>

enum { TILLS = 6, PAGE = 4096, LONG = 10, NUMBERS = 54, SHOWN = 10, SUMS = 32 };

struct Session {
    struct Sheet *sheets;
    size_t count;
};

/* A till between guard words. */
struct Block {
    uint32_t before[GUARD], till[TILL_NUMBERS], after[GUARD];
};

struct Till {
    struct Block block;
    struct History *history;
    const struct Session *session;  /* the session that it plays, between other sheets */
    size_t next;
    int worn;                       /* all serials were given: it is never begun again */
};

struct Fuzz {
    uint64_t seed, calls, passed, failed, tallies, accepted[6], refused[NUMBERS];
    struct Session *sessions;
    size_t count, begun;
    struct Till tills[TILLS];
    uint8_t *pages;                 /* room for a sheet, with memory before and after that cannot be read */
    struct Draft draft;
};

/* ---- Sessions ---- */

/* Room for one more: doubled where the count is a power of two. */
static void *grown(void *old, size_t count, size_t size) {
    if ((count & (count - 1)) != 0) return old;
    void *all = realloc(old, (count > 0 ? 2 * count : 1) * size);
    if (!all) exit(2);
    return all;
}

static void add_sheet(struct Session *session, uint8_t *bytes, size_t length) {
    session->sheets = grown(session->sheets, session->count, sizeof *session->sheets);
    session->sheets[session->count++] = (struct Sheet){bytes, length};
}

/* The sheets of a file; they point into its bytes, which stay. */
static struct Session load(const char *name) {
    struct Session session = {NULL, 0};
    FILE *file = fopen(name, "rb");
    if (!file || fseek(file, 0, SEEK_END)) exit(2);
    size_t length = (size_t)ftell(file), from = 0;
    uint8_t *bytes = malloc(length + 1);
    rewind(file);
    if (!bytes || fread(bytes, 1, length, file) != length) exit(2);
    fclose(file);
    for (size_t i = 0; i < length; i++) {
        if (bytes[i] != '\n' || (i > from && bytes[i - 1] != '\n')) continue;
        add_sheet(&session, bytes + from, i - from);
        from = i + 1;
    }
    if (from < length || session.count == 0) add_sheet(&session, bytes + from, length - from);
    return session;
}

static const struct Sheet *any_sheet(struct Fuzz *fuzz) {
    const struct Session *session = &fuzz->sessions[below(&fuzz->seed, (uint32_t)fuzz->count)];
    return &session->sheets[below(&fuzz->seed, (uint32_t)session->count)];
}

/* ---- What must hold of a call ---- */

/* The five sheets, and 5 for bytes that begin as none. */
static int kind_of(const uint8_t *sheet, size_t length) {
    static const char *const HEADS[] = {"word,", "issue,", "withdraw,", "book,", "tally,"};
    for (int i = 0; i < 5; i++) {
        size_t head = strlen(HEADS[i]);
        if (length >= head && memcmp(sheet, HEADS[i], head) == 0) return i;
    }
    return 5;
}

/* The refusals that the paper has for a sheet of a kind. */
static int may_refuse(int kind, uint32_t refusal) {
    static const uint8_t MAY[6][15] = {
        {1, 2, 3, 43, 10, 53, 12, 13, 14}, {1, 2, 3, 43, 10, 53, 20, 21, 22, 23}, {1, 2, 24},
        {1, 2, 3, 43, 10, 53, 20, 30, 24, 31, 40, 41, 42, 22, 23}, {1, 2}, {1, 2}};
    for (int i = 0; i < 15; i++)
        if (MAY[kind][i] == refusal && refusal > 0) return 1;
    return 0;
}

/* NULL if the answer is one that the sheet may get, else what is wrong with it. */
static const char *shape(const uint8_t *sheet, size_t length, const uint32_t a[4], const struct History *history) {
    int kind = kind_of(sheet, length), steps = a[1] >= 40 && a[1] <= 42;
    if ((a[0] == 0 && a[1] == 1) != (length > TILL_SHEET_BYTES)) return "refusal 1 exactly if over 16,384 bytes";
    if (a[0] == 0 && !may_refuse(kind, a[1])) return "a refusal that such a sheet has not";
    if (a[0] == 0 && (steps ? a[2] < 1 || a[2] > 257 : a[2] != 0)) return "the step of a refusal";
    if (a[0] != 3 && a[3] != 0) return "the fourth number";
    if (a[0] == 0) return NULL;
    if (length == 0 || sheet[length - 1] != '\n') return "accepted without an end of its line";
    if (a[0] == 3) return kind == 4 ? NULL : "a tally for another sheet";
    if (a[0] != 1 || a[2] != 0) return "no answer";
    if (kind >= 4) return "a number for a tally, or for no sheet";
    if (kind == 0 && a[1] != history->wordings) return "a wording's number that is not the next";
    if ((kind == 1 || kind == 3) && a[1] != history->serial + 1) return "a serial that is not the next";
    return NULL;
}

static void shown(const uint8_t *sheet, size_t length) {
    for (size_t i = 0; i < length && i < 600; i++) {
        if (sheet[i] == '\n') printf("\n    ");
        else if (sheet[i] >= ' ' && sheet[i] < 127) putchar(sheet[i]);
        else printf("\\x%02x", sheet[i]);
    }
    printf("%s\n", length > 600 ? ".." : "");
}

static void verdict(struct Fuzz *fuzz, const char *wrong, const uint8_t *sheet, size_t length, const uint32_t a[4]) {
    if (!wrong) {
        fuzz->passed++;
        return;
    }
    if (fuzz->failed++ >= SHOWN) return;
    printf("FAILED: call %llu: %s\n", (unsigned long long)fuzz->calls, wrong);
    printf("  answer %u,%u,%u,%u to %zu bytes\n    ", a[0], a[1], a[2], a[3], length);
    shown(sheet, length);
}

/* The bare call, its scratch filled at random and guarded; 0 if a guard was written over. */
static int guarded_call(struct Fuzz *fuzz, struct Block *block, const uint8_t *at, size_t length, uint32_t answer[4]) {
    static struct {
        uint32_t before[GUARD], numbers[TILL_SCRATCH], after[GUARD];
    } scratch;
    struct {
        uint32_t before[GUARD], answer[4], after[GUARD];
    } a;
    memset(&scratch, (int)below(&fuzz->seed, 256), sizeof scratch);
    memset(&a, (int)below(&fuzz->seed, 256), sizeof a);
    mark(scratch.before), mark(scratch.after), mark(a.before), mark(a.after);
    till_call(block->till, at, length, scratch.numbers, a.answer);
    memcpy(answer, a.answer, sizeof a.answer);
    return marked(scratch.before) && marked(scratch.after) && marked(a.before) && marked(a.after) &&
           marked(block->before) && marked(block->after);
}

/* NULL, or what is wrong with a call; `old` is the block before it. */
static const char *tried(struct Fuzz *fuzz, struct Till *till, struct Block *old, const uint8_t *sheet, size_t length,
                         uint32_t answer[4]) {
    uint32_t again[4];
    uint8_t *at = below(&fuzz->seed, 2) ? fuzz->pages : fuzz->pages + MOST - length;
    if (length > 0) memcpy(at, sheet, length);
    memcpy(old, &till->block, sizeof *old);
    int whole = guarded_call(fuzz, &till->block, at, length, answer);
    if (!whole) return "a number beside block, scratch or answer";
    if (length > 0 && memcmp(at, sheet, length) != 0) return "the sheet was changed";
    int same = memcmp(old->till, till->block.till, sizeof old->till) == 0;
    if (answer[0] == 1 ? same : !same) return same ? "accepted, and nothing changed" : "the block had to stay";
    const char *wrong = shape(sheet, length, answer, till->history);
    if (wrong || below(&fuzz->seed, 4)) return wrong;
    struct Block copy = *old;
    if (!guarded_call(fuzz, &copy, at, length, again)) return "a number beside block, scratch or answer";
    if (memcmp(again, answer, sizeof again) != 0) return "another answer to the same call";
    return memcmp(&copy, &till->block, sizeof copy) == 0 ? NULL : "another block after the same call";
}

/* ---- Sums ---- */

/* open + shut + placed + withdrawn = issued, and the first three are as counted. */
static void sum(struct Fuzz *fuzz, struct Till *till, uint32_t session, uint32_t minute) {
    char sheet[40];
    uint32_t a[4];
    static struct Block old;
    size_t length = (size_t)snprintf(sheet, sizeof sheet, "tally,%u,%u\n", session, minute);
    fuzz->tallies++;
    const char *wrong = tried(fuzz, till, &old, (const uint8_t *)sheet, length, a);
    struct Counted counted = history_count(till->history, session, minute);
    uint64_t total = (uint64_t)a[1] + a[2] + a[3] + counted.withdrawn;
    if (!wrong && a[0] != 3) wrong = "no tally";
    if (!wrong && total != counted.issued) wrong = "open + shut + placed + withdrawn is not issued";
    if (!wrong && !history_agrees(&counted, a)) wrong = "open, shut or placed is not as counted";
    verdict(fuzz, wrong, (const uint8_t *)sheet, length, a);
}

static uint32_t any_minute(struct Fuzz *fuzz) {
    static const uint32_t SOME[] = {0, 9, 540, 600, LAST_MINUTE};
    return below(&fuzz->seed, 2) ? SOME[below(&fuzz->seed, 5)] : below(&fuzz->seed, 1u << below(&fuzz->seed, 23));
}

/* A session: mostly that of an atom, or one that differs from it by 256; now and then any. */
static uint32_t any_session(struct Fuzz *fuzz, const struct History *history) {
    uint32_t turn = below(&fuzz->seed, 8);
    if (turn == 0 || history->wordings == 0) return below(&fuzz->seed, LAST_SESSION + 1);
    uint32_t session = history->wording[below(&fuzz->seed, history->wordings)].session;
    return turn == 1 ? (session + 256) % (LAST_SESSION + 1) : session;
}

/* ---- Playing ---- */

static void begin(struct Fuzz *fuzz, struct Till *till) {
    memset(&till->block, (int)below(&fuzz->seed, 256), sizeof till->block);
    mark(till->block.before), mark(till->block.after);
    till_start(till->block.till);
    history_clear(till->history);
    till->session = &fuzz->sessions[fuzz->begun++ % fuzz->count];
    till->next = 0;
}

/* A call with all that must hold of it. `real` is 0 for one that only a copy of the till gets. */
static void play(struct Fuzz *fuzz, struct Till *till, const uint8_t *sheet, size_t length, int real) {
    uint32_t a[4];
    static struct Block old;
    fuzz->calls++;
    const char *wrong = tried(fuzz, till, &old, sheet, length, a);
    if (a[0] == 0 && a[1] < NUMBERS) fuzz->refused[a[1]]++;
    else fuzz->accepted[kind_of(sheet, length)]++;
    if (!real) till->block = old;
    else if (!history_note(till->history, sheet, length, a) && !wrong) wrong = "accepted, and not for the recount";
    verdict(fuzz, wrong, sheet, length, a);
    if (real && a[0] == 1) sum(fuzz, till, any_session(fuzz, till->history), any_minute(fuzz));
}

/* The sessions of all atoms and some more, each at a minute, then from the empty till with the next list. */
static void close_till(struct Fuzz *fuzz, struct Till *till) {
    for (uint32_t n = 0; n < till->history->wordings; n++)
        sum(fuzz, till, till->history->wording[n].session, any_minute(fuzz));
    for (int k = 0; k < SUMS; k++) sum(fuzz, till, any_session(fuzz, till->history), any_minute(fuzz));
    if (!till->worn) begin(fuzz, till);
    till->next = 0;
}

/* The next sheet of the till's session, or one that it has not. Of a till with an even place such a sheet gets a copy,
 * so that the session goes on as it was written. */
static void turn(struct Fuzz *fuzz, uint32_t place) {
    struct Till *till = &fuzz->tills[place];
    uint32_t way = below(&fuzz->seed, 100);
    if (till->next >= till->session->count || below(&fuzz->seed, 5000) == 0) close_till(fuzz, till);
    const struct Sheet *sheet = &till->session->sheets[till->next];
    if (way < 45) {
        till->next++;
        play(fuzz, till, sheet->bytes, sheet->length < MOST ? sheet->length : MOST, 1);
        return;
    }
    if (way < 95) draft_copy(&fuzz->draft, way < 80 ? sheet : any_sheet(fuzz));
    if (way < 85) draft_change(&fuzz->draft, any_sheet(fuzz), &fuzz->seed);
    else if (way < 95) draft_make(&fuzz->draft, till->history, &fuzz->seed);
    else draft_noise(&fuzz->draft, &fuzz->seed);
    play(fuzz, till, fuzz->draft.bytes, fuzz->draft.length, place % 2);
}

/* Gives all serials. */
static void wear(struct Till *till) {
    static uint32_t scratch[TILL_SCRATCH];
    static const uint8_t WORD[] = "word,a,1,7\n", ISSUE[] = "issue,s,0,0,600,0,0\n";
    uint32_t a[4];
    char withdraw[32];
    till_call(till->block.till, WORD, sizeof WORD - 1, scratch, a);
    history_note(till->history, WORD, sizeof WORD - 1, a);
    for (uint32_t n = 1; n <= LAST_SERIAL; n++) {
        till_call(till->block.till, ISSUE, sizeof ISSUE - 1, scratch, a);
        history_note(till->history, ISSUE, sizeof ISSUE - 1, a);
        if (n + 200 > LAST_SERIAL) continue;
        size_t length = (size_t)snprintf(withdraw, sizeof withdraw, "withdraw,%u\n", n);
        till_call(till->block.till, (uint8_t *)withdraw, length, scratch, a);
        history_note(till->history, (uint8_t *)withdraw, length, a);
    }
    till->worn = 1;
}

/* ---- The run ---- */

static void open_pages(struct Fuzz *fuzz) {
    uint8_t *all = mmap(NULL, MOST + 2 * PAGE, PROT_READ | PROT_WRITE, MAP_PRIVATE | MAP_ANONYMOUS, -1, 0);
    if (all == MAP_FAILED || mprotect(all, PAGE, PROT_NONE) || mprotect(all + PAGE + MOST, PAGE, PROT_NONE)) exit(2);
    fuzz->pages = all + PAGE;
}

static void report(struct Fuzz *fuzz, int all) {
    static const char *const KINDS[] = {"word", "issue", "withdraw", "book", "tally"};
    static const uint8_t REFUSALS[] = {1, 2, 3, 10, 12, 13, 14, 20, 21, 22, 23, 24, 30, 31, 40, 41, 42, 43, 53};
    printf("%llu calls, %llu tallies for sums, %zu tills begun\naccepted:", (unsigned long long)fuzz->calls,
           (unsigned long long)fuzz->tallies, fuzz->begun);
    for (int i = 0; i < 5; i++) printf(" %s %llu", KINDS[i], (unsigned long long)fuzz->accepted[i]);
    printf("\nrefused:");
    unsigned missing = 0;
    for (size_t i = 0; i < sizeof REFUSALS; i++) {
        uint64_t count = fuzz->refused[REFUSALS[i]];
        printf(" %u: %llu%s", REFUSALS[i], (unsigned long long)count, i + 1 < sizeof REFUSALS ? "," : "\n");
        missing += count == 0;
    }
    if (missing > 0) printf("%u refusals were not met\n", missing);
    if (all) fuzz->failed += missing;
}

int main(int count, char **names) {
    static struct Fuzz fuzz;
    if (count < 4) return 2;
    int seconds = atoi(names[1]), all = seconds >= LONG;
    fuzz.seed = strtoull(names[2], NULL, 10) * 0x9E3779B97F4A7C15u + 1;
    for (int i = 3; i < count; i++) {
        fuzz.sessions = grown(fuzz.sessions, fuzz.count, sizeof *fuzz.sessions);
        fuzz.sessions[fuzz.count++] = load(names[i]);
    }
    open_pages(&fuzz);
    for (int i = 0; i < TILLS; i++) {
        fuzz.tills[i].history = history_new();
        if (!fuzz.tills[i].history) return 2;
        begin(&fuzz, &fuzz.tills[i]);
    }
    if (all) wear(&fuzz.tills[TILLS - 1]);
    time_t end = time(NULL) + seconds;
    while (time(NULL) < end && fuzz.failed < SHOWN)
        for (int i = 0; i < 256; i++) turn(&fuzz, below(&fuzz.seed, TILLS));
    for (int i = 0; i < TILLS; i++) close_till(&fuzz, &fuzz.tills[i]);
    report(&fuzz, all);
    printf("%llu passed, %llu failed\n", (unsigned long long)fuzz.passed, (unsigned long long)fuzz.failed);
    return fuzz.failed > 0 || fuzz.passed == 0;
}
