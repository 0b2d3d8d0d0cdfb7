/* Plays sessions with texts through till_call, till_close and till_open. Block, spare, sheet, text, buffer, scratch and
 * answer each lie between pages that cannot be touched.
 *
 * Each session has two tills. The first is played as the file says. Wherever it is closed, a block that was never
 * started opens the text and is the second till from then on; it has to answer all that follows alike. */
#define _DEFAULT_SOURCE
#include "texts.h"
#include "oysterbrim.h"
#include "rooms.h"
#include <signal.h>
#include <stdio.h>
#include <unistd.h>

enum { TILL_BYTES = TILL_NUMBERS * sizeof(uint32_t), FEW_BYTES = 40960, MANY_BYTES = 1 << 20,
       MOST_BUFFER = TILL_TEXT_BYTES + 30000 };

static void (*check)(int good, const char *what, const char *where);
static struct Room first, second, other, spare, scratch, few, many, buffer, answered;
static char place[80]; /* where the session is */

static void open_rooms(void) {
    first = room_for(TILL_BYTES);
    second = room_for(TILL_BYTES);
    other = room_for(TILL_BYTES);
    spare = room_for(TILL_BYTES);
    scratch = room_for(TILL_SCRATCH * sizeof(uint32_t));
    few = room_for(FEW_BYTES);
    many = room_for(MANY_BYTES);
    buffer = room_for(MOST_BUFFER);
    answered = room_for(4 * sizeof(uint32_t));
}

/* Bytes that mean nothing, other ones each time. */
static void junk(uint8_t *at, size_t length) {
    static uint32_t state = 1;
    for (size_t i = 0; i < length; i++) {
        if (i % 4 == 0) state ^= state << 13, state ^= state >> 17, state ^= state << 5;
        at[i] = (uint8_t)(state >> 8 * (i % 4));
    }
}

/* ---- Calls ---- */

/* The block at its other end of the room. */
static uint32_t *moved(struct Room *till) {
    static uint8_t kept[TILL_BYTES];
    memcpy(kept, till->at, sizeof kept);
    return memcpy(lend(till, sizeof kept), kept, sizeof kept);
}

/* A block that was never started. */
static void never_started(struct Room *till) { junk(lend(till, TILL_BYTES), TILL_BYTES); }

static void *lend_junk(struct Room *room, size_t length) {
    junk(lend(room, length), length);
    return room->at;
}

/* A sheet or text, which can only be read. */
static struct Room *lend_bytes(const uint8_t *from, size_t length) {
    struct Room *room = length <= FEW_BYTES ? &few : &many;
    lend_unmarked(room, length);
    if (length > 0) memcpy(room->at, from, length);
    read_only(room, 1);
    return room;
}

/* After a call: the answer, and that nothing was written beside what was lent. */
static void heard(const struct Room *till, uint32_t answer[4]) {
    memcpy(answer, answered.at, answered.length);
    int good = beside_stays(till) && beside_stays(&answered) && beside_stays(&spare) && beside_stays(&scratch) &&
               beside_stays(&buffer);
    check(good, "a byte beside what was lent", place);
}

static void call(struct Room *till, const uint8_t *sheet, size_t length, uint32_t answer[4]) {
    uint32_t *block = moved(till), *work = lend_junk(&scratch, TILL_SCRATCH * sizeof(uint32_t));
    uint32_t *to = lend_junk(&answered, 4 * sizeof(uint32_t));
    struct Room *bytes = lend_bytes(sheet, length);
    till_call(block, bytes->at, length, work, to);
    read_only(bytes, 0);
    heard(till, answer);
}

/* Opens a text; a refusal has to leave the block, every bit of it. */
static void open_text(struct Room *till, const uint8_t *text, size_t length, uint32_t answer[4]) {
    static uint8_t before[TILL_BYTES];
    uint32_t *block = moved(till), *work = lend_junk(&spare, TILL_BYTES);
    uint32_t *to = lend_junk(&answered, 4 * sizeof(uint32_t));
    struct Room *bytes = lend_bytes(text, length);
    memcpy(before, block, sizeof before);
    till_open(block, work, bytes->at, length, to);
    read_only(bytes, 0);
    heard(till, answer);
    if (answer[0] != 1) check(memcmp(before, till->at, sizeof before) == 0, "a refused text changed the till", place);
}

/* Closes into a buffer of a length. The till can only be read; at a refusal the buffer has to stay, and otherwise its
 * bytes past the text. */
static void close_into(struct Room *till, size_t length, uint32_t answer[4]) {
    static uint8_t before[MOST_BUFFER];
    uint32_t *block = moved(till), *to = lend_junk(&answered, 4 * sizeof(uint32_t));
    lend_junk(&buffer, length);
    memcpy(before, buffer.at, length);
    read_only(till, 1);
    till_close(block, buffer.at, length, to);
    read_only(till, 0);
    heard(till, answer);
    size_t wrote = answer[0] == 1 ? answer[1] : 0;
    check(wrote <= length, "more bytes than the buffer has", place);
    if (wrote <= length) {
        int same = memcmp(before + wrote, buffer.at + wrote, length - wrote) == 0;
        check(same, wrote > 0 ? "a byte past the text" : "the buffer, which had to stay", place);
    }
}

/* ---- What must hold ---- */

static int expected(const uint32_t answer[4], const uint32_t due[4], const char *what) {
    int same = memcmp(answer, due, 4 * sizeof *due) == 0;
    check(same, what, place);
    if (!same)
        printf("  got %u,%u,%u,%u for %u,%u,%u,%u\n", answer[0], answer[1], answer[2], answer[3], due[0], due[1],
               due[2], due[3]);
    return same;
}

/* The till writes this text into a buffer that is just long enough, or longer. */
static int writes(struct Room *till, size_t room, const uint8_t *text, size_t length) {
    uint32_t answer[4];
    const uint32_t due[4] = {1, (uint32_t)length, 0, 0};
    close_into(till, room, answer);
    int same = expected(answer, due, "the answer of closing") && memcmp(buffer.at, text, length) == 0;
    check(same, "the text", place);
    return same;
}

/* Buffers of every sort. */
static int closes(struct Room *till, const uint8_t *text, size_t length) {
    static const uint32_t SHORT[4] = {0, 52, 0, 0};
    const size_t enough[] = {length, length, length + 1, length + 2, TILL_TEXT_BYTES, MOST_BUFFER};
    const size_t less[] = {length - 1, length - 1, length - 2, length / 2, 12, 1, 0, 0};
    uint32_t answer[4];
    int good = length <= TILL_TEXT_BYTES;
    check(good, "a text longer than the longest", place);
    for (size_t k = 0; k < sizeof enough / sizeof *enough && good; k++) good = writes(till, enough[k], text, length);
    for (size_t k = 0; k < sizeof less / sizeof *less && good; k++) {
        close_into(till, less[k], answer);
        good = expected(answer, SHORT, "a buffer that is too short");
    }
    return good;
}

/* The till answers a text as it is due; what it reads it writes. */
static int opens(struct Room *till, const uint8_t *text, size_t length, const uint32_t due[4]) {
    uint32_t answer[4];
    open_text(till, text, length, answer);
    if (!expected(answer, due, "the answer of opening")) return 0;
    return due[0] == 0 || writes(till, length, text, length);
}

static int opens_in_all(const uint8_t *text, size_t length, const uint32_t due[4]) {
    never_started(&other);
    return opens(&first, text, length, due) && opens(&second, text, length, due) && opens(&other, text, length, due);
}

/* Closes the first till; a block that was never started opens its text and is the second from now on. */
static int closes_and_opens(const uint8_t *text, size_t length) {
    const uint32_t due[4] = {1, (uint32_t)length, 0, 0};
    if (!closes(&first, text, length) || !writes(&second, length, text, length)) return 0;
    never_started(&second);
    return opens(&second, text, length, due);
}

static int answers(const uint8_t *sheet, size_t length, const uint32_t due[4]) {
    uint32_t answer[4];
    call(&first, sheet, length, answer);
    if (!expected(answer, due, "the answer of a sheet")) return 0;
    call(&second, sheet, length, answer);
    return expected(answer, due, "the answer of a sheet, opened");
}

/* ---- Sessions ---- */

/* What is left of a file. */
struct Rest {
    const uint8_t *at;
    size_t length;
};

static struct Rest taken(struct Rest *rest, size_t length) {
    if (length > rest->length) exit(2);
    struct Rest head = {rest->at, length};
    rest->at += length;
    rest->length -= length;
    return head;
}

/* A whole file, or no bytes where there is none. */
static struct Rest whole(const char *folder, unsigned number, const char *end) {
    char name[4096];
    snprintf(name, sizeof name, "%s/%04u.%s", folder, number, end);
    FILE *file = fopen(name, "rb");
    if (!file) return (struct Rest){NULL, 0};
    if (fseek(file, 0, SEEK_END)) exit(2);
    size_t length = (size_t)ftell(file);
    uint8_t *all = malloc(length + 1);
    rewind(file);
    if (!all || fread(all, 1, length, file) != length) exit(2);
    fclose(file);
    return (struct Rest){all, length};
}

/* A line without its end, as text. */
static const char *line_of(struct Rest *rest) {
    static char line[64];
    const uint8_t *end = memchr(rest->at, '\n', rest->length);
    if (!end || end - rest->at >= (long)sizeof line) exit(2);
    struct Rest head = taken(rest, (size_t)(end - rest->at));
    memcpy(line, head.at, head.length);
    line[head.length] = 0;
    taken(rest, 1);
    return line;
}

/* The four numbers that an answer's line stands for. */
static void answer_of(const char *line, uint32_t due[4]) {
    unsigned a = 0, b = 0, c = 0;
    int refused = line[0] == 'n', count = sscanf(line + 3, "%u,%u,%u", &a, &b, &c);
    const uint32_t numbers[4] = {refused ? 0 : (uint32_t)count, a, b, c};
    if (count < 1 || (!refused && count == 2)) exit(2);
    memcpy(due, numbers, sizeof numbers);
}

/* The bytes up to the empty line, which is passed. */
static struct Rest sheet_of(struct Rest *in) {
    size_t i = 0;
    while (i < in->length && (in->at[i] != '\n' || (i > 0 && in->at[i - 1] != '\n'))) i++;
    struct Rest sheet = taken(in, i);
    taken(in, 1);
    return sheet;
}

static int begins(const struct Rest *rest, const char *word) {
    return rest->length >= strlen(word) && memcmp(rest->at, word, strlen(word)) == 0;
}

/* The next sheet or command, and its answer; 0 where that was another. */
static int turn(struct Rest *in, struct Rest *out) {
    uint32_t due[4];
    if (begins(in, ":open ")) {
        unsigned long length = strtoul(line_of(in) + 6, NULL, 10);
        struct Rest text = taken(in, length);
        taken(in, 1);
        answer_of(line_of(out), due);
        return opens_in_all(text.at, text.length, due);
    }
    struct Rest sheet = sheet_of(in);
    answer_of(line_of(out), due);
    if (!begins(&sheet, ":close\n")) return answers(sheet.at, sheet.length, due);
    struct Rest text = taken(out, due[1]);
    return closes_and_opens(text.at, text.length);
}

/* After a wrong answer the rest of a session means nothing. */
static int session(const char *folder, unsigned number) {
    struct Rest in = whole(folder, number, "in"), out = whole(folder, number, "out");
    void *held[] = {(void *)in.at, (void *)out.at};
    if (!in.at || !out.at) return 0;
    till_start((void *)lend(&first, TILL_BYTES));
    till_start((void *)lend(&second, TILL_BYTES));
    unsigned n = 0;
    int good = 1;
    while (good && in.length > 0) {
        snprintf(place, sizeof place, "%u of session %04u", ++n, number);
        good = turn(&in, &out);
    }
    check(!good || out.length == 0, "answers are left", place);
    free(held[0]);
    free(held[1]);
    return 1;
}

/* Memory was touched that was not lent, or written that could only be read. */
static void touched(int number) {
    static const char WHAT[] = "FAILED: memory that was not lent, at ";
    (void)number;
    if (write(STDERR_FILENO, WHAT, sizeof WHAT - 1) < 0 || write(STDERR_FILENO, place, strlen(place)) < 0) _exit(2);
    _exit(write(STDERR_FILENO, "\n", 1) < 0 ? 2 : 1);
}

/* No bytes at all: where they would be does not matter. */
static void nowhere(void) {
    static const uint32_t SHORT[4] = {0, 52, 0, 0}, BROKEN[4] = {0, 50, 0, 0};
    static const uint8_t EMPTY[] = "till,1,1,0,0\n";
    uint8_t *const AT[] = {NULL, few.from - 1, few.from + few.size};
    snprintf(place, sizeof place, "no bytes");
    till_start((void *)lend(&first, TILL_BYTES));
    for (size_t k = 0; k < sizeof AT / sizeof *AT; k++) {
        uint32_t answer[4], *work = lend_junk(&spare, TILL_BYTES);
        till_close((void *)first.at, AT[k], 0, answer);
        expected(answer, SHORT, "no buffer");
        till_open((void *)first.at, work, AT[k], 0, answer);
        expected(answer, BROKEN, "no text");
        closes(&first, EMPTY, sizeof EMPTY - 1);
    }
}

void play_texts(const char *folder, void (*told)(int good, const char *what, const char *where)) {
    unsigned number = 0;
    check = told;
    signal(SIGSEGV, touched);
    open_rooms();
    nowhere();
    while (session(folder, number)) number++;
    signal(SIGSEGV, SIG_DFL);
    check(number > 50, "sessions with texts", folder);
    printf("%u sessions with texts\n", number);
}
