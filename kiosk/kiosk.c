/* A kiosk to touch: keeps one till, hands it the sheets that are typed or stand in a file, and shows each answer with
 * its sheet. After every sheet it tallies every session and holds that against its own count of the accepted sheets
 * (look.h, recount.h), so that nothing hides: open + shut + placed + withdrawn = issued. Where this fails, a banner
 * stays and the exit status is 1.
 *
 * On a terminal the panel stands at the top (panel.c), with the log below it. Without one, or with one that knows no
 * escapes, each answer is a line: the sheet's number, the sheet, the answer as tillrun prints it, what that means, and
 * what it changed, parted by tabs. */
#define _POSIX_C_SOURCE 200809L
#include "kiosk.h"
#include "events.h"
#include <errno.h>
#include <stdio.h>
#include <stdlib.h>
#include <string.h>
#include <unistd.h>

enum { CHUNK = 4096 };

/* ---- Saying ---- */

void print(struct Kiosk *kiosk, const char *line) {
    if (puts(line) < 0 || fflush(stdout) != 0) kiosk->lost = 1;
}

unsigned sheets(const struct Kiosk *kiosk) { return kiosk->accepted + kiosk->refused; }

void say(struct Kiosk *kiosk, const char *form, ...) {
    struct Line line = {0};
    va_list values;
    va_start(values, form);
    line_add_values(&line, form, values);
    va_end(values);
    log_add(&kiosk->log, sheets(kiosk), &line);
    view_log_end(kiosk);
    if (kiosk->mode != SCREEN) print(kiosk, line.at);
}

/* An answer as tillrun prints it. */
static struct Line printed(const uint32_t a[4]) {
    struct Line line = {0};
    if (a[0] == TILL_REFUSED) line_add(&line, "no,%u,%u", a[1], a[2]);
    else if (a[0] == TILL_COUNTED) line_add(&line, "ok,%u,%u,%u", a[1], a[2], a[3]);
    else line_add(&line, "ok,%u", a[1]);
    return line;
}

static struct Line in_words(const uint32_t a[4], const char *words) {
    struct Line line = {0};
    if (a[0] == TILL_COUNTED) line_add(&line, "open %u (house seats), shut %u, placed %u", a[1], a[2], a[3]);
    else if (a[0] != TILL_REFUSED) line_add(&line, "%s", words);
    else line_add(&line, "refused: %s", till_refusal_text(a[1]));
    if (a[0] == TILL_REFUSED && a[2] > 0) line_add(&line, " (step %u)", a[2]);
    return line;
}

void say_answer(struct Kiosk *kiosk, unsigned number, const struct Line *sheet, const uint32_t a[4],
                const char *words) {
    struct Line first = {0}, second = {0}, answer = printed(a), said = in_words(a, words);
    const char *changes = number > 0 ? kiosk->look.changes.at : "";
    if (number > 0) line_add(&first, "%u ", number);
    line_add(&first, "%s", sheet->at);
    line_add(&second, "   %s %s%s%s", answer.at, said.at, *changes ? "; " : "", changes);
    log_add(&kiosk->log, sheets(kiosk), &first);
    log_add(&kiosk->log, sheets(kiosk), &second);
    view_log_end(kiosk);
    if (kiosk->mode == SCREEN) return;
    if (number > 0) printf("%u", number);
    printf("\t%s\t%s\t%s%s", sheet->at, answer.at, said.at, *changes ? "\t" : "");
    print(kiosk, changes);
}

static void say_news(struct Kiosk *kiosk) {
    for (unsigned k = 0; k < kiosk->look.news; k++) say(kiosk, "%s", kiosk->look.wrong[k].at);
}

void look_again(struct Kiosk *kiosk) {
    look_at(&kiosk->look, kiosk->till, kiosk->history, 0);
    say_news(kiosk);
}

/* ---- Sheets ---- */

/* A sheet to the till; then a look at everything; then the answer, what it changed, and what is wrong. */
static void hand_over(struct Kiosk *kiosk, const uint8_t *sheet, size_t length) {
    uint32_t scratch[TILL_SCRATCH], a[4];
    struct Line shown = {0}, words = {0};
    till_call(kiosk->till, sheet, length, scratch, a);
    if (a[0] == TILL_REFUSED) kiosk->refused++;
    else kiosk->accepted++;
    kiosk->unsaved |= a[0] == TILL_ACCEPTED;
    look_begin(&kiosk->look, sheets(kiosk), NULL);
    if (!history_note(kiosk->history, sheet, length, a)) look_unread(&kiosk->look);
    look_at(&kiosk->look, kiosk->till, kiosk->history, 1);
    line_add_sheet(&shown, sheet, length);
    int word = length > 4 && memcmp(sheet, "word", 4) == 0;
    line_add(&words, "%s %u", word ? "wording" : "serial", a[1]);
    say_answer(kiosk, sheets(kiosk), &shown, a, words.at);
    say_news(kiosk);
}

void hand_rest(struct Kiosk *kiosk, struct Input *input) {
    size_t room = sizeof input->sheet - input->length, count = input->typed < room ? input->typed : room;
    memcpy(input->sheet + input->length, input->line, count);
    input->length += count;
    input->typed = 0;
    if (input->length > 0) hand_over(kiosk, input->sheet, input->length);
    input->length = 0;
}

/* ---- Lines ---- */

/* A line that is a command. It is put aside first: a command may ask, and then waits for the next line. */
static void take_command(struct Kiosk *kiosk, struct Input *input) {
    char command[COMMAND + 1];
    size_t length = input->typed;
    input->typed = 0;
    if (length > COMMAND || memchr(input->line, 0, length) != NULL) length = 1;
    memcpy(command, input->line, length);
    command[length] = 0;
    if (strcmp(command, kiosk->asked) != 0) kiosk->asked[0] = 0;
    run_command(kiosk, command);
}

/* The line that a question waits for, if it is one: `y`, or `n` or nothing for no. */
static int take_reply(struct Kiosk *kiosk, struct Input *input) {
    char command[COMMAND + 1];
    int yes = input->typed == 1 && input->line[0] == 'y', no = input->typed == 1 && input->line[0] == 'n';
    if (!kiosk->asked[0] || (!yes && !no && input->typed > 0)) return 0;
    input->typed = 0;
    memcpy(command, kiosk->asked, sizeof command);
    if (yes) {
        run_command(kiosk, command);
    } else {
        kiosk->asked[0] = 0;
        say(kiosk, "not done");
    }
    return 1;
}

/* Joins the sheet that is begun. */
static void take_text(struct Input *input) {
    for (size_t i = 0; i < input->typed && input->length < sizeof input->sheet; i++)
        input->sheet[input->length++] = input->line[i];
    if (input->length < sizeof input->sheet) input->sheet[input->length++] = '\n';
    input->typed = 0;
}

/* A line has ended. A colon at its start makes it a command: no sheet that is accepted has such a line. An empty one
 * ends the sheet. */
static void take_line(struct Kiosk *kiosk, struct Input *input) {
    if (input->commands && input->typed > 0 && input->line[0] == ':') {
        take_command(kiosk, input);
    } else if (!take_reply(kiosk, input)) {
        kiosk->asked[0] = 0;
        if (input->typed > 0) {
            take_text(input);
        } else {
            hand_over(kiosk, input->sheet, input->length);
            input->length = 0;
        }
    }
}

static void take(struct Kiosk *kiosk, struct Input *input, uint8_t byte) {
    if (byte == '\n') take_line(kiosk, input);
    else if (input->typed < sizeof input->line) input->line[input->typed++] = byte;
}

int read_sheets(struct Kiosk *kiosk, int file, struct Input *input) {
    uint8_t bytes[CHUNK];
    for (;;) {
        enum Event event = event_wait(file);
        errno = EINTR;
        if (event == INTERRUPT || event == ENDED) return 0;
        ssize_t count = event == INPUT ? read(file, bytes, sizeof bytes) : 1;
        if (event != INPUT || (count < 0 && (errno == EINTR || errno == EAGAIN))) continue;
        if (count <= 0) return count == 0;
        for (ssize_t i = 0; i < count; i++) take(kiosk, input, bytes[i]);
    }
}

/* ---- The run ---- */

static void take_key(struct Kiosk *kiosk, uint8_t byte) {
    struct Input *input = &kiosk->input;
    enum Key key = key_of(&kiosk->keys, byte);
    switch (key) {
    case NO_KEY: break;
    case A_BYTE: take(kiosk, input, byte); break;
    case ERASE: input->typed -= input->typed > 0; break;
    case ERASE_ALL: input->typed = 0; break;
    case NO_MORE: run_command(kiosk, ":quit"); break;
    default: view_key(kiosk, key);
    }
}

/* Before input is waited for. */
static void show(struct Kiosk *kiosk) {
    if (kiosk->mode == SCREEN) draw(kiosk);
    if (kiosk->mode != PLAIN || kiosk->input.typed > 0) return;
    if (kiosk->look.banner.length > 0) puts(kiosk->look.banner.at);
    fputs(kiosk->asked[0] ? "(y) > " : kiosk->input.length > 0 ? "(sheet) > " : "> ", stdout);
    if (fflush(stdout) != 0) kiosk->lost = 1;
}

/* The end of the input. On a plain terminal it asks, as :quit does. Of a script a last line that is a command is run,
 * and bytes after the last empty line are one more sheet, as for tillrun. A screen's input ends with its terminal. */
static void end(struct Kiosk *kiosk) {
    struct Input *input = &kiosk->input;
    if (kiosk->mode == PLAIN) {
        print(kiosk, "");
        run_command(kiosk, ":quit");
        return;
    }
    if (kiosk->mode == SCRIPT && input->typed > 0 && input->line[0] == ':') take_command(kiosk, input);
    if (kiosk->mode == SCRIPT && !kiosk->leave) hand_rest(kiosk, input);
    kiosk->lost |= kiosk->mode == SCREEN;
    kiosk->leave = 1;
}

/* Until it is told to leave; 0 where its input cannot be read. */
static int run(struct Kiosk *kiosk) {
    uint8_t bytes[CHUNK];
    while (!kiosk->leave && !kiosk->lost) {
        show(kiosk);
        enum Event event = event_wait(STDIN_FILENO);
        if (event == ENDED) return 0;
        if (event == INTERRUPT) run_command(kiosk, ":quit");
        if (event != INPUT) continue;
        ssize_t count = read(STDIN_FILENO, bytes, sizeof bytes);
        if (count < 0 && (errno == EINTR || errno == EAGAIN)) continue;
        if (count < 0) return 0;
        if (count == 0) end(kiosk);
        for (ssize_t i = 0; i < count && !kiosk->leave; i++) {
            if (kiosk->mode == SCREEN) take_key(kiosk, bytes[i]);
            else take(kiosk, &kiosk->input, bytes[i]);
        }
        kiosk->lost |= kiosk->screen.lost;
    }
    return 1;
}

static struct Kiosk *kiosk_new(void) {
    struct Kiosk *kiosk = calloc(1, sizeof *kiosk);
    if (!kiosk || !(kiosk->history = history_new())) {
        free(kiosk);
        return NULL;
    }
    till_start(kiosk->till);
    kiosk->input.commands = 1;
    view_log_end(kiosk);
    line_add(&kiosk->look.changes, "none yet");
    if (isatty(STDIN_FILENO)) {
        events_begin();
        kiosk->mode = screen_there() && screen_begin(&kiosk->screen) ? SCREEN : PLAIN;
    }
    return kiosk;
}

/* The last words: what was wrong stays the last line. */
static void part(struct Kiosk *kiosk, int good) {
    if (kiosk->mode == SCREEN) screen_end(&kiosk->screen);
    if (!good && kiosk->mode == SCRIPT) fprintf(stderr, "cannot read the input: %s\n", strerror(errno));
    if (kiosk->mode != SCRIPT && kiosk->input.length + kiosk->input.typed > 0)
        print(kiosk, "The sheet that was begun was not handed over.");
    if (kiosk->look.banner.length > 0) print(kiosk, kiosk->look.banner.at);
}

int main(void) {
    struct Kiosk *kiosk = kiosk_new();
    if (!kiosk) {
        fputs("no memory\n", stderr);
        return 1;
    }
    int good = run(kiosk);
    part(kiosk, good);
    good = good && !kiosk->lost && kiosk->look.banner.length == 0;
    free(kiosk->history);
    free(kiosk);
    return !good;
}
