#define _DEFAULT_SOURCE
#include "events.h"
#include <errno.h>
#include <signal.h>
#include <stddef.h>
#include <sys/select.h>

static volatile sig_atomic_t interrupted, resized, ended; /* set by the handler, taken by event_wait */

static void note(int signal) {
    if (signal == SIGINT) interrupted = 1;
    else if (signal == SIGWINCH || signal == SIGCONT) resized = 1;
    else ended = 1;
}

void events_begin(void) {
    static const int SIGNALS[] = {SIGINT, SIGWINCH, SIGCONT, SIGTERM, SIGHUP};
    struct sigaction action = {.sa_handler = note};
    sigset_t ours;
    sigemptyset(&ours);
    for (size_t k = 0; k < sizeof SIGNALS / sizeof *SIGNALS; k++) {
        sigaction(SIGNALS[k], &action, NULL);
        sigaddset(&ours, SIGNALS[k]);
    }
    sigprocmask(SIG_BLOCK, &ours, NULL);
}

enum Event event_wait(int file) {
    sigset_t none, was;
    fd_set files;
    sigemptyset(&none);
    for (;;) {
        sigprocmask(SIG_SETMASK, &none, &was); /* those that wait come first, also where the file is always ready */
        sigprocmask(SIG_SETMASK, &was, NULL);
        if (ended) return ENDED;
        if (interrupted) return interrupted = 0, INTERRUPT;
        if (resized) return resized = 0, RESIZE;
        FD_ZERO(&files);
        FD_SET(file, &files);
        int count = pselect(file + 1, &files, NULL, NULL, NULL, &none);
        if (count > 0 || (count < 0 && errno != EINTR)) return INPUT;
    }
}
