/* Sessions in which a till is closed and opened (tests/generate/NOTES.md, "Sessions with texts"). */
#ifndef TEXTS_H
#define TEXTS_H

/* Plays all sessions of a folder. `check` is told of all that must hold: whether it does, what it is, and where. */
void play_texts(const char *folder, void (*check)(int good, const char *what, const char *where));

#endif
