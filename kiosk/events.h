/* What a kiosk waits for: input, Ctrl-C, another size of the screen, the end of its terminal. */
#ifndef EVENTS_H
#define EVENTS_H

enum Event { INPUT, INTERRUPT, RESIZE, ENDED };

/* From here on signals are events. A script does not begin this: there they do what they always do. */
void events_begin(void);

/* The next event; INPUT where the file can be read. Signals that come at other times wait until here. */
enum Event event_wait(int file);

#endif
