/* Whole files, with the reason in errno where that fails. */
#ifndef FILES_H
#define FILES_H

#include <stddef.h>
#include <stdint.h>

/* Puts the bytes in the place of what the file was. They go to a file beside it first, NAME.new, so that the old ones
 * stay where this fails. */
int file_write(const char *name, const uint8_t *bytes, size_t length);

/* Up to `most` bytes of a file, and how many. */
int file_read(const char *name, uint8_t *bytes, size_t most, size_t *length);

#endif
