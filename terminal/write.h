/* A record written from words. */
#ifndef WRITE_H
#define WRITE_H

#include "status.h"

/* Writes the bytes of the record that a file has in words to standard output; where it is refused, says why on standard error. */
enum status write_file(const char *name);

#endif
