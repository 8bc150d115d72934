/* What the programs share, beside what picolibc has. */
#ifndef SYSTEM_H
#define SYSTEM_H

#include <stddef.h>

/* Reads the whole input to `text`, ends it with a zero, and returns its length without that. An input that doesn't
   fit ends the program with code 2. */
size_t read_input(char *text, size_t room);

#endif
