/* A small allocator: blocks from one arena, given back to a list. */
#ifndef HEAP_H
#define HEAP_H

void *take(unsigned size);
void give(void *block);

#endif
