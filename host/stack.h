#ifndef STACK_H
#define STACK_H

#include <stddef.h>

/* How many bytes of stack a call takes; 0 where that can't be measured. */
size_t stack_used(void (*call)(void));

#endif
