/* The entry of the core for hosts in C. Link target/staticlib/libwire.a, which host/run makes. */
#ifndef PUNGETSAI_H
#define PUNGETSAI_H

#include <stddef.h>
#include <stdint.h>

/* Whether `length` bytes at `message` are a legal message: 0 if they are, 1 if they are not eight bytes,
   2 if the code is unused or a bit outside the code's fields is set. `message` is not NULL, and is only read. */
uint8_t pungetsai_check_message(const uint8_t *message, size_t length);

#endif
