/* The judgements that a controller's C program calls directly, on bytes and numbers. */
#ifndef JUDGEMENTS_H
#define JUDGEMENTS_H

#include <stddef.h>
#include <stdint.h>

/* Of the setup bytes of a control transfer, by themselves: 0, or 7 (not 8 bytes, or unlisted), or 9 (wLength not allowed). */
uint8_t judge_setup(const uint8_t *setup, size_t length);

/* Of a command block wrapper, against the highest unit of its interface: 0, or 16 (not in order, or no such unit). */
uint8_t judge_cbw(const uint8_t *cbw, size_t length, uint8_t highest);

#endif
