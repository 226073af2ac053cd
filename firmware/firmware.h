/* The calls of a timetable post's library for firmware. They allocate nothing, and keep nothing between calls. */
#ifndef FIRMWARE_H
#define FIRMWARE_H

#include <stddef.h>
#include <stdint.h>

/*
 * Answers lines over the records of a day, as a post does that was just put up over them, and writes what is printed to the front of
 * out. Returns how many bytes that is; -1, with nothing written, where it is longer than out or than 65,536 bytes. A pointer may be
 * anything but null where its length is 0. Needs about 300 KiB of stack.
 */
ptrdiff_t firmware_answer_lines(const uint8_t *day, size_t day_length, const uint8_t *lines, size_t lines_length, uint8_t *out,
                                size_t out_length);

/*
 * Loads records of sixteen bytes into memory, from its front on. Returns how many there are; or, at the first one that is refused, its
 * fault in one number, and then the memory has its old bytes again. Needs about 17 KiB of stack.
 */
uint64_t firmware_load_records(uint8_t *memory, size_t memory_length, const uint8_t *records, size_t records_length);

/* What the number of a load tells: 0 where it is a count, else the number of the fault, its layer and its place. */
#define FIRMWARE_FAULT_NUMBER(answer) ((unsigned)((answer) >> 40))
#define FIRMWARE_FAULT_LAYER(answer) ((unsigned)((answer) >> 32) & 255u)
#define FIRMWARE_FAULT_PLACE(answer) ((unsigned long)((answer) & 0xffffffffu))

#endif
