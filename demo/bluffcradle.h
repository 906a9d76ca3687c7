// The receiver for programs in C: what `tools/build ack_c` makes, target/staticlib/liback.a.
//
// Each slice is a pointer, which is not null, and a length. The answer is the refusal's number, 0 for none, times 2 to the 32nd, plus the
// length of the acknowledgment file, 0 for a refusal. The output overlaps no other slice.
#ifndef BLUFFCRADLE_H
#define BLUFFCRADLE_H

#include <stddef.h>
#include <stdint.h>

// How many bytes the file has. Refusals 1, 2 and 3.
uint64_t bluffcradle_need(const uint8_t *transmission, size_t transmission_length, const uint8_t *pack, size_t pack_length,
                          const uint8_t *date, size_t date_length, const uint8_t *name, size_t name_length);

// Writes the file at the front of out. Refusals 1 to 4, which change no byte of it.
uint64_t bluffcradle_acknowledge(const uint8_t *transmission, size_t transmission_length, const uint8_t *pack, size_t pack_length,
                                 const uint8_t *date, size_t date_length, const uint8_t *name, size_t name_length, uint8_t *out,
                                 size_t out_length);

#endif
