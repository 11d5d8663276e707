/* The directory and the sign by hand in plain C, unproved: calls, answers and files are the library's. It is what the library's speed is
 * measured against, and the second program that its answers are held to. */
#ifndef PLAIN_H
#define PLAIN_H

#include <dronesickle.h>

/* The length of a file within the sizes. */
size_t plain_length(size_t n, size_t r, size_t v);

/* Counts the codes that wait, and gives the most. */
struct ds_counted plain_build_counted(const uint8_t *run, size_t run_len,
                                      const uint16_t *ends, size_t ends_len,
                                      size_t r, size_t v,
                                      const uint16_t *weights, size_t weights_len,
                                      uint8_t *buffer, size_t buffer_len);

/* Counts them too, as the library's does, and leaves the number out of its answer. */
struct ds_answer plain_build(const uint8_t *run, size_t run_len,
                             const uint16_t *ends, size_t ends_len,
                             size_t r, size_t v,
                             const uint16_t *weights, size_t weights_len,
                             uint8_t *buffer, size_t buffer_len);

/* Counts the assigned vertices of a block 32 at a time. */
struct ds_found plain_lookup(const uint8_t *file, size_t file_len,
                             const uint8_t *code, size_t code_len);

/* Counts them one by one. */
struct ds_found plain_lookup_loop(const uint8_t *file, size_t file_len,
                                  const uint8_t *code, size_t code_len);

/* Above the lookup that counts one by one. */
struct ds_reported plain_report(const uint8_t *file, size_t file_len,
                                const uint8_t *code, size_t code_len,
                                int32_t level, uint32_t time,
                                uint8_t *levels, size_t levels_len,
                                uint8_t *times, size_t times_len);

struct ds_asked plain_ask(const uint8_t *file, size_t file_len,
                          const uint8_t *code, size_t code_len,
                          uint32_t now, uint32_t limit,
                          const uint8_t *levels, size_t levels_len,
                          const uint8_t *times, size_t times_len);

#endif
