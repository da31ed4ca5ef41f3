/* plain.h: the calls that search, measure, write or read in plain C, with the library's prototypes: the yardstick for its speed. */
#ifndef BENCH_PLAIN_H
#define BENCH_PLAIN_H

#include <stddef.h>
#include <stdint.h>

int64_t c_first(const uint8_t *job, size_t job_bytes, uint32_t length_weight, uint32_t bend_weight,
                uint16_t *layout, size_t entries);
int64_t c_next(const uint8_t *job, size_t job_bytes, uint32_t length_weight, uint32_t bend_weight,
               uint16_t *layout, size_t entries);
int64_t c_page(const uint8_t *job, size_t job_bytes, uint32_t length_weight, uint32_t bend_weight,
               const uint16_t *layout, size_t entries, uint16_t *page, size_t page_entries);
int64_t c_measure(const uint8_t *job, size_t job_bytes, uint32_t length_weight,
                  uint32_t bend_weight, const uint16_t *layout, size_t entries);
int64_t c_svg(const uint8_t *job, size_t job_bytes, const uint16_t *layout, size_t entries, char *text,
              size_t text_bytes);
int64_t c_read_csv(const uint8_t *text, size_t text_bytes, uint8_t *pads, size_t pad_bytes);
int64_t c_table_first(const uint8_t *job, size_t job_bytes, const uint32_t *table, size_t figures,
                      uint16_t *layout, size_t entries);
int64_t c_table_next(const uint8_t *job, size_t job_bytes, const uint32_t *table, size_t figures,
                     uint16_t *layout, size_t entries);
int64_t c_table_measure(const uint8_t *job, size_t job_bytes, const uint32_t *table, size_t figures,
                        const uint16_t *layout, size_t entries);
int64_t c_slots_first(const uint8_t *pads, size_t pad_bytes, const uint8_t *ports, size_t port_bytes,
                      uint32_t length_weight, uint32_t bend_weight, uint16_t *layout, size_t entries,
                      uint64_t *work, size_t numbers);
int64_t c_slots_next(const uint8_t *pads, size_t pad_bytes, const uint8_t *ports, size_t port_bytes,
                     uint32_t length_weight, uint32_t bend_weight, uint16_t *layout, size_t entries,
                     uint64_t *work, size_t numbers);
int64_t c_slots_measure(const uint8_t *pads, size_t pad_bytes, const uint8_t *ports, size_t port_bytes,
                        uint32_t length_weight, uint32_t bend_weight, const uint16_t *layout,
                        size_t entries);

#endif
