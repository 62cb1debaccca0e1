/* The call, the reading and the reader of bursts in hand-written C: the interfaces of tagobrelin_call, tagobrelin_read and
 * tagobrelin_read_burst under other names. */
#ifndef TUNED_H
#define TUNED_H

#include "tagobrelin.h"

int32_t tuned_call(uint8_t event, uint8_t byte, uint16_t id, uint8_t outcome, const uint8_t *value, size_t value_count,
                   struct tagobrelin_datapoint *datapoints, size_t datapoint_count, struct tagobrelin_item *items, size_t item_count,
                   uint8_t *parameters, size_t parameter_count, const uint8_t *site_texts, size_t site_texts_size,
                   const uint8_t *default_texts, size_t default_texts_size, struct tagobrelin_link *link, uint8_t *out,
                   size_t room);

struct tagobrelin_reading tuned_read(uint16_t id, const struct tagobrelin_datapoint *datapoints,
                                     size_t datapoint_count);

struct tagobrelin_burst tuned_read_burst(const uint8_t *burst, size_t byte_count,
                                         uint16_t *starts, size_t place_count);

#endif
