/* The join of a robot's and a module's text in plain C; it answers as the library's does. */
#ifndef JOIN_H
#define JOIN_H

#include "ambiguity.h"

ambiguity_read_reply plain_join(const uint8_t *robot, size_t robot_bytes, const uint8_t *addon, size_t addon_bytes, uint16_t *table,
                                size_t table_entries);

ambiguity_part_reply plain_name(const uint8_t *robot, size_t robot_bytes, const uint8_t *addon, size_t addon_bytes, size_t symbol);

ambiguity_write_reply plain_write_joined(const uint8_t *robot, size_t robot_bytes, const uint8_t *addon, size_t addon_bytes,
                                         uint8_t *out, size_t out_bytes);

#endif
