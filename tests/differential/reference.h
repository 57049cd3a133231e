/* The independent implementation: the functions of include/jeulgopae.h under the prefix reference_. */
#ifndef REFERENCE_H
#define REFERENCE_H

#include "jeulgopae.h"

/* 13 at a place of the frame, counted from 0: a character that isn't allowed there, or the frame's length where none is to blame. */
#define REFERENCE_NOT_THIS_AT(place) (-130000 - (int32_t)(place))

int32_t reference_mewtocol_station(uint16_t *words, size_t words_count, const uint8_t *attributes, size_t attributes_count,
                                   uint32_t profile, uint32_t own, const uint8_t *frame, size_t frame_count, uint8_t *room,
                                   size_t room_count);
int32_t reference_rtu_station(uint16_t *words, size_t words_count, const uint8_t *attributes, size_t attributes_count,
                              uint32_t profile, uint32_t own, const uint8_t *frame, size_t frame_count, uint8_t *room,
                              size_t room_count, struct jeulgopae_counters *counters);
int32_t reference_ascii_station(uint16_t *words, size_t words_count, const uint8_t *attributes, size_t attributes_count,
                                uint32_t profile, uint32_t own, const uint8_t *frame, size_t frame_count, uint8_t *room,
                                size_t room_count, struct jeulgopae_counters *counters);
int32_t reference_meeting(const uint8_t *attributes, size_t attributes_count, uint32_t profile, uint32_t one_format, uint32_t one_own,
                          const uint8_t *one_frame, size_t one_count, uint32_t other_format, uint32_t other_own,
                          const uint8_t *other_frame, size_t other_count);
/* What a frame may touch there: 0 nothing, 1 it reads, 2 it writes, 3 both. */
int reference_touches(const uint8_t *attributes, size_t attributes_count, uint32_t profile, uint32_t format, uint32_t own,
                      const uint8_t *frame, size_t count);
int32_t reference_mewtocol_write(uint32_t station, uint32_t form, uint32_t command, uint32_t first, uint32_t second, uint32_t value,
                                 const uint32_t *contacts, size_t contacts_count, const uint8_t *values, size_t values_count,
                                 const uint16_t *words, size_t words_count, uint8_t *room, size_t room_count);
int32_t reference_mewtocol_read(uint32_t station, uint32_t form, uint32_t command, uint32_t first, uint32_t second, uint32_t value,
                                const uint32_t *contacts, size_t contacts_count, const uint8_t *values, size_t values_count,
                                const uint16_t *words, size_t words_count, const uint8_t *frame, size_t frame_count);
int32_t reference_data_word(const uint8_t *part, size_t part_count, uint32_t i);
int32_t reference_data_contact(const uint8_t *part, size_t part_count, size_t i);
int32_t reference_laser_read(const uint8_t *frame, size_t frame_count);
int32_t reference_laser_write(uint8_t first, uint8_t second, const uint8_t *bytes, size_t bytes_count, uint8_t *room,
                              size_t room_count);
int32_t reference_laser_distance(const uint8_t *frame, size_t frame_count);
int32_t reference_register_address(uint32_t number);
int32_t reference_register_number(uint32_t address);
int32_t reference_coil_address(uint32_t number);
int32_t reference_coil_number(uint32_t address);
int32_t reference_pair_value(uint16_t low, uint16_t high);
int32_t reference_pair_low(int32_t value);
int32_t reference_pair_high(int32_t value);
int32_t reference_bits_differing(const uint8_t *a, size_t a_count, const uint8_t *b, size_t b_count);
int32_t reference_crc(const uint8_t *bytes, size_t bytes_count);

#endif
