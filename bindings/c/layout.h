/* Sizes and offsets of the header's structs, on a target of 64 bits: bindings in other languages repeat them. */
#ifndef JC_LAYOUT_H
#define JC_LAYOUT_H
#include "cadwrelch.h"
#include <assert.h>

#define AT(type, field, offset) static_assert(offsetof(type, field) == (offset), #type "." #field)
#define SIZE(type, size) static_assert(sizeof(type) == (size), #type)

SIZE(jc_desk, 16);
AT(jc_desk, is_open, 8);
SIZE(jc_shape, 32);
AT(jc_shape, capacity, 8);
AT(jc_shape, history, 16);
AT(jc_shape, read_through, 24);
AT(jc_shape, write_through, 25);
AT(jc_shape, keeps_events, 26);
AT(jc_shape, out_size, 28);
SIZE(jc_value, 260);
AT(jc_value, bytes, 4);
SIZE(jc_key, 36);
AT(jc_key, bytes, 4);
SIZE(jc_entry, 296);
AT(jc_entry, value, 36);
SIZE(jc_out, JC_OUT_SIZE);
AT(jc_out, reply, 4);
AT(jc_out, code, 8);
AT(jc_out, place, 12);
AT(jc_out, shared, 16);
AT(jc_out, moves, 20);
AT(jc_out, number, 24);
AT(jc_out, call, 32);
AT(jc_out, value, 40);
AT(jc_out, left, 300);
AT(jc_out, victim, 560);
AT(jc_out, evicted, 596);
SIZE(jc_processed, 808);
AT(jc_processed, load_code, 4);
AT(jc_processed, effect, 8);
AT(jc_processed, code, 12);
AT(jc_processed, write, 16);
AT(jc_processed, write_code, 20);
AT(jc_processed, has_outcome, 24);
AT(jc_processed, loaded, 28);
AT(jc_processed, set, 288);
AT(jc_processed, outcome, 548);
SIZE(jc_flat_event, 1664);
AT(jc_flat_event, session, 4);
AT(jc_flat_event, call, 8);
AT(jc_flat_event, op, 16);
AT(jc_flat_event, is_shared, 20);
AT(jc_flat_event, shared_with, 24);
AT(jc_flat_event, reply, 28);
AT(jc_flat_event, reply_code, 32);
AT(jc_flat_event, cause, 36);
AT(jc_flat_event, key, 40);
AT(jc_flat_event, value, 76);
AT(jc_flat_event, other, 336);
AT(jc_flat_event, replied, 596);
AT(jc_flat_event, outside, 856);
SIZE(jc_statistics, 40);
AT(jc_statistics, evictions, 32);
#endif
