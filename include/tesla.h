/* A receiver of authenticated broadcasts, over memory that the caller owns.
   Link with libreceiver_c.a (tools/build.sh receiver_c) and the toolchain's c/libos_c.a and c/liblibc_c.a. */
#ifndef TESLA_H
#define TESLA_H

#include <stddef.h>
#include <stdint.h>

/* How much memory a receiver takes, and what one call can deliver; both aligned to 8 bytes. */
size_t tesla_receiver_size(void);
size_t tesla_deliveries_size(void);

/* Makes a receiver of the settings' 47 bytes: 0, or 1 or 11, and then the memory is as it was. */
uint8_t tesla_receiver_new(void *receiver, const uint8_t *settings, size_t settings_len);

/* Bytes of the receiver's own clock: 0, 1 or 10. Never hand it anything from the air. */
uint8_t tesla_receiver_clock(void *receiver, const uint8_t *bytes, size_t len);

/* Bytes from the air: 0 to 9. What is delivered stands in deliveries: memory apart from the receiver, zeroed at first. */
uint8_t tesla_receiver_air(void *receiver, const uint8_t *bytes, size_t len, void *deliveries);

/* Delivery i, from 0, as a record of kind 16: its length, or 0 if there is none. */
size_t tesla_delivery(const void *deliveries, size_t i, uint8_t record[256]);

#endif
