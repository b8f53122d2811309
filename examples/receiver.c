/* A receiver hears a message in time, and believes it when its key comes; a forged one it refuses.
   The sender's side is made by hand here: a chain of three keys, intervals of 60 seconds, D 1, E 5. */
#include "../include/tesla.h"
#include <stdio.h>
#include <stdlib.h>
#include <string.h>

void c_loop_hmac(const uint8_t *key, size_t key_len, const uint8_t *text, size_t len, uint8_t out[32]);

static const uint8_t STEP[1] = {1}, MAC[1] = {2};

static uint8_t clock_at(void *receiver, uint8_t seconds) {
    uint8_t tick[9] = {3, 0, 0, 0, 0, 0, 0, 0, seconds};
    return tesla_receiver_clock(receiver, tick, sizeof tick);
}

/* A message of interval 1 with index 0, and no key behind it. */
static size_t message(const uint8_t key[32], const char *text, uint8_t out[255]) {
    size_t n = strlen(text);
    uint8_t mac_key[32], mac[32];
    memset(out, 0, 255);
    out[0] = 1;
    out[2] = 1;
    out[4] = (uint8_t)n;
    memcpy(out + 5, text, n);
    c_loop_hmac(key, 32, MAC, 1, mac_key);
    c_loop_hmac(mac_key, 32, out, 5 + n, mac);
    memcpy(out + 5 + n, mac, 16);
    return 5 + n + 16 + 2 + 32;
}

int main(void) {
    uint8_t keys[4][32];
    memset(keys[3], 7, 32);
    for (int i = 3; i > 0; i--) c_loop_hmac(keys[i], 32, STEP, 1, keys[i - 1]);
    uint8_t settings[47] = {0, 0, 0, 0, 0, 0, 0, 0, 0, 60, 1, 0, 5, 0, 3};
    memcpy(settings + 15, keys[0], 32);

    void *receiver = calloc(1, tesla_receiver_size()), *deliveries = calloc(1, tesla_deliveries_size());
    if (!receiver || !deliveries) return 1;
    printf("a receiver takes %zu bytes, its deliveries %zu\n", tesla_receiver_size(), tesla_deliveries_size());
    printf("settings: %d\n", tesla_receiver_new(receiver, settings, sizeof settings));

    uint8_t said[255], forged[255], key[35] = {2, 0, 1}, record[256];
    size_t said_len = message(keys[1], "slope 4 is closed", said);
    size_t forged_len = message(keys[1], "slope 4 is open", forged);
    printf("clock 110: %d\n", clock_at(receiver, 110));
    printf("message in time: %d\n", tesla_receiver_air(receiver, said, said_len, deliveries));
    printf("clock 120: %d\n", clock_at(receiver, 120));
    printf("forged once the key may be out: %d\n", tesla_receiver_air(receiver, forged, forged_len, deliveries));
    memcpy(key + 3, keys[1], 32);
    printf("key 1: %d\n", tesla_receiver_air(receiver, key, sizeof key, deliveries));
    for (size_t i = 0, n; (n = tesla_delivery(deliveries, i, record)) > 0; i++)
        printf("delivered: interval %d, index %d, \"%.*s\"\n", record[1] * 256 + record[2], record[3], (int)(n - 5), record + 5);
    free(receiver);
    free(deliveries);
    return 0;
}
