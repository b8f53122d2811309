/* What the dearest input costs a receiver: a key 1,024 ahead, with 64 buffered messages of 200 bytes whose tags are right. */
#include "../include/tesla.h"
#include <stdio.h>
#include <stdlib.h>
#include <string.h>
#include <time.h>
#include <ucontext.h>

void c_loop_hmac(const uint8_t *key, size_t key_len, const uint8_t *text, size_t len, uint8_t out[32]);

enum { LAST = 1024, STACK = 1 << 20, ROUNDS = 200 };
static uint8_t keys[LAST + 1][32], settings[47], record[256], key_record[35] = {2, LAST >> 8, LAST & 255};
static uint8_t *receiver, *fresh, *deliveries, *stack;
static ucontext_t here, there;
static volatile int answer;

static size_t message(unsigned interval, uint8_t index, uint8_t out[255]) {
    static const uint8_t mac_byte[1] = {2};
    uint8_t mac_key[32], mac[32];
    memset(out, 0, 255);
    out[0] = 1;
    out[1] = (uint8_t)(interval >> 8);
    out[2] = (uint8_t)interval;
    out[3] = index;
    out[4] = 200;
    memset(out + 5, index, 200);
    c_loop_hmac(keys[interval], 32, mac_byte, 1, mac_key);
    c_loop_hmac(mac_key, 32, out, 205, mac);
    memcpy(out + 205, mac, 16);
    return 255;
}

static void call(void) { answer = tesla_receiver_air(receiver, key_record, sizeof key_record, deliveries); }

static int full_receiver(void) {
    uint8_t bytes[255], tick[9] = {3};
    uint32_t now = (LAST - 1) * 60 + 1;
    if (tesla_receiver_new(fresh, settings, sizeof settings)) return 1;
    for (int i = 0; i < 4; i++) tick[8 - i] = (uint8_t)(now >> 8 * i);
    if (tesla_receiver_clock(fresh, tick, sizeof tick)) return 2;
    for (unsigned i = 0; i < 64; i++)
        if (tesla_receiver_air(fresh, bytes, message(LAST - i / 16, (uint8_t)(i % 16), bytes), deliveries)) return 3;
    return 0;
}

int main(void) {
    static const uint8_t step_byte[1] = {1};
    memset(keys[LAST], 7, 32);
    for (int i = LAST; i > 0; i--) c_loop_hmac(keys[i], 32, step_byte, 1, keys[i - 1]);
    uint8_t numbers[7] = {0, 60, 8, 0, 5, LAST >> 8, LAST & 255};
    memcpy(settings + 8, numbers, 7);
    memcpy(settings + 15, keys[0], 32);
    memcpy(key_record + 3, keys[LAST], 32);
    receiver = calloc(1, tesla_receiver_size());
    fresh = calloc(1, tesla_receiver_size());
    deliveries = calloc(1, tesla_deliveries_size());
    stack = malloc(STACK);
    int bad = full_receiver();
    if (bad) return printf("setup failed at %d\n", bad), 1;

    memset(stack, 0xa5, STACK);
    memcpy(receiver, fresh, tesla_receiver_size());
    getcontext(&there);
    there.uc_stack.ss_sp = stack;
    there.uc_stack.ss_size = STACK;
    there.uc_link = &here;
    makecontext(&there, call, 0);
    swapcontext(&here, &there);
    size_t untouched = 0, count = 0;
    while (untouched < STACK && stack[untouched] == 0xa5) untouched++;
    while (tesla_delivery(deliveries, count, record)) count++;
    printf("state %zu bytes, deliveries %zu bytes\n", tesla_receiver_size(), tesla_deliveries_size());
    printf("dearest input: answer %d, %zu delivered, stack %zu bytes\n", answer, count, STACK - untouched);

    double least = 1e9, all = 0;
    for (int r = 0; r < ROUNDS; r++) {
        struct timespec a, b;
        memcpy(receiver, fresh, tesla_receiver_size());
        clock_gettime(CLOCK_PROCESS_CPUTIME_ID, &a);
        call();
        clock_gettime(CLOCK_PROCESS_CPUTIME_ID, &b);
        double us = (b.tv_sec - a.tv_sec) * 1e6 + (b.tv_nsec - a.tv_nsec) / 1e3;
        all += us;
        if (us < least) least = us;
    }
    printf("time: mean %.0f us, least %.0f us, of %d\n", all / ROUNDS, least, ROUNDS);
    return 0;
}
