/* Judges some setups and some command block wrappers, as a controller does before it touches anything, and prints each judgement. */
#include <stdio.h>
#include "judgements.h"

#define JUDGE(...) \
    do { \
        const uint8_t setup[] = {__VA_ARGS__}; \
        printf("%u\n", judge_setup(setup, sizeof setup)); \
    } while (0)

/* a wrapper for one block, with its flags, unit, command length and operation code; the rest of the command is zeros */
#define WRAPPER(flags, unit, length, code) \
    {'U', 'S', 'B', 'C', 0x01, 0x00, 0x00, 0x00, 0x00, 0x02, 0x00, 0x00, flags, unit, length, code}

#define JUDGE_CBW(highest, ...) \
    do { \
        const uint8_t cbw[31] = __VA_ARGS__; \
        printf("%u\n", judge_cbw(cbw, sizeof cbw, highest)); \
    } while (0)

#define TEST_UNIT_READY 0x00
#define PREVENT_REMOVAL 0x1E /* an unlisted command */
#define READ_10 0x28

static void judge_cbws(void) {
    JUDGE_CBW(0, WRAPPER(0x80, 0, 10, READ_10));
    JUDGE_CBW(0, WRAPPER(0x00, 0, 10, READ_10)); /* which way the data go is the command's matter */
    JUDGE_CBW(0, WRAPPER(0x81, 0, 10, READ_10)); /* no such flags */
    JUDGE_CBW(0, WRAPPER(0x80, 1, 10, READ_10)); /* no such unit */
    JUDGE_CBW(1, WRAPPER(0x80, 1, 10, READ_10)); /* the highest unit */
    JUDGE_CBW(3, WRAPPER(0x80, 0x10, 10, READ_10)); /* the unit is a whole byte */
    JUDGE_CBW(0, WRAPPER(0x80, 0, 9, READ_10)); /* a byte of the command is not covered */
    JUDGE_CBW(0, WRAPPER(0x80, 0, 16, READ_10)); /* more than the command is covered */
    JUDGE_CBW(0, WRAPPER(0x80, 0, 17, READ_10)); /* more than there is */
    JUDGE_CBW(0, WRAPPER(0x80, 0, 0, READ_10)); /* nothing */
    JUDGE_CBW(0, WRAPPER(0x00, 0, 5, TEST_UNIT_READY)); /* a command of six bytes */
    JUDGE_CBW(0, WRAPPER(0x00, 0, 6, TEST_UNIT_READY));
    JUDGE_CBW(0, WRAPPER(0x00, 0, 1, PREVENT_REMOVAL)); /* any length will do */
    JUDGE_CBW(0, WRAPPER(0x00, 0, 0, PREVENT_REMOVAL)); /* but none */
    JUDGE_CBW(0, {'U', 'S', 'B', 'S', [14] = 10, [15] = READ_10}); /* another signature */
}

static void judge_cut_cbw(void) {
    const uint8_t cbw[32] = WRAPPER(0x80, 0, 10, READ_10);
    printf("%u\n", judge_cbw(cbw, 30, 0));
    printf("%u\n", judge_cbw(cbw, 32, 0));
    printf("%u\n", judge_cbw(cbw, 0, 0));
}

static void judge_setups(void) {
    JUDGE(0x80, 0x06, 0x00, 0x01, 0x00, 0x00, 0x12, 0x00); /* device descriptor */
    JUDGE(0x80, 0x06, 0x00, 0x03, 0x00, 0x00, 0xFF, 0x00); /* a string descriptor: unlisted */
    JUDGE(0xA1, 0xFE, 0x00, 0x00, 0x00, 0x00, 0x02, 0x00); /* highest unit in two bytes */
    JUDGE(0x21, 0xFC, 0x01, 0x00, 0x00, 0x00, 0x9C, 0x00); /* Store Passphrase of 156 bytes */
    JUDGE(0x21, 0xFC, 0x01, 0x00, 0x00, 0x00, 0x9D, 0x00); /* and of 157 */
    JUDGE(0x21, 0xFC, 0x08, 0x00, 0x00, 0x00, 0x00, 0x00); /* no such Put */
    JUDGE(0x80, 0x06, 0x00, 0x01, 0x00, 0x00, 0x12); /* seven bytes */
}

int main(void) {
    judge_setups();
    judge_cbws();
    judge_cut_cbw();
    return 0;
}
