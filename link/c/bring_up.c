/* Brings a device up as a driver would, refuses one of its requests, and shows what a host sees of it. The script `link/test`
 * holds what is printed to bring_up.out. */
#include "../dewbracket.h"

#include <inttypes.h>
#include <stdio.h>

static uint64_t actions[DEWBRACKET_ACTION_WORDS];

static const char *const names[] = {
    "none",     "register",         "unregister", "enable interrupts", "activate",       "reset device", "reset interrupts",
    "set mode", "update a message", "mask",       "unmask",            "acked features", "read config",  "write config",
};

static bool answered(uint64_t kind) {
    return kind == DEWBRACKET_REGISTER || (kind >= DEWBRACKET_ENABLE_INTERRUPTS && kind <= DEWBRACKET_RESET_DEVICE) ||
           (kind >= DEWBRACKET_MODE && kind <= DEWBRACKET_UNMASK);
}

/* The host's side: performs the records in order from `from` on, and refuses the answered request `refuse`, counted from 0
 * over all of them. It gives the number of the one refused, or -1. */
static int perform(size_t from, size_t count, int refuse) {
    int request = 0;
    for (size_t i = 0; i < count; i++) {
        const uint64_t *record = actions + 5 * i;
        bool asked = answered(record[0]);
        if (i >= from) {
            printf("    %s", names[record[0]]);
            for (int operand = 1; operand < 5; operand++) printf(" %" PRIx64, record[operand]);
            printf(asked && request == refuse ? ": refused\n" : "\n");
        }
        if (asked && request++ == refuse) return refuse;
    }
    return -1;
}

/* A write of one word, as a VMM does it: by the poll where that is enough, since then there is nothing to perform. */
static void write_word(dewbracket_device *device, uint64_t offset, uint32_t value, int refuse) {
    uint8_t bytes[4] = {value, value >> 8, value >> 16, value >> 24};
    printf("write %03" PRIx64 " %" PRIx32 "\n", offset, value);
    if (dewbracket_poll_write(device, offset, bytes, sizeof bytes, DEWBRACKET_ACTION_WORDS)) return;
    dewbracket_device old = *device;
    dewbracket_told told =
        dewbracket_write(device, DEWBRACKET_ALL, offset, bytes, sizeof bytes, actions, DEWBRACKET_ACTION_WORDS);
    int refused = perform(0, told.count, refuse);
    if (refused < 0) return;
    /* Up to the refused request the records were performed. From the old device, with as many accepted as were, come the
     * same records again, and behind them those that undo. */
    *device = old;
    told = dewbracket_write(device, refused, offset, bytes, sizeof bytes, actions, DEWBRACKET_ACTION_WORDS);
    size_t performed = 0;
    for (int request = 0; request <= refused; performed++) request += answered(actions[5 * performed]);
    perform(performed, told.count, -1);
}

static uint32_t read_word(const dewbracket_device *device, uint64_t offset) {
    uint8_t reply[4] = {0};
    dewbracket_quick polled = dewbracket_poll_read(device, offset, sizeof reply, DEWBRACKET_ACTION_WORDS);
    if (polled.done) return polled.value;
    dewbracket_read(device, DEWBRACKET_ALL, offset, reply, sizeof reply, actions, DEWBRACKET_ACTION_WORDS);
    return reply[0] | reply[1] << 8 | reply[2] << 16 | (uint32_t)reply[3] << 24;
}

static void lay_queue(dewbracket_device *device, uint32_t queue) {
    write_word(device, 0x030, queue, -1);
    write_word(device, 0x038, 256, -1);
    write_word(device, 0x080, 0x10000 * (queue + 1), -1);
    write_word(device, 0x090, 0x10000 * (queue + 1) + 0x4000, -1);
    write_word(device, 0x0a0, 0x10000 * (queue + 1) + 0x8000, -1);
    write_word(device, 0x044, 1, -1);
}

static void climb(dewbracket_device *device) {
    write_word(device, 0x070, 0x1, -1);
    write_word(device, 0x070, 0x3, -1);
    write_word(device, 0x020, 0x20, -1);
    write_word(device, 0x070, 0xb, -1);
    lay_queue(device, 0);
    lay_queue(device, 1);
}

int main(void) {
    dewbracket_configuration configuration = {
        .base = 0xd0000000, .size = 0x2000, .memory = 0x10000000, .kind = 2, .page0 = 0x20, .page1 = 1,
        .dataqueues = 2, .sizes = {256, 256},
    };
    dewbracket_made made = dewbracket_new(configuration);
    printf("new: refusal %" PRIu32 "\n", made.refusal);
    dewbracket_device device = made.device;

    /* The host refuses the second registration: the start fails, and what was done is undone. */
    climb(&device);
    write_word(&device, 0x070, 0xf, 1);
    printf("status %" PRIx32 "\n", dewbracket_driver_status(device));

    /* A failed device stays failed, so the VMM makes a fresh one; now the host accepts everything. */
    device = dewbracket_new(configuration).device;
    climb(&device);
    write_word(&device, 0x070, 0xf, -1);
    printf("status %" PRIx32 ", queue 1 ready %" PRIu32 "\n", dewbracket_driver_status(device),
           dewbracket_field(device, 1, DEWBRACKET_READY).value);
    dewbracket_standing notify = dewbracket_held_entry(device, 1, DEWBRACKET_NOTIFY);
    printf("notify of queue 1: stands %d at %" PRIx64 "\n", notify.stands, notify.entry.address);

    dewbracket_raise(&device, 1, actions, DEWBRACKET_ACTION_WORDS);
    printf("interrupts %" PRIx32 "\n", read_word(&device, 0x060));
    write_word(&device, 0x064, 1, -1);
    printf("interrupts %" PRIx32 "\n", read_word(&device, 0x060));
    printf("a queue that isn't there: refusal %" PRIu32 "\n", dewbracket_field(device, 2, DEWBRACKET_READY).refusal);
    printf("too few words: refusal %" PRIu32 "\n", dewbracket_raise(&device, 1, actions, 319).refusal);
    return 0;
}
