/* The proved virtio MMIO device, for C. Link libdewbracket.a, which `link/archive` writes to target/staticlib.
 *
 * A device is plain data: it may be copied, kept and put back. Every function here is proved to answer on every input;
 * what C must keep to is what its types say: pointers that are valid for their lengths and overlap nothing else, and a
 * `bool` that is 0 or 1. */
#ifndef DEWBRACKET_H
#define DEWBRACKET_H

#include <stdbool.h>
#include <stddef.h>
#include <stdint.h>

#ifdef __cplusplus
extern "C" {
#endif

enum {
    DEWBRACKET_QUEUES = 16,
    DEWBRACKET_VECTORS = 32,
    DEWBRACKET_REGIONS = 8,
    /* The words that every access and raise must be lent: five for each of at most 64 records. With fewer it is refused
     * (7), and nothing happens. */
    DEWBRACKET_ACTION_WORDS = 320,
    /* The bytes that a replay must be lent: so many, and so many more for each record of the trace. */
    DEWBRACKET_TEXT_ROOM = 128,
    DEWBRACKET_RECORD_ROOM = 10304
};

/* An outcome number by which every request is accepted. */
#define DEWBRACKET_ALL UINT32_MAX

/* The kinds of action: the first of a record's five words. The other four are its operands. */
enum {
    DEWBRACKET_REGISTER = 1,
    DEWBRACKET_UNREGISTER = 2,
    DEWBRACKET_ENABLE_INTERRUPTS = 3,
    DEWBRACKET_ACTIVATE = 4,
    DEWBRACKET_RESET_DEVICE = 5,
    DEWBRACKET_RESET_INTERRUPTS = 6,
    DEWBRACKET_MODE = 7,
    DEWBRACKET_UPDATE = 8,
    DEWBRACKET_MASK = 9,
    DEWBRACKET_UNMASK = 10,
    DEWBRACKET_ACKED_FEATURES = 11,
    DEWBRACKET_READ_CONFIG = 12,
    DEWBRACKET_WRITE_CONFIG = 13
};

/* The fields of a queue, by number. */
enum {
    DEWBRACKET_SIZE = 0,
    DEWBRACKET_READY = 1,
    DEWBRACKET_DESC_LOW = 2,
    DEWBRACKET_DESC_HIGH = 3,
    DEWBRACKET_AVAIL_LOW = 4,
    DEWBRACKET_AVAIL_HIGH = 5,
    DEWBRACKET_USED_LOW = 6,
    DEWBRACKET_USED_HIGH = 7
};

/* The registrations of a queue, by number. */
enum { DEWBRACKET_DOORBELL = 0, DEWBRACKET_NOTIFY = 1 };

typedef struct {
    uint64_t offset;
    uint64_t length;
} dewbracket_region;

/* What the gateway hands over. */
typedef struct {
    uint64_t base;
    uint64_t size;
    uint64_t memory;
    uint32_t kind;
    bool given;
    uint32_t features;
    bool wildcard;
    bool msi;
    uint32_t page0;
    uint32_t page1;
    uint32_t vectors;
    uint32_t dataqueues;
    uint32_t control;
    uint16_t sizes[DEWBRACKET_QUEUES];
    uint32_t regions;
    uint64_t list;
    dewbracket_region table[DEWBRACKET_REGIONS];
} dewbracket_configuration;

/* The device. Its fields are its own: ask it by the functions below. */
typedef struct {
    struct {
        uint32_t status;
        uint32_t interrupts;
        uint32_t vendor;
        uint32_t page;
        uint32_t ackpage;
        uint32_t queue;
        uint32_t region;
        bool doorbell;
        bool msi;
    } hot;
    struct {
        uint64_t base;
        uint64_t memory;
        uint64_t list;
        uint32_t kind;
        uint32_t page0;
        uint32_t page1;
        uint32_t vectors;
        uint32_t dataqueues;
        uint32_t count;
        uint32_t regions;
        uint16_t sizes[DEWBRACKET_QUEUES];
        dewbracket_region table[DEWBRACKET_REGIONS];
    } config;
    struct {
        bool active;
        bool registered;
        bool enabled;
    } flags;
    struct {
        uint32_t index_select;
        uint32_t address_low;
        uint32_t address_high;
        uint32_t data;
    } stage;
    struct {
        uint16_t size;
        bool ready;
        uint32_t desclow;
        uint32_t deschigh;
        uint32_t availlow;
        uint32_t availhigh;
        uint32_t usedlow;
        uint32_t usedhigh;
    } queues[DEWBRACKET_QUEUES];
    struct {
        bool bell;
        bool note;
    } held[DEWBRACKET_QUEUES];
    struct {
        uint32_t low;
        uint32_t high;
        uint32_t message;
        bool masked;
    } vectors[DEWBRACKET_VECTORS];
} dewbracket_device;

/* A fresh device and 0, or a device of zeros and the number of the refusal, 1 to 6. */
typedef struct {
    uint32_t refusal;
    dewbracket_device device;
} dewbracket_made;

/* What is told of an access or a raise: refusal 7 or 0, how many reply bytes were written (0: there is no reply), and how
 * many action records stand in the lent words. */
typedef struct {
    uint32_t refusal;
    uint32_t reply;
    size_t count;
} dewbracket_told;

/* A field of a queue and 0, or 0 and refusal 13. */
typedef struct {
    uint32_t refusal;
    uint32_t value;
} dewbracket_reply;

/* Whether a registration stands, and what it is made with; or zeros and refusal 13. */
typedef struct {
    uint32_t refusal;
    bool stands;
    struct {
        uint64_t queue;
        uint64_t address;
        uint64_t width;
        uint64_t value;
    } entry;
} dewbracket_standing;

dewbracket_made dewbracket_new(dewbracket_configuration configuration);

/* An access or a raise. The device changes in place, the reply's bytes are written to `reply` (their number is the
 * access's length), and the requests to the host to `actions`, five words each.
 *
 * The outcome number k says how many of the requests that the host answers (kinds 1, 3, 4, 5, 7, 8, 9 and 10) are
 * accepted: the first k of them are, the next is refused, and none follows it. A host can't know that before it has seen
 * them. So keep a copy of the device, step with DEWBRACKET_ALL and perform the actions in order. Where the host refuses the
 * answered request j, counted from 0, put the copy back and step again with k = j: the records are the same as far as the
 * refused one, and those after it undo what was done. A read goes the same whatever k is. */
dewbracket_told dewbracket_read(const dewbracket_device *device, uint32_t k, uint64_t offset, uint8_t *reply,
                                size_t length, uint64_t *actions, size_t words);
dewbracket_told dewbracket_write(dewbracket_device *device, uint32_t k, uint64_t offset, const uint8_t *bytes,
                                 size_t length, uint64_t *actions, size_t words);
dewbracket_told dewbracket_raise(dewbracket_device *device, uint32_t bits, uint64_t *actions, size_t words);

/* The registers that a guest polls, for a caller that counts nanoseconds. An access is tried by its poll first, with the
 * length and the number of words that it would be given, and where that isn't done by the full function above:
 * nothing happened then. Where it is done, all is done that the full function would do, and nothing is asked of the host.
 * A read (of 060 or 070, four bytes) answers with the register's word, whose bytes, the lowest first, are the reply; a
 * write (of 050 or 064, four bytes) answers whether it is done. */
typedef struct {
    uint32_t value;
    bool done;
} dewbracket_quick;

dewbracket_quick dewbracket_poll_read(const dewbracket_device *device, uint64_t offset, size_t length, size_t words);
bool dewbracket_poll_write(dewbracket_device *device, uint64_t offset, const uint8_t *bytes, size_t length, size_t words);

/* An access or a raise by value, for a caller that keeps no device in place. The device that comes back is the one after it. */
typedef struct {
    dewbracket_device device;
    uint32_t refusal;
    size_t reply;
    size_t count;
} dewbracket_answer;

dewbracket_answer dewbracket_pass_read(dewbracket_device device, uint32_t k, uint64_t offset, uint8_t *reply, size_t length,
                                       uint64_t *actions, size_t words);
dewbracket_answer dewbracket_pass_write(dewbracket_device device, uint32_t k, uint64_t offset, const uint8_t *bytes,
                                        size_t length, uint64_t *actions, size_t words);
dewbracket_answer dewbracket_pass_raise(dewbracket_device device, uint32_t bits, uint64_t *actions, size_t words);

/* The status register; a field of a queue; a registration of a queue. A number that means no field or no registration is
 * answered as a queue that isn't there is. */
uint32_t dewbracket_driver_status(dewbracket_device device);
dewbracket_reply dewbracket_field(dewbracket_device device, uint32_t queue, uint32_t field);
dewbracket_standing dewbracket_held_entry(dewbracket_device device, uint32_t queue, uint32_t kind);

/* Which lines a replay adds to a record's own: its actions, and the fields of the queues. */
typedef struct {
    bool actions;
    bool fields;
} dewbracket_show;

/* A whole trace: the device at its end, how many bytes its text has, and whether there was room for it. */
typedef struct {
    dewbracket_device device;
    size_t length;
    bool whole;
} dewbracket_played;

/* Replays a trace from a fresh device of its configuration and writes its text to the front of `text`, as the program
 * `replay` prints it. Of a bad trace the text is the line that names its refusal, and the device is one of zeros. With less
 * room than the two numbers above say, nothing is written and `whole` is false. */
dewbracket_played dewbracket_replay(const uint8_t *trace, size_t length, dewbracket_show show, uint8_t *text, size_t room);

#ifdef __cplusplus
}
#endif

#endif
