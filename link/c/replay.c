/* Replays the trace on standard input and prints its text, with the actions and the queues' fields. */
#include "../dewbracket.h"

#include <stdio.h>
#include <stdlib.h>

/* A longer trace than 65,536 bytes is refused, and one byte more tells that it is longer. */
static uint8_t trace[65537];

int main(void) {
    size_t length = fread(trace, 1, sizeof trace, stdin);
    size_t records = length < 8 ? 0 : trace[4] | trace[5] << 8;
    /* No good trace has more. */
    if (records > 2000) records = 2000;
    size_t room = DEWBRACKET_TEXT_ROOM + DEWBRACKET_RECORD_ROOM * records;
    uint8_t *text = malloc(room);
    if (!text) return 1;
    dewbracket_show show = {.actions = true, .fields = true};
    dewbracket_played played = dewbracket_replay(trace, length, show, text, room);
    fwrite(text, 1, played.length, stdout);
    printf("status %02x\n", (unsigned)dewbracket_driver_status(played.device));
    free(text);
    return !played.whole;
}
