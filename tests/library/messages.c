/* The calls on messages, frames and words. What is a message is said here a second time, by the table of docs/FORMATS.md. */
#include "calls.h"

#include <string.h>

static const uint16_t carried_numbers[] = {0, 1, 5, 599, 600, 1000, 32768, 65534, 65535};
enum { CARRIED = sizeof carried_numbers / sizeof *carried_numbers };

static bool is_message(uint8_t header, uint16_t carried)
{
    unsigned kind = header & 7, level = header >> 3 & 7, find = header >> 6 & 1;
    bool none = carried == MURUAPY_NONE, link = carried < MURUAPY_LINKS;
    if (header > 127)
        return false;
    switch (kind) {
    case MURUAPY_CONNECT: return find == 0 && none;
    case MURUAPY_INITIATE: return level > 0 && link;
    case MURUAPY_TEST: return level > 0 && find == 0 && link;
    case MURUAPY_ACCEPT:
    case MURUAPY_REJECT:
    case MURUAPY_CHANGE_ROOT: return level == 0 && find == 0 && none;
    case MURUAPY_REPORT: return level == 0 && find == 0 && (none || link);
    default: return false;
    }
}

static void headers(void)
{
    static const uint16_t levels[] = {0, 1, 2, 7, 8, 256, 263, 65535};
    static const uint8_t finds[] = {0, 1, 2, 255};
    unsigned kind, i, j;
    for (kind = 0; kind < 256; kind++)
        for (i = 0; i < 8; i++)
            for (j = 0; j < 4; j++) {
                bool fits = kind < 8 && levels[i] < 8 && finds[j] < 2;
                unsigned want = fits ? kind | (unsigned)levels[i] << 3 | (unsigned)finds[j] << 6 : 255;
                gave("header", muruapy_header((uint8_t)kind, levels[i], finds[j]), want, true);
            }
    for (i = 0; i < 256; i++) {
        gave("header_kind", muruapy_header_kind((uint8_t)i), i & 7, true);
        gave("header_level", muruapy_header_level((uint8_t)i), i >> 3 & 7, true);
        gave("header_find", muruapy_header_find((uint8_t)i), i >> 6 & 1, true);
    }
}

/* The bytes checked and read: both answer the number. */
static void frame_gives(const uint8_t *bytes, size_t length, uint32_t number)
{
    const uint8_t *shown = show(bytes, length);
    uint8_t *header = lend(NULL, 1);
    uint16_t *carried = lend(NULL, 2);
    answered("frame_check", muruapy_frame_check(shown, length), number, NULL);
    answered("frame_read", muruapy_frame_read(shown, length, header, carried), number, NULL);
    if (number == 0)
        must(*header == bytes[3] && *carried == bytes[4] * 256 + bytes[5], "another message is read");
    take_back();
}

static void frame_written(uint8_t header, uint16_t carried, size_t room, uint32_t number)
{
    uint8_t want[6] = {1, 0, 3, header, (uint8_t)(carried >> 8), (uint8_t)carried};
    uint8_t *bytes = lend(NULL, room);
    answered("frame_write", muruapy_frame_write(header, carried, bytes, room), number, NULL);
    if (number == 0)
        must(memcmp(bytes, want, 6) == 0, "another frame is written");
    take_back();
}

/* Every header with some carried numbers; buffers of other sizes for some of them. */
static void frames(void)
{
    unsigned h, i;
    size_t n;
    for (h = 0; h < 256; h++)
        for (i = 0; i < CARRIED; i++) {
            uint16_t c = carried_numbers[i];
            uint8_t bytes[8] = {1, 0, 3, (uint8_t)h, (uint8_t)(c >> 8), (uint8_t)c, 0, 0};
            bool good = is_message((uint8_t)h, c);
            gave("message_listed", muruapy_message_listed((uint8_t)h, c), good, true);
            frame_gives(bytes, 6, good ? 0 : 63);
            frame_written((uint8_t)h, c, 6, good ? 0 : 63);
            if (h % 32 != 1)
                continue;
            for (n = 0; n <= 8; n += n == 6 ? 2 : 1)
                if (n != 6) {
                    frame_gives(bytes, n, 61);
                    frame_written((uint8_t)h, c, n, good ? 64 : 63);
                }
        }
}

static void frame_heads(void)
{
    unsigned at, bit;
    for (at = 0; at < 3; at++)
        for (bit = 1; bit < 256; bit *= 2) {
            uint8_t bytes[6] = {1, 0, 3, 0x52, 0, 5};
            frame_gives(bytes, 6, 0);
            bytes[at] = (uint8_t)(bytes[at] ^ bit);
            frame_gives(bytes, 6, 62);
        }
}

static void words(void)
{
    static const struct {
        uint64_t word;
        uint8_t header;
        uint16_t carried, link;
        bool handed;
    } some[] = {
        {0, 0, 0, 0, false},
        {0x0000020000ffff01u, 0x01, 65535, 0, false},
        {0x0000030003ffff01u, 0x01, 65535, 3, true},
        {0x000002000000004au, 0x4a, 0, 0, false},
        {0x000003ffff025706u, 0x06, 599, 65535, true},
        {0xfffffeffffffffffu, 0xff, 65535, 65535, false},
        {UINT64_MAX, 0xff, 65535, 65535, true},
    };
    size_t i;
    for (i = 0; i < sizeof some / sizeof *some; i++) {
        gave("word_header", muruapy_word_header(some[i].word), some[i].header, true);
        gave("word_carried", muruapy_word_carried(some[i].word), some[i].carried, true);
        gave("word_link", muruapy_word_link(some[i].word), some[i].link, true);
        gave("word_handed", muruapy_word_handed(some[i].word), some[i].handed, true);
    }
}

/* Words wait before the first 0, however many are lent. */
static void waiting(void)
{
    static const uint64_t some[] = {5, UINT64_MAX, 1, 0, 7, 0};
    size_t room, want;
    for (room = 0; room <= 6; room++) {
        want = room < 3 ? room : 3;
        gave("waiting", muruapy_waiting(show(some, room * 8), room), want, true);
        take_back();
    }
    gave("waiting", muruapy_waiting(show(some + 3, 8), 1), 0, true);
    take_back();
    gave("waiting", muruapy_waiting(show(NULL, MURUAPY_WORDS * 8), MURUAPY_WORDS), MURUAPY_WORDS, true);
    take_back();
}

void message_calls(void)
{
    headers();
    frames();
    frame_heads();
    words();
    waiting();
}
