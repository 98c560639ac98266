/*
 * Reads, writes and corrects a message of each kind, counts slots, draws an outline, splits a notice and joins one.
 * Build, in the repository's folder:
 *   rust/native
 *   cc -Wall -Wextra -Werror -I include include/example.c target/native/librelay.a -o example
 */
#include <inttypes.h>
#include <stdio.h>
#include <string.h>

#include "bellnewt.h"

/* An answer in words: its number, and the bit at fault where it has one. The next call puts other words there. */
static const char *said(uint32_t answer)
{
    static char words[32];
    int used = snprintf(words, sizeof words, "%d", bellnewt_code(answer));
    if (bellnewt_bit(answer) > 0)
        snprintf(words + used, sizeof words - (size_t)used, " at bit %" PRIu32, bellnewt_bit(answer));
    return words;
}

static void tell(const char *what, uint32_t answer)
{
    printf("%s: %s\n", what, said(answer));
}

/* Shows what a reading answered, and its row if that is good; answers whether it is. */
static int show(uint32_t answer, const char *const *names, const int64_t *row, int entries)
{
    tell("read", answer);
    for (int i = 0; answer == BELLNEWT_GOOD && i < entries; i++)
        printf("  %-9s %" PRId64 "\n", names[i], row[i]);
    return answer == BELLNEWT_GOOD;
}

static void show_bytes(const char *name, const uint8_t *bytes, size_t count)
{
    printf("  %-9s", name);
    for (size_t i = 0; i < count; i++)
        printf(" %02x", bytes[i]);
    printf("\n");
}

/* The part of a TXSQ or TXXX frame that its row calls the content. */
static void show_content(const uint8_t *frame, const int64_t *row)
{
    show_bytes("content", frame + row[BELLNEWT_CONTENT_START], (size_t)row[BELLNEWT_CONTENT_BYTES]);
}

/* What stands in the row of a sentence: an address, then the report's own row. */
static const char *const sentence_names[] = {"address", "MMSI",   "longitude", "latitude", "day",
                                             "hour",    "minute", "speed",     "course",   "kind"};

static void show_report(const uint8_t *report)
{
    int64_t row[BELLNEWT_DISTRESS_ROW];
    uint32_t answer = bellnewt_distress_read(report, BELLNEWT_DISTRESS_BYTES, row, BELLNEWT_DISTRESS_ROW);
    show(answer, sentence_names + 1, row, BELLNEWT_DISTRESS_ROW);
}

static void show_sentence(const uint8_t *sentence, size_t size)
{
    int64_t row[BELLNEWT_SENTENCE_ROW];
    uint32_t answer = bellnewt_sentence_read(sentence, size, row, BELLNEWT_SENTENCE_ROW);
    show(answer, sentence_names, row, BELLNEWT_SENTENCE_ROW);
}

/* The example of 001, A.2: its day corrected, two refusals, and sent on in a sentence. */
static void distress(void)
{
    uint8_t report[BELLNEWT_DISTRESS_BYTES] = {0xbd, 0xc1, 0x07, 0x5b, 0xcd, 0x15, 0x38, 0x5c, 0x87,
                                               0x80, 0xd1, 0xba, 0x25, 0x8c, 0x8a, 0x16, 0xc0};
    uint8_t sentence[BELLNEWT_SENTENCE_GREATEST];
    size_t size = 0;

    printf("distress\n");
    show_report(report);
    tell("correct the day to 10", bellnewt_distress_correct(report, sizeof report, BELLNEWT_DISTRESS_DAY, 10));
    show_report(report);
    tell("correct the hour to 25", bellnewt_distress_correct(report, sizeof report, BELLNEWT_DISTRESS_HOUR, 25));
    tell("correct the fill", bellnewt_distress_correct(report, sizeof report, 10, 0));

    uint32_t answer = bellnewt_sentence_write(sentence, sizeof sentence, &size, 1234567, 123456789, 7387407, 107380, 9,
                                              12, 25, 10, 45, 8);
    printf("write the sentence: %s, %zu bytes\n", said(answer), size);
    fwrite(sentence, 1, size, stdout);
    show_sentence(sentence, size);
    tell("write the report with its first day",
         bellnewt_distress_write(report, sizeof report, 123456789, 7387407, 107380, 9, 12, 25, 10, 45, 8));
    show_bytes("report", report, sizeof report);
}

static void gljc(void)
{
    static const char *const names[] = {"address", "minutes"};
    uint8_t frame[BELLNEWT_GLJC_BYTES];
    int64_t row[BELLNEWT_GLJC_ROW];

    printf("GLJC\n");
    tell("write", bellnewt_gljc_write(frame, sizeof frame, 0, 0));
    show_bytes("frame", frame, sizeof frame);
    tell("correct the minutes to 5", bellnewt_gljc_correct(frame, sizeof frame, BELLNEWT_GLJC_MINUTES, 5));
    show(bellnewt_gljc_read(frame, sizeof frame, row, BELLNEWT_GLJC_ROW), names, row, BELLNEWT_GLJC_ROW);
    frame[11] ^= 1;
    printf("with another checksum\n");
    show(bellnewt_gljc_read(frame, sizeof frame, row, BELLNEWT_GLJC_ROW), names, row, BELLNEWT_GLJC_ROW);
}

/* The example of 004, 4.1. */
static void txsq(void)
{
    static const char *const names[] = {"address", "category", "mode", "password", "receiver", "bits", "answer"};
    static const uint8_t content[] = {0xa4, 0x31};
    uint8_t frame[BELLNEWT_TXSQ_BARE + sizeof content];
    int64_t row[BELLNEWT_TXSQ_ROW];

    printf("TXSQ\n");
    tell("write", bellnewt_txsq_write(frame, sizeof frame, content, sizeof content, 131258, 1, 1, 0, 131258, 16, 0));
    show_bytes("frame", frame, sizeof frame);
    tell("correct the receiver to 200001", bellnewt_txsq_correct(frame, sizeof frame, BELLNEWT_TXSQ_RECEIVER, 200001));
    tell("correct the answer to 1, without password",
         bellnewt_txsq_correct(frame, sizeof frame, BELLNEWT_TXSQ_ANSWER, 1));
    if (show(bellnewt_txsq_read(frame, sizeof frame, row, BELLNEWT_TXSQ_ROW), names, row, BELLNEWT_CONTENT_START))
        show_content(frame, row);
}

/* Twelve bits of content: four low bits of its second byte are fill. */
static void txxx(void)
{
    static const char *const names[] = {"address", "class", "sender", "hour", "minute", "bits", "mark"};
    static const uint8_t content[] = {0x12, 0x30};
    uint8_t frame[BELLNEWT_TXXX_BARE + sizeof content];
    int64_t row[BELLNEWT_TXXX_ROW];

    printf("TXXX\n");
    tell("write 11 bits",
         bellnewt_txxx_write(frame, sizeof frame, content, sizeof content, 131258, 0x60, 200001, 23, 59, 11, 0));
    tell("write 12 bits",
         bellnewt_txxx_write(frame, sizeof frame, content, sizeof content, 131258, 0x60, 200001, 23, 59, 12, 0));
    show_bytes("frame", frame, sizeof frame);
    tell("correct the hour to 0", bellnewt_txxx_correct(frame, sizeof frame, BELLNEWT_TXXX_HOUR, 0));
    if (show(bellnewt_txxx_read(frame, sizeof frame, row, BELLNEWT_TXXX_ROW), names, row, BELLNEWT_CONTENT_START))
        show_content(frame, row);
}

/* The counted receipts: when a message was sent, and the time of its receipt. */
static void show_receipts(const int64_t *row)
{
    const int64_t *receipt = row + 3;
    for (int64_t left = row[2]; left > 0; left--, receipt += 4)
        printf("  receipt   %02d:%02d, %02d:%02d\n", (int)receipt[0], (int)receipt[1], (int)receipt[2],
               (int)receipt[3]);
}

static void txhz(void)
{
    static const char *const names[] = {"address", "receiver", "count"};
    static const uint8_t receipts[BELLNEWT_TXHZ_RECEIPTS] = {14, 5, 14, 7, 23, 59, 0, 1};
    uint8_t frame[BELLNEWT_TXHZ_BYTES];
    int64_t row[BELLNEWT_TXHZ_ROW];

    printf("TXHZ\n");
    tell("write", bellnewt_txhz_write(frame, sizeof frame, receipts, sizeof receipts, 131258, 200001, 2));
    show_bytes("frame", frame, sizeof frame);
    tell("correct the count to 1", bellnewt_txhz_correct(frame, sizeof frame, BELLNEWT_TXHZ_COUNT, 1));
    tell("correct the first receipt's minute to 6",
         bellnewt_txhz_correct(frame, sizeof frame, BELLNEWT_TXHZ_FIRST_RECEIPT + 3, 6));
    tell("correct the third receipt", bellnewt_txhz_correct(frame, sizeof frame, BELLNEWT_TXHZ_FIRST_RECEIPT + 8, 6));
    if (show(bellnewt_txhz_read(frame, sizeof frame, row, BELLNEWT_TXHZ_ROW), names, row, 3))
        show_receipts(row);
}

/* A typhoon at 122.5 degrees E, 30 degrees N, and a fog that can't be. */
static void warning(void)
{
    static const char *const names[] = {"repeat", "source", "type",  "longitude", "latitude", "kind",
                                        "gale",   "storm",  "speed", "direction", "force",    "pressure",
                                        "month",  "day",    "hour",  "minute",    "hours"};
    uint8_t message[BELLNEWT_WARNING_BYTES];
    int64_t row[BELLNEWT_WARNING_ROW];

    printf("warning\n");
    tell("write a cyclone",
         bellnewt_cyclone_write(message, sizeof message, 0, 4122100, 3750000, 4800000, 4, 300, 120, 20, 315, 14, 150,
                                8, 27, 6, 30, 24));
    show_bytes("message", message, sizeof message);
    tell("correct the pressure to 160",
         bellnewt_warning_correct(message, sizeof message, BELLNEWT_CYCLONE_PRESSURE, 160));
    tell("correct the time to 27 August, 18:00",
         bellnewt_warning_correct(message, sizeof message, BELLNEWT_WARNING_TIME, 8 << 16 | 27 << 11 | 18 << 6));
    tell("correct the hours to 49", bellnewt_warning_correct(message, sizeof message, BELLNEWT_WARNING_HOURS, 49));
    tell("correct the visibility, which no cyclone has",
         bellnewt_warning_correct(message, sizeof message, BELLNEWT_FOG_VISIBILITY, 5));
    show(bellnewt_warning_read(message, sizeof message, row, BELLNEWT_WARNING_ROW), names, row, BELLNEWT_WARNING_ROW);
    tell("write fog with a visibility of 251",
         bellnewt_fog_write(message, sizeof message, 0, 4122100, 3750000, 4800000, 200, 251, 8, 27, 6, 30, 24));
    tell("write a gale",
         bellnewt_gale_write(message, sizeof message, 0, 4122100, 3750000, 4800000, 120, 8, 10, 3, 8, 27, 6, 30, 24));
    show_bytes("message", message, sizeof message);
    tell("write waves",
         bellnewt_waves_write(message, sizeof message, 0, 4122100, 3750000, 4800000, 90, 6, 13, 8, 27, 6, 30, 24));
    show_bytes("message", message, sizeof message);
    tell("write a surge",
         bellnewt_surge_write(message, sizeof message, 0, 4122100, 3750000, 4800000, 150, 210, 480, 75, 8, 27, 6, 30,
                              24));
    show_bytes("message", message, sizeof message);
}

/* A rectangle between 75 and 74 degrees W, 10.5 and 9.5 degrees S. */
static void area(void)
{
    static const char *const names[] = {"repeat",   "source", "sequence",  "receiver", "resent",
                                        "kind",     "shape",  "longitude", "latitude", "longitude",
                                        "latitude", "month",  "day",       "hour",     "minute",
                                        "month",    "day",    "hour",      "advice"};
    uint8_t message[BELLNEWT_AREA_BYTES];
    int64_t row[BELLNEWT_AREA_ROW];

    printf("area\n");
    tell("write a circle into 30 bytes",
         bellnewt_circle_write(message, 30, 0, 4122100, 1, 413456789, 0, 1, 73500000, 18150000, 25, 8, 27, 6, 30, 8,
                               28, 18, 2));
    tell("write a rectangle",
         bellnewt_rectangle_write(message, sizeof message, 0, 4122100, 3, 413456789, 1, 6, -45000000, -6300000,
                                  -44400000, -5700000, 8, 27, 6, 30, 8, 28, 18, 5));
    show_bytes("message", message, sizeof message);
    tell("correct the second longitude to none",
         bellnewt_area_correct(message, sizeof message, BELLNEWT_RECTANGLE_LONGITUDE, 108600000));
    tell("correct the latitude to -1",
         bellnewt_area_correct(message, sizeof message, BELLNEWT_AREA_LATITUDE, (1 << 27) - 1));
    tell("correct the radius, which no rectangle has",
         bellnewt_area_correct(message, sizeof message, BELLNEWT_CIRCLE_RADIUS, 25));
    show(bellnewt_area_read(message, sizeof message, row, BELLNEWT_AREA_ROW), names, row, BELLNEWT_AREA_ROW);
}

static void slots(void)
{
    static const size_t bytes[] = {12, 13, 121, 122};

    printf("slots of message 8\n");
    for (size_t i = 0; i < sizeof bytes / sizeof bytes[0]; i++) {
        uint8_t count = 0;
        uint32_t answer = bellnewt_slots(8, bytes[i], &count);
        printf("  %zu bytes: %s, slots %d\n", bytes[i], said(answer), count);
    }
}

static void show_notice(const uint8_t *notice, size_t size)
{
    static const char *const names[] = {"source",  "station", "serial", "year",    "type",
                                        "subtype", "expiry",  "count",  "entries", "bytes"};
    int64_t row[BELLNEWT_NOTICE_ROW];
    uint32_t areas[BELLNEWT_NOTICE_ENTRIES];
    uint8_t text[BELLNEWT_NOTICE_TEXT];

    uint32_t answer = bellnewt_notice_read(notice, size, BELLNEWT_ENGLISH, row, BELLNEWT_NOTICE_ROW, areas,
                                           BELLNEWT_NOTICE_ENTRIES, text, sizeof text);
    if (!show(answer, names, row, BELLNEWT_NOTICE_ROW))
        return;
    printf("  areas    ");
    for (int64_t i = 0; i < row[BELLNEWT_NOTICE_ENTRY_AREAS]; i++)
        printf(" %" PRIu32, areas[i]);
    printf("\n  text      %.*s\n", (int)row[BELLNEWT_NOTICE_ENTRY_TEXT], (const char *)text);
}

/* The number that the bits of a latitude spell; of a longitude, with 21 for 20. */
static uint32_t angle(int sign_bit, uint32_t negative, uint32_t degrees, uint32_t minutes, uint32_t hundredths)
{
    return negative << sign_bit | degrees << 13 | minutes << 7 | hundredths;
}

static void show_outline(const uint8_t *notice, size_t size)
{
    int32_t row[BELLNEWT_OUTLINE_ROW];
    size_t points = 0;

    tell("outline into one entry", bellnewt_outline(notice, size, BELLNEWT_ENGLISH, row, 1, &points));
    tell("outline", bellnewt_outline(notice, size, BELLNEWT_ENGLISH, row, BELLNEWT_OUTLINE_ROW, &points));
    for (size_t i = 0; i < points; i++)
        printf("  point     %" PRId32 " %" PRId32 "\n", row[2 * i], row[2 * i + 1]);
}

/* A sea area and a circle around a point south and west: written, its expiry corrected, its outline. */
static void notice(uint8_t *message, size_t size)
{
    const uint32_t south = angle(20, 1, 0, 0, 1), west = angle(21, 1, 180, 60, 99);
    const uint32_t areas[] = {BELLNEWT_NOTICE_AREA_SEA, 17, BELLNEWT_NOTICE_AREA_CIRCLE, south, west, 25, 2};
    static const uint8_t text[] = {'K', 'E', 'E', 'P', ' ', 'C', 'L', 'E', 'A', 'R'};
    const uint32_t august = 8 << 16 | 27 << 11 | 6 << 6 | 30, september = 9 << 16 | 1 << 11 | 12 << 6;

    printf("notice\n");
    tell("write",
         bellnewt_notice_write(message, size, areas, sizeof areas / sizeof areas[0], text, sizeof text,
                               BELLNEWT_ENGLISH, 11, 2, 123, 24, 4, 11, august, 2));
    show_bytes("notice", message, size);
    show_notice(message, size);
    tell("correct the expiry to 1 September, 12:00",
         bellnewt_notice_correct(message, size, BELLNEWT_ENGLISH, BELLNEWT_NOTICE_EXPIRY, september));
    tell("correct the expiry to month 13",
         bellnewt_notice_correct(message, size, BELLNEWT_ENGLISH, BELLNEWT_NOTICE_EXPIRY, 13 << 16 | 1 << 11));
    tell("correct the circle's radius to 30",
         bellnewt_notice_correct(message, size, BELLNEWT_ENGLISH, BELLNEWT_NOTICE_FIRST_ENTRY + 5, 30));
    tell("correct the second area's kind",
         bellnewt_notice_correct(message, size, BELLNEWT_ENGLISH, BELLNEWT_NOTICE_FIRST_ENTRY + 2, 0));
    show_notice(message, size);
    show_outline(message, size);
}

static void show_tide(const uint8_t *telegram, size_t size)
{
    uint16_t records = 0;
    size_t numbers = 0, count = 0;
    uint32_t row[BELLNEWT_TIDE_ROW];
    int32_t heights[BELLNEWT_TIDE_HEIGHTS];

    tell("read", bellnewt_tide_read(telegram, size, &records, &numbers, row, BELLNEWT_TIDE_ROW));
    printf("  records   %" PRIu16 "\n  row      ", records);
    for (size_t i = 0; i < numbers; i++)
        printf(" %" PRIu32, row[i]);
    printf("\n");
    tell("heights into one entry", bellnewt_tide_heights(telegram, size, heights, 1, &count));
    tell("heights", bellnewt_tide_heights(telegram, size, heights, BELLNEWT_TIDE_HEIGHTS, &count));
    for (size_t i = 0; i < count; i++)
        printf("  level     %" PRId32 " cm\n", heights[i]);
}

/* Two levels observed at a port, one below zero; a forecast at a point: written, a level corrected, the heights. */
static void tide(void)
{
    const uint32_t noon = 11 << 16 | 16 << 11 | 12 << 6, evening = 11 << 16 | 16 << 11 | 18 << 6 | 30;
    const uint32_t north = angle(20, 0, 31, 14, 50), east = angle(21, 0, 121, 29, 25);
    const uint32_t row[] = {BELLNEWT_TIDE_PORT,  11, 0, 2,    noon, 1, 187, evening, 0, 42,
                            BELLNEWT_TIDE_POINT, north, east, 1,    1, noon, 1,       250};
    uint8_t telegram[24]; /* as many as it takes */

    printf("tide\n");
    tell("write", bellnewt_tide_write(telegram, sizeof telegram, 2, row, sizeof row / sizeof row[0]));
    show_bytes("telegram", telegram, sizeof telegram);
    show_tide(telegram, sizeof telegram);
    tell("correct the second level to 60",
         bellnewt_tide_correct(telegram, sizeof telegram, BELLNEWT_TIDE_FIRST_ENTRY + 9, 60));
    tell("correct the second level to 0, which sign 0 cannot have",
         bellnewt_tide_correct(telegram, sizeof telegram, BELLNEWT_TIDE_FIRST_ENTRY + 9, 0));
    tell("correct how many entries",
         bellnewt_tide_correct(telegram, sizeof telegram, BELLNEWT_TIDE_FIRST_ENTRY + 3, 1));
    show_tide(telegram, sizeof telegram);
}

/* The packet that a notice fits in, and a second one that there is not. */
static void packet(const uint8_t *content, size_t size)
{
    static const char *const names[] = {"language", "number", "total", "own"};
    uint8_t buf[BELLNEWT_PACKET_GREATEST];
    int64_t row[BELLNEWT_PACKET_ROW];

    printf("packet\n");
    tell("split", bellnewt_split(buf, sizeof buf, content, size, BELLNEWT_ENGLISH, 7, 0));
    tell("split off a second", bellnewt_split(buf, sizeof buf, content, size, BELLNEWT_ENGLISH, 7, 1));
    size_t len = BELLNEWT_PACKET_HEAD + size;
    printf("correct the number to %d: %s\n", bellnewt_next_number(255),
           said(bellnewt_packet_correct(buf, len, BELLNEWT_PACKET_NUMBER, bellnewt_next_number(255))));
    tell("correct the own number to 1, of 1", bellnewt_packet_correct(buf, len, BELLNEWT_PACKET_OWN, 1));
    uint8_t written[BELLNEWT_PACKET_GREATEST];
    printf("write it: %s, ",
           said(bellnewt_packet_write(written, sizeof written, content, size, BELLNEWT_ENGLISH, 0, 1, 0)));
    printf("%s\n", memcmp(written, buf, len) == 0 ? "the same bytes" : "other bytes");
    uint32_t answer = bellnewt_packet_read(buf, len, row, BELLNEWT_PACKET_ROW);
    if (show(answer, names, row, BELLNEWT_PACKET_ENTRY_START))
        show_bytes("content", buf + row[BELLNEWT_PACKET_ENTRY_START], (size_t)row[BELLNEWT_PACKET_ENTRY_BYTES]);
}

/* The packets of a content of three, of number 255. */
enum { DESK_CONTENT = 2 * BELLNEWT_PACKET_CONTENT + 10 };

static uint8_t places[BELLNEWT_DESK_ROW]; /* all closed */
static uint8_t store[BELLNEWT_DESK_STORE];

static void bring(const uint8_t *content, size_t own)
{
    uint8_t packet[BELLNEWT_PACKET_GREATEST], again = 0;
    const size_t rest = DESK_CONTENT - own * BELLNEWT_PACKET_CONTENT;
    const size_t bytes = rest < BELLNEWT_PACKET_CONTENT ? rest : BELLNEWT_PACKET_CONTENT;

    bellnewt_split(packet, sizeof packet, content, DESK_CONTENT, BELLNEWT_CHINESE, 255, own);
    uint32_t answer = bellnewt_desk_accept(places, sizeof places, store, sizeof store, packet,
                                           BELLNEWT_PACKET_HEAD + bytes, &again);
    printf("packet %zu: %s, again %d\n", own, said(answer), again);
}

static void ask(const uint8_t *content)
{
    uint8_t notice[BELLNEWT_NOTICE_GREATEST], language = BELLNEWT_ENGLISH;
    uint16_t missing[BELLNEWT_DESK_MISSING];
    size_t count = 0;
    uint32_t answer = bellnewt_desk_ask(places, sizeof places, store, sizeof store, 255, notice, sizeof notice, missing,
                                        BELLNEWT_DESK_MISSING, &count, &language);

    tell("ask", answer);
    for (size_t i = 0; answer == BELLNEWT_INCOMPLETE && i < count; i++)
        printf("  missing   %d\n", missing[i]);
    if (answer == BELLNEWT_GOOD)
        printf("  %zu bytes in language %d, %s\n", count, language,
               count == DESK_CONTENT && memcmp(notice, content, count) == 0 ? "those that were split" : "others");
}

/* The last packet first, one of them twice; a notice that is given up. */
static void desk(void)
{
    uint8_t content[DESK_CONTENT];

    for (size_t i = 0; i < sizeof content; i++)
        content[i] = (uint8_t)i;
    printf("desk\n");
    ask(content);
    bring(content, 2);
    bring(content, 0);
    bring(content, 0);
    ask(content);
    bring(content, 1);
    ask(content);
    bring(content, 1);
    tell("drop", bellnewt_desk_drop(places, sizeof places, store, sizeof store, 255));
    tell("drop once more", bellnewt_desk_drop(places, sizeof places, store, sizeof store, 255));
}

int main(void)
{
    distress();
    gljc();
    txsq();
    txxx();
    txhz();
    warning();
    area();
    slots();
    uint8_t message[27]; /* as many as the notice takes */
    notice(message, sizeof message);
    packet(message, sizeof message);
    tide();
    desk();
    return 0;
}
