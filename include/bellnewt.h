/*
 * Bellnewt: the proved calls, for C and C++. A box links target/native/librelay.a, which `rust/native` makes for the
 * machine that it runs on. In the repository's folder:
 *
 *   rust/native
 *   cc -I include your.c target/native/librelay.a
 *
 * What holds for every call:
 * - The answer is 0, or a refusal: its number, and the bit at fault. bellnewt_code and bellnewt_bit take it apart. The
 *   numbers that a call can give stand above it, in the order of the tests: the first test that fails gives the number.
 * - A refusal leaves all lent memory as it was; only 9 also lists the missing packets. Bytes and row entries past an
 *   answer stay as they were too.
 * - A pointer is followed by how many bytes or entries it lends. The pointer is not null, even where that is 0, and
 *   no two pointers of one call lend the same memory.
 * - A call keeps nothing between calls and allocates nothing, so that threads may call at the same time.
 */
#ifndef BELLNEWT_H
#define BELLNEWT_H

#include <stddef.h>
#include <stdint.h>

#ifdef __cplusplus
extern "C" {
#endif

/* The numbers that a call answers, by bellnewt_code. */
enum bellnewt_refusal {
    BELLNEWT_GOOD = 0,
    BELLNEWT_SIZE = 1,        /* the input's size doesn't fit its layout or limits */
    BELLNEWT_KIND = 2,        /* name, kind, version or application not handled */
    BELLNEWT_CHECKSUM = 3,    /* checksum wrong */
    BELLNEWT_RANGE = 4,       /* a field outside its range, or a reserved code */
    BELLNEWT_FILL = 5,        /* a fill bit that isn't zero */
    BELLNEWT_ROOM = 6,        /* a lent buffer or row too short */
    BELLNEWT_CONTRADICTS = 7, /* packet contradicts one already held */
    BELLNEWT_TAKEN = 8,       /* all places taken */
    BELLNEWT_INCOMPLETE = 9,  /* notice not complete */
    BELLNEWT_FIELD = 10,      /* no such field, or it decides the layout */
    BELLNEWT_UNKNOWN = 11     /* no open notice of that number */
};

/*
 * An answer has a refusal's number in its low 8 bits, and above them the bit at fault. 0 is no refusal.
 *
 * The bit says where a message goes wrong: it is the first bit of the field at fault, counted from the message's start.
 * Reading, writing and correcting give it with 1, 4 and 5, where a field does not fit in the message, is outside its
 * range, or is fill that isn't zero:
 * - Points, dates and times are walked part by part; the bit is that of the first part that is bad or missing.
 * - A text is one field, whichever of its bytes is bad, and so is a fill.
 * - A content of another size than its bit length says is a fault of the bit length. Of a content's unused bits it is
 *   the first, of receipts past the count the first byte that isn't zero.
 * - Bytes left over behind a tide telegram: the first of them.
 * - In a correction the field at fault need not be the corrected one: if a total becomes no more than the own number,
 *   that is the own number. A value that is wider than its field is a fault of that field.
 * A report inside of a sentence has the report's bits, a packet at the desk the packet's. Outlines and heights have
 * those of reading.
 *
 * The bit is 0 in every other refusal: by another number, by a size that is tested before the fields or after them, by
 * a language above 1 that the splitter or a notice's call is told, by what stands around a report in a sentence, and by
 * the desk's own tests. A notice's source is at bit 0, so that its refusal has 0 too.
 */
static inline uint8_t bellnewt_code(uint32_t answer) {
    return (uint8_t)(answer & 0xFF);
}

static inline uint32_t bellnewt_bit(uint32_t answer) {
    return answer >> 8;
}

/*
 * The distress report, 17 bytes, and the sentence that carries one, 54 to 60 bytes.
 *
 * A field's number, which also says where it stands in a row: at [field - 1] in the row of a report, at [field] in the
 * row of a sentence, whose entry 0 is the address.
 */
enum bellnewt_distress_field {
    BELLNEWT_DISTRESS_MMSI = 1,      /* 32 bits, 0 to 999,999,999 */
    BELLNEWT_DISTRESS_LONGITUDE = 2, /* 25 bits, thousandths of a minute, +-10,800,000; 10,860,000 for none */
    BELLNEWT_DISTRESS_LATITUDE = 3,  /* 24 bits, thousandths of a minute, +-5,400,000; 5,460,000 for none */
    BELLNEWT_DISTRESS_DAY = 4,       /* 5 bits, 1 to 31; 0 for none */
    BELLNEWT_DISTRESS_HOUR = 5,      /* 5 bits, 0 to 23; 24 for none */
    BELLNEWT_DISTRESS_MINUTE = 6,    /* 6 bits, 0 to 59; 60 for none */
    BELLNEWT_DISTRESS_SPEED = 7,     /* 7 bits, knots, 0 to 126 */
    BELLNEWT_DISTRESS_COURSE = 8,    /* 9 bits, degrees, 0 to 359; 360 for none */
    BELLNEWT_DISTRESS_KIND = 9       /* 4 bits, 1 to 9; 0 for none */
};

enum bellnewt_distress_size {
    BELLNEWT_DISTRESS_BYTES = 17,
    BELLNEWT_DISTRESS_ROW = 9,
    BELLNEWT_SENTENCE_LEAST = 54,
    BELLNEWT_SENTENCE_GREATEST = 60,
    BELLNEWT_SENTENCE_ROW = 10
};

/*
 * Reads a report into the first 9 entries of a row; entries past the ninth stay.
 *
 * 1  fewer than 17 bytes
 * 2  the first two bytes are not 0xBDC1
 * 1  more than 17 bytes
 * 4  a field outside its range
 * 5  one of the last three bits isn't zero
 * 6  the row has fewer than 9 entries
 *
 * A refusal leaves the row as it was.
 */
uint32_t bellnewt_distress_read(const uint8_t *s, size_t len, int64_t *row, size_t row_len);

/*
 * Writes a report into the first 17 bytes of a buffer; bytes past them stay.
 *
 * 4  a value outside its field's range, or wider than the field
 * 6  the buffer has fewer than 17 bytes
 *
 * A refusal leaves the buffer as it was.
 */
uint32_t bellnewt_distress_write(uint8_t *buf, size_t len, uint32_t mmsi, int32_t longitude, int32_t latitude,
                                 uint8_t day, uint8_t hour, uint8_t minute, uint8_t speed, uint16_t course,
                                 uint8_t kind);

/*
 * Corrects one field of a report where it stands. The new value is the plain number that the field's bits shall spell:
 * -1 in the 25-bit longitude is given as 2^25 - 1. The buffer is the message alone, so there is no 6.
 *
 * 1, 2, 4, 5  the message itself is refused, in the order of bellnewt_distress_read
 * 10  the number is none of bellnewt_distress_field
 * 4   the value is wider than the field, or outside its range
 *
 * A refusal leaves the message as it was; otherwise only that field's bits change.
 */
uint32_t bellnewt_distress_correct(uint8_t *s, size_t len, size_t field, uint64_t value);

/*
 * Reads a sentence into the first 10 entries of a row, the address and then the report; entries past the tenth stay.
 *
 * 1  not 54 to 60 bytes
 * 2  the start is not `$CCTXA,`
 * 3  the end is not `*`, the XOR of the bytes between `$` and `*` in two upper-case hex digits, CR LF
 * 4  anything else unlike the sentence's pattern, or an address not 1 to 2,097,151
 * 2, 4, 5  the report inside is refused, in the order of bellnewt_distress_read
 * 6  the row has fewer than 10 entries
 *
 * A refusal leaves the row as it was.
 */
uint32_t bellnewt_sentence_read(const uint8_t *s, size_t len, int64_t *row, size_t row_len);

/*
 * Writes a sentence into the front of a buffer and its size, 54 to 60, into *size; bytes past the sentence stay.
 *
 * 4  the address is not 1 to 2,097,151
 * 4  a value of the report outside its field's range, or wider than the field
 * 6  the buffer is shorter than the sentence
 *
 * A refusal leaves the buffer and *size as they were.
 */
uint32_t bellnewt_sentence_write(uint8_t *buf, size_t len, size_t *size, uint32_t address, uint32_t mmsi,
                                 int32_t longitude, int32_t latitude, uint8_t day, uint8_t hour, uint8_t minute,
                                 uint8_t speed, uint16_t course, uint8_t kind);

/*
 * Serial frames: `$`, four letters, the frame's length in 16 bits, the own address in 24, a body, and in the last byte
 * the checksum, the XOR of all bytes before it. There are four kinds, each with its calls.
 *
 * What stands in the row of a reading, in this order:
 *
 * GLJC  address, minutes
 * TXSQ  address, category, mode, password, receiver, bit length, answer; where the content starts, its bytes
 * TXXX  address, class, sender, hour, minute, bit length, mark; where the content starts, its bytes
 * TXHZ  address, receiver, count; five times sent hour, sent minute, receipt hour, receipt minute
 *
 * So the content is a part of the caller's own frame: row[BELLNEWT_CONTENT_BYTES] bytes from
 * frame + row[BELLNEWT_CONTENT_START] on. They are the bit length rounded up to bytes; unused low bits of the last of
 * them are zero.
 *
 * Every reading tests first:
 *
 * 1  fewer than 12 bytes
 * 2  the start is not `$` and the kind's letters
 * 1  a size that the kind doesn't have, or another than the frame's length says
 * 3  the checksum is another
 *
 * The fields follow in bit order: the first that is bad gives the number.
 */
enum bellnewt_serial_size {
    BELLNEWT_GLJC_BYTES = 12,
    BELLNEWT_GLJC_ROW = 2,
    BELLNEWT_TXSQ_BARE = 18, /* without the content */
    BELLNEWT_TXSQ_GREATEST = 228,
    BELLNEWT_TXSQ_ROW = 9,
    BELLNEWT_TXXX_BARE = 20, /* without the content */
    BELLNEWT_TXXX_GREATEST = 230,
    BELLNEWT_TXXX_ROW = 9,
    BELLNEWT_TXHZ_BYTES = 35,
    BELLNEWT_TXHZ_RECEIPTS = 20, /* the bytes of five receipts */
    BELLNEWT_TXHZ_ROW = 23
};

/* The entries that say where the content stands, in a row of TXSQ or TXXX. */
enum bellnewt_content_entry { BELLNEWT_CONTENT_START = 7, BELLNEWT_CONTENT_BYTES = 8 };

/* The numbers of the fields that can be corrected. */
enum bellnewt_gljc_field {
    BELLNEWT_GLJC_ADDRESS = 3, /* 24 bits, 0 to 2,097,151 */
    BELLNEWT_GLJC_MINUTES = 4  /* 8 bits */
};

enum bellnewt_txsq_field {
    BELLNEWT_TXSQ_ADDRESS = 3,  /* 24 bits, 0 to 2,097,151 */
    BELLNEWT_TXSQ_CATEGORY = 5, /* 2 bits, 0 or 1 */
    BELLNEWT_TXSQ_MODE = 6,     /* 1 bit, 0 text, 1 code */
    BELLNEWT_TXSQ_PASSWORD = 7, /* 1 bit; 1 needs category 1 */
    BELLNEWT_TXSQ_RECEIVER = 8, /* 24 bits, 0 to 2,097,151 */
    BELLNEWT_TXSQ_ANSWER = 10   /* 8 bits; 0 where password is 0 */
};

enum bellnewt_txxx_field {
    BELLNEWT_TXXX_ADDRESS = 3, /* 24 bits, 0 to 2,097,151 */
    BELLNEWT_TXXX_CLASS = 4,   /* 8 bits */
    BELLNEWT_TXXX_SENDER = 5,  /* 24 bits, 0 to 2,097,151 */
    BELLNEWT_TXXX_HOUR = 6,    /* 8 bits, 0 to 23 */
    BELLNEWT_TXXX_MINUTE = 7,  /* 8 bits, 0 to 59 */
    BELLNEWT_TXXX_MARK = 11    /* 8 bits */
};

enum bellnewt_txhz_field {
    BELLNEWT_TXHZ_ADDRESS = 3,       /* 24 bits, 0 to 2,097,151 */
    BELLNEWT_TXHZ_RECEIVER = 4,      /* 24 bits, 0 to 2,097,151 */
    BELLNEWT_TXHZ_COUNT = 5,         /* 8 bits, 0 to 5 */
    BELLNEWT_TXHZ_FIRST_RECEIPT = 6, /* 8 bits, an hour, 0 to 23; then a minute, 0 to 59; and so on in turn */
    BELLNEWT_TXHZ_LAST_RECEIPT = 25  /* the last byte of the fifth */
};

/*
 * Reads a GLJC frame into the first 2 entries of a row; entries past them stay.
 *
 * 1, 2, 1, 3  every reading's first tests
 * 4  the address is above 2,097,151
 * 6  the row has fewer than 2 entries
 *
 * A refusal leaves the row as it was.
 */
uint32_t bellnewt_gljc_read(const uint8_t *frame, size_t len, int64_t *row, size_t row_len);

/*
 * Writes a GLJC frame into the first 12 bytes of a buffer; bytes past them stay.
 *
 * 4  the address is above 2,097,151
 * 6  the buffer has fewer than 12 bytes
 *
 * A refusal leaves the buffer as it was.
 */
uint32_t bellnewt_gljc_write(uint8_t *buf, size_t len, uint32_t address, uint8_t minutes);

/*
 * Corrects one field of a GLJC frame where it stands, and makes the checksum anew. The buffer is the frame alone, so
 * there is no 6.
 *
 * 1, 2, 3, 4  the frame itself is refused, in the order of bellnewt_gljc_read
 * 10  the number is none of bellnewt_gljc_field
 * 4   the value is wider than the field, or outside its range
 *
 * A refusal leaves the frame as it was; otherwise only that field's bits and the last byte change.
 */
uint32_t bellnewt_gljc_correct(uint8_t *frame, size_t len, size_t field, uint64_t value);

/*
 * Reads a TXSQ frame into the first 9 entries of a row; entries past them stay.
 *
 * 1, 2, 1, 3  every reading's first tests
 * 4  the address is above 2,097,151
 * 2  the class, the byte after it, does not start with the bits 0100
 * 4  the category is above 1; password without category 1; the receiver is above 2,097,151
 * 4  more bits than 83 with password, 188 in category 0, else 1,680; or in text mode no multiple of 8
 * 1  the content has not the bit length rounded up to bytes
 * 4  an answer other than 0 without password
 * 5  an unused low bit of the content's last byte isn't zero
 * 6  the row has fewer than 9 entries
 *
 * A refusal leaves the row as it was.
 */
uint32_t bellnewt_txsq_read(const uint8_t *frame, size_t len, int64_t *row, size_t row_len);

/*
 * Writes a TXSQ frame into the first 18 + content_len bytes of a buffer; bytes past them stay.
 *
 * 4  the address is above 2,097,151; category or mode is above 1; password is above 1, or 1 without category 1; the
 *    receiver is above 2,097,151
 * 4  bits too many or no multiple of 8, as in bellnewt_txsq_read
 * 1  the content has not the bit length rounded up to bytes
 * 4  an answer other than 0 without password
 * 5  an unused low bit of the content's last byte isn't zero
 * 6  the buffer has fewer than 18 + content_len bytes
 *
 * A refusal leaves the buffer as it was.
 */
uint32_t bellnewt_txsq_write(uint8_t *buf, size_t len, const uint8_t *content, size_t content_len, uint32_t address,
                             uint8_t category, uint8_t mode, uint8_t password, uint32_t receiver, uint16_t bits,
                             uint8_t answer);

/*
 * Corrects one field of a TXSQ frame where it stands, and makes the checksum anew. The buffer is the frame alone, so
 * there is no 6.
 *
 * 1, 2, 3, 4, 5  the frame itself is refused, in the order of bellnewt_txsq_read
 * 10  the number is none of bellnewt_txsq_field
 * 4   the value is wider than the field or outside its range, or another field is bad with it: password 1 in category
 *     0, bits too many or no multiple of 8, an answer without password
 *
 * A refusal leaves the frame as it was; otherwise only that field's bits and the last byte change.
 */
uint32_t bellnewt_txsq_correct(uint8_t *frame, size_t len, size_t field, uint64_t value);

/*
 * Reads a TXXX frame into the first 9 entries of a row; entries past them stay.
 *
 * 1, 2, 1, 3  every reading's first tests
 * 4  address or sender is above 2,097,151, the hour above 23, the minute above 59, the bit length above 1,680
 * 1  the content has not the bit length rounded up to bytes
 * 5  an unused low bit of the content's last byte isn't zero
 * 6  the row has fewer than 9 entries
 *
 * A refusal leaves the row as it was.
 */
uint32_t bellnewt_txxx_read(const uint8_t *frame, size_t len, int64_t *row, size_t row_len);

/*
 * Writes a TXXX frame into the first 20 + content_len bytes of a buffer; bytes past them stay.
 *
 * 4  address or sender is above 2,097,151, the hour above 23, the minute above 59, the bit length above 1,680
 * 1  the content has not the bit length rounded up to bytes
 * 5  an unused low bit of the content's last byte isn't zero
 * 6  the buffer has fewer than 20 + content_len bytes
 *
 * A refusal leaves the buffer as it was.
 */
uint32_t bellnewt_txxx_write(uint8_t *buf, size_t len, const uint8_t *content, size_t content_len, uint32_t address,
                             uint8_t class_, uint32_t sender, uint8_t hour, uint8_t minute, uint16_t bits,
                             uint8_t mark);

/*
 * Corrects one field of a TXXX frame where it stands, and makes the checksum anew. The buffer is the frame alone, so
 * there is no 6.
 *
 * 1, 2, 3, 4, 5  the frame itself is refused, in the order of bellnewt_txxx_read
 * 10  the number is none of bellnewt_txxx_field
 * 4   the value is wider than the field, or outside its range
 *
 * A refusal leaves the frame as it was; otherwise only that field's bits and the last byte change.
 */
uint32_t bellnewt_txxx_correct(uint8_t *frame, size_t len, size_t field, uint64_t value);

/*
 * Reads a TXHZ frame into the first 23 entries of a row; entries past them stay.
 *
 * 1, 2, 1, 3  every reading's first tests
 * 4  address or receiver is above 2,097,151, the count above 5
 * 4  a counted receipt has an hour above 23 or a minute above 59
 * 5  a byte of a receipt past the count isn't zero
 * 6  the row has fewer than 23 entries
 *
 * A refusal leaves the row as it was.
 */
uint32_t bellnewt_txhz_read(const uint8_t *frame, size_t len, int64_t *row, size_t row_len);

/*
 * Writes a TXHZ frame into the first 35 bytes of a buffer; bytes past them stay. The receipts are lent as they stand in
 * the frame: four bytes each, sent hour, sent minute, receipt hour, receipt minute.
 *
 * 1  the receipts' bytes are not 20
 * 4  address or receiver is above 2,097,151, the count above 5
 * 4  a counted receipt has an hour above 23 or a minute above 59
 * 5  a byte of a receipt past the count isn't zero
 * 6  the buffer has fewer than 35 bytes
 *
 * A refusal leaves the buffer as it was.
 */
uint32_t bellnewt_txhz_write(uint8_t *buf, size_t len, const uint8_t *receipts, size_t receipts_len, uint32_t address,
                             uint32_t receiver, uint8_t count);

/*
 * Corrects one field of a TXHZ frame where it stands, and makes the checksum anew. The buffer is the frame alone, so
 * there is no 6.
 *
 * 1, 2, 3, 4, 5  the frame itself is refused, in the order of bellnewt_txhz_read
 * 10  the number is none of bellnewt_txhz_field, or that of a receipt past the count
 * 4   the value is wider than the field, or outside its range
 * 5   the count no longer covers a receipt that isn't zero
 *
 * A refusal leaves the frame as it was; otherwise only that field's bits and the last byte change.
 */
uint32_t bellnewt_txhz_correct(uint8_t *frame, size_t len, size_t field, uint64_t value);

/*
 * AIS messages: message 8 with application 412/03, a weather warning to all, 23 bytes; message 6 with application
 * 412/11, an area that one station is told of, 31 bytes. A record of them has no fill, which is written as zero.
 *
 * A warning has one of five types and an area one of two shapes. Reading tells which; each has its own call to write.
 */
enum bellnewt_ais_size {
    BELLNEWT_WARNING_BYTES = 23,
    BELLNEWT_WARNING_ROW = 17,
    BELLNEWT_AREA_BYTES = 31,
    BELLNEWT_AREA_ROW = 19
};

enum bellnewt_warning_type {
    BELLNEWT_CYCLONE = 1,
    BELLNEWT_GALE = 2,
    BELLNEWT_WAVES = 3,
    BELLNEWT_FOG = 4,
    BELLNEWT_SURGE = 5
};

enum bellnewt_area_shape { BELLNEWT_CIRCLE = 1, BELLNEWT_RECTANGLE = 2 };

/*
 * What stands in the row of a warning. From BODY on it has the numbers of its type, in the order of
 * bellnewt_warning_field; entries before MONTH that the type has no number for are 0.
 */
enum bellnewt_warning_entry {
    BELLNEWT_WARNING_ENTRY_REPEAT = 0,
    BELLNEWT_WARNING_ENTRY_SOURCE = 1,
    BELLNEWT_WARNING_ENTRY_TYPE = 2, /* one of bellnewt_warning_type */
    BELLNEWT_WARNING_ENTRY_LONGITUDE = 3,
    BELLNEWT_WARNING_ENTRY_LATITUDE = 4,
    BELLNEWT_WARNING_ENTRY_BODY = 5,
    BELLNEWT_WARNING_ENTRY_MONTH = 12,
    BELLNEWT_WARNING_ENTRY_DAY = 13,
    BELLNEWT_WARNING_ENTRY_HOUR = 14,
    BELLNEWT_WARNING_ENTRY_MINUTE = 15,
    BELLNEWT_WARNING_ENTRY_HOURS = 16
};

/* What stands in the row of an area. */
enum bellnewt_area_entry {
    BELLNEWT_AREA_ENTRY_REPEAT = 0,
    BELLNEWT_AREA_ENTRY_SOURCE = 1,
    BELLNEWT_AREA_ENTRY_SEQUENCE = 2,
    BELLNEWT_AREA_ENTRY_DESTINATION = 3,
    BELLNEWT_AREA_ENTRY_RESENT = 4,
    BELLNEWT_AREA_ENTRY_KIND = 5,
    BELLNEWT_AREA_ENTRY_SHAPE = 6, /* one of bellnewt_area_shape */
    BELLNEWT_AREA_ENTRY_LONGITUDE = 7,
    BELLNEWT_AREA_ENTRY_LATITUDE = 8,
    BELLNEWT_AREA_ENTRY_RADIUS = 9,           /* of a circle */
    BELLNEWT_AREA_ENTRY_SECOND_LONGITUDE = 9, /* of a rectangle */
    BELLNEWT_AREA_ENTRY_SECOND_LATITUDE = 10, /* of a rectangle; 0 for a circle */
    BELLNEWT_AREA_ENTRY_MONTH = 11,
    BELLNEWT_AREA_ENTRY_DAY = 12,
    BELLNEWT_AREA_ENTRY_HOUR = 13,
    BELLNEWT_AREA_ENTRY_MINUTE = 14,
    BELLNEWT_AREA_ENTRY_SECOND_MONTH = 15,
    BELLNEWT_AREA_ENTRY_SECOND_DAY = 16,
    BELLNEWT_AREA_ENTRY_SECOND_HOUR = 17,
    BELLNEWT_AREA_ENTRY_ADVICE = 18
};

/*
 * The numbers of the fields of a warning that can be corrected. Those of a body are fields of its type alone. A body's
 * number for which no range stands here may be any that its bits spell; outside of the range that 003 prints it means
 * none.
 */
enum bellnewt_warning_field {
    BELLNEWT_WARNING_REPEAT = 1,       /* 2 bits */
    BELLNEWT_WARNING_SOURCE = 2,       /* 30 bits, MMSI, 0 to 999,999,999 */
    BELLNEWT_WARNING_LONGITUDE = 3,    /* 23 bits, thousandths of a minute from 60 degrees E on, 0 to 7,200,000 */
    BELLNEWT_WARNING_LATITUDE = 4,     /* 23 bits, thousandths of a minute from 50 degrees S on, 0 to 7,200,000 */
    BELLNEWT_WARNING_TIME = 5,         /* 20 bits: month 4, day 5, hour 5, minute 6 */
    BELLNEWT_WARNING_HOURS = 6,        /* 6 bits, 0 to 48 */
    BELLNEWT_CYCLONE_KIND = 7,         /* 3 bits, 1 to 4 */
    BELLNEWT_CYCLONE_GALE_RADIUS = 8,  /* 9 bits, kilometres */
    BELLNEWT_CYCLONE_STORM_RADIUS = 9, /* 9 bits, kilometres */
    BELLNEWT_CYCLONE_SPEED = 10,       /* 6 bits, kilometres an hour */
    BELLNEWT_CYCLONE_DIRECTION = 11,   /* 9 bits, degrees */
    BELLNEWT_CYCLONE_FORCE = 12,       /* 5 bits */
    BELLNEWT_CYCLONE_PRESSURE = 13,    /* 9 bits, hectopascals from 800 on */
    BELLNEWT_GALE_RADIUS = 14,         /* 8 bits, nautical miles */
    BELLNEWT_GALE_LEAST = 15,          /* 5 bits, force */
    BELLNEWT_GALE_GREATEST = 16,       /* 5 bits, force */
    BELLNEWT_GALE_DIRECTION = 17,      /* 4 bits, 1 to 8 */
    BELLNEWT_WAVES_RADIUS = 18,        /* 8 bits, kilometres */
    BELLNEWT_WAVES_HEIGHT = 19,        /* 5 bits, metres */
    BELLNEWT_WAVES_PERIOD = 20,        /* 13 bits, seconds */
    BELLNEWT_FOG_RADIUS = 21,          /* 9 bits, kilometres */
    BELLNEWT_FOG_VISIBILITY = 22,      /* 8 bits, tenths of a nautical mile, 0 to 250 */
    BELLNEWT_SURGE_RADIUS = 23,        /* 9 bits, nautical miles */
    BELLNEWT_SURGE_RISE = 24,          /* 9 bits, centimetres */
    BELLNEWT_SURGE_TIDE = 25,          /* 10 bits, centimetres */
    BELLNEWT_SURGE_PERIOD = 26         /* 13 bits, seconds */
};

/*
 * The numbers of the fields of an area that can be corrected. The last three are fields of their shape alone.
 * Longitudes are ten-thousandths of a minute, +-108,000,000, or 108,600,000 for none; latitudes +-54,000,000, or
 * 54,600,000 for none.
 */
enum bellnewt_area_field {
    BELLNEWT_AREA_REPEAT = 1,          /* 2 bits */
    BELLNEWT_AREA_SOURCE = 2,          /* 30 bits, MMSI, 0 to 999,999,999 */
    BELLNEWT_AREA_SEQUENCE = 3,        /* 2 bits */
    BELLNEWT_AREA_DESTINATION = 4,     /* 30 bits, MMSI, 0 to 999,999,999 */
    BELLNEWT_AREA_RESENT = 5,          /* 1 bit */
    BELLNEWT_AREA_KIND = 6,            /* 4 bits, 1 to 14 */
    BELLNEWT_AREA_LONGITUDE = 7,       /* 28 bits */
    BELLNEWT_AREA_LATITUDE = 8,        /* 27 bits */
    BELLNEWT_AREA_TIME = 9,            /* 20 bits: month 4, day 5, hour 5, minute 6 */
    BELLNEWT_AREA_SECOND_TIME = 10,    /* 14 bits: month 4, day 5, hour 5 */
    BELLNEWT_AREA_ADVICE = 11,         /* 4 bits, 1 to 6 */
    BELLNEWT_CIRCLE_RADIUS = 12,       /* 7 bits, tenths of a nautical mile */
    BELLNEWT_RECTANGLE_LONGITUDE = 13, /* 28 bits, of the other corner */
    BELLNEWT_RECTANGLE_LATITUDE = 14   /* 27 bits, of the other corner */
};

/*
 * Reads a warning into the first 17 entries of a row; entries past them stay.
 *
 * 1  fewer than 23 bytes
 * 2  the message is not 8, the application not 412/03, or the warning type not 1 to 5
 * 1  more than 23 bytes
 * 4  the source is above 999,999,999
 * 5  one of the two bits after it isn't zero
 * 4  longitude or latitude is above 7,200,000; a cyclone's kind is not 1 to 4, a gale's direction not 1 to 8, the
 *    visibility above 250
 * 5  one of the body's last bits isn't zero: 28 of a gale, 24 of waves, 33 of fog, 9 of a surge
 * 4  the month is above 12, the hour above 23, the minute above 59, the hours above 48
 * 5  one of the last two bits isn't zero
 * 6  the row has fewer than 17 entries
 *
 * A refusal leaves the row as it was.
 */
uint32_t bellnewt_warning_read(const uint8_t *s, size_t len, int64_t *row, size_t row_len);

/*
 * Write a warning, each of its type, into the first 23 bytes of a buffer; bytes past them stay.
 *
 * 4  a value outside its field's range, or wider than the field
 * 6  the buffer has fewer than 23 bytes
 *
 * A refusal leaves the buffer as it was.
 */
uint32_t bellnewt_cyclone_write(uint8_t *buf, size_t len, uint8_t repeat, uint32_t source, uint32_t longitude,
                                uint32_t latitude, uint8_t kind, uint16_t gale_radius, uint16_t storm_radius,
                                uint8_t speed, uint16_t direction, uint8_t force, uint16_t pressure, uint8_t month,
                                uint8_t day, uint8_t hour, uint8_t minute, uint8_t hours);

uint32_t bellnewt_gale_write(uint8_t *buf, size_t len, uint8_t repeat, uint32_t source, uint32_t longitude,
                             uint32_t latitude, uint8_t radius, uint8_t least, uint8_t greatest, uint8_t direction,
                             uint8_t month, uint8_t day, uint8_t hour, uint8_t minute, uint8_t hours);

uint32_t bellnewt_waves_write(uint8_t *buf, size_t len, uint8_t repeat, uint32_t source, uint32_t longitude,
                              uint32_t latitude, uint8_t radius, uint8_t height, uint16_t period, uint8_t month,
                              uint8_t day, uint8_t hour, uint8_t minute, uint8_t hours);

uint32_t bellnewt_fog_write(uint8_t *buf, size_t len, uint8_t repeat, uint32_t source, uint32_t longitude,
                            uint32_t latitude, uint16_t radius, uint8_t visibility, uint8_t month, uint8_t day,
                            uint8_t hour, uint8_t minute, uint8_t hours);

uint32_t bellnewt_surge_write(uint8_t *buf, size_t len, uint8_t repeat, uint32_t source, uint32_t longitude,
                              uint32_t latitude, uint16_t radius, uint16_t rise, uint16_t tide, uint16_t period,
                              uint8_t month, uint8_t day, uint8_t hour, uint8_t minute, uint8_t hours);

/*
 * Corrects one field of a warning where it stands. The new value is the plain number that the field's bits shall spell,
 * of a time all its 20 bits. The buffer is the message alone, so there is no 6.
 *
 * 1, 2, 4, 5  the message itself is refused, in the order of bellnewt_warning_read
 * 10  the number is none of bellnewt_warning_field, or that of another warning type
 * 4   the value is wider than the field, or outside its range
 *
 * A refusal leaves the message as it was; otherwise only that field's bits change.
 */
uint32_t bellnewt_warning_correct(uint8_t *s, size_t len, size_t field, uint64_t value);

/*
 * Reads an area into the first 19 entries of a row; entries past them stay.
 *
 * 1  fewer than 23 bytes
 * 2  the message is not 6, the application not 412/11, or the shape not 1 or 2
 * 1  not 31 bytes
 * 4  source or destination is above 999,999,999
 * 5  the bit before the application isn't zero
 * 4  the area kind is not 1 to 14; a longitude or latitude is outside its range
 * 5  one of the 48 bits after a circle's radius isn't zero
 * 4  a month is above 12, an hour above 23, the minute above 59, the advice not 1 to 6
 * 5  one of the last six bits isn't zero
 * 6  the row has fewer than 19 entries
 *
 * A refusal leaves the row as it was.
 */
uint32_t bellnewt_area_read(const uint8_t *s, size_t len, int64_t *row, size_t row_len);

/*
 * Write an area, each of its shape, into the first 31 bytes of a buffer; bytes past them stay.
 *
 * 4  a value outside its field's range, or wider than the field
 * 6  the buffer has fewer than 31 bytes
 *
 * A refusal leaves the buffer as it was.
 */
uint32_t bellnewt_circle_write(uint8_t *buf, size_t len, uint8_t repeat, uint32_t source, uint8_t sequence,
                               uint32_t destination, uint8_t resent, uint8_t kind, int32_t longitude,
                               int32_t latitude, uint8_t radius, uint8_t month, uint8_t day, uint8_t hour,
                               uint8_t minute, uint8_t second_month, uint8_t second_day, uint8_t second_hour,
                               uint8_t advice);

uint32_t bellnewt_rectangle_write(uint8_t *buf, size_t len, uint8_t repeat, uint32_t source, uint8_t sequence,
                                  uint32_t destination, uint8_t resent, uint8_t kind, int32_t longitude,
                                  int32_t latitude, int32_t second_longitude, int32_t second_latitude, uint8_t month,
                                  uint8_t day, uint8_t hour, uint8_t minute, uint8_t second_month, uint8_t second_day,
                                  uint8_t second_hour, uint8_t advice);

/*
 * Corrects one field of an area where it stands. The new value is the plain number that the field's bits shall spell:
 * -1 in a 28-bit longitude is given as 2^28 - 1. The buffer is the message alone, so there is no 6.
 *
 * 1, 2, 4, 5  the message itself is refused, in the order of bellnewt_area_read
 * 10  the number is none of bellnewt_area_field, or that of the other shape
 * 4   the value is wider than the field, or outside its range
 *
 * A refusal leaves the message as it was; otherwise only that field's bits change.
 */
uint32_t bellnewt_area_correct(uint8_t *s, size_t len, size_t field, uint64_t value);

/*
 * Puts how many slots, 1 to 5, so many data bytes need into *slots. The data are all bytes of a message from its
 * application on: up to 8, 36, 64, 92 and 117 of message 6, up to 12, 40, 68, 96 and 121 of message 8.
 *
 * 2  the message is neither 6 nor 8
 * 1  no bytes, or more than the last of these
 *
 * A refusal leaves *slots as it was.
 */
uint32_t bellnewt_slots(uint8_t message, size_t bytes, uint8_t *slots);

/*
 * Packets carry a notice, of which each has at most 206 bytes: type 0xE1, version 1, the language of the notice's text,
 * its message number, how many packets it has, which of them this is, counted from 0, and the content.
 */
enum bellnewt_packet_size {
    BELLNEWT_PACKET_HEAD = 4,      /* without the content */
    BELLNEWT_PACKET_CONTENT = 206, /* the most bytes of content */
    BELLNEWT_PACKET_GREATEST = 210,
    BELLNEWT_PACKET_ROW = 6
};

enum bellnewt_language { BELLNEWT_CHINESE = 0, BELLNEWT_ENGLISH = 1 };

/*
 * What stands in the row of a packet. The content is a part of the caller's own packet: row[BYTES] bytes from
 * packet + row[START] on.
 */
enum bellnewt_packet_entry {
    BELLNEWT_PACKET_ENTRY_LANGUAGE = 0, /* one of bellnewt_language */
    BELLNEWT_PACKET_ENTRY_NUMBER = 1,
    BELLNEWT_PACKET_ENTRY_TOTAL = 2,
    BELLNEWT_PACKET_ENTRY_OWN = 3,
    BELLNEWT_PACKET_ENTRY_START = 4,
    BELLNEWT_PACKET_ENTRY_BYTES = 5
};

/* The numbers of the fields that can be corrected. */
enum bellnewt_packet_field {
    BELLNEWT_PACKET_LANGUAGE = 2, /* 1 bit */
    BELLNEWT_PACKET_NUMBER = 3,   /* 8 bits */
    BELLNEWT_PACKET_TOTAL = 4,    /* 6 bits, 1 to 63 */
    BELLNEWT_PACKET_OWN = 5       /* 6 bits, 0 to total - 1 */
};

/*
 * Reads a packet into the first 6 entries of a row; entries past them stay.
 *
 * 1  fewer than 5 bytes
 * 2  the type is not 0xE1, or the version not 1
 * 1  more than 210 bytes
 * 4  the total is 0, or the own number not below the total
 * 6  the row has fewer than 6 entries
 *
 * A refusal leaves the row as it was.
 */
uint32_t bellnewt_packet_read(const uint8_t *s, size_t len, int64_t *row, size_t row_len);

/*
 * Writes a packet into the first 4 + content_len bytes of a buffer; bytes past them stay.
 *
 * 4  the language is above 1, the total not 1 to 63, or the own number not below the total
 * 1  the content has not 1 to 206 bytes
 * 6  the buffer has fewer than 4 + content_len bytes
 *
 * A refusal leaves the buffer as it was.
 */
uint32_t bellnewt_packet_write(uint8_t *buf, size_t buf_len, const uint8_t *content, size_t content_len,
                               uint8_t language, uint8_t number, uint8_t total, uint8_t own);

/*
 * Corrects one field of a packet where it stands. The buffer is the packet alone, so there is no 6.
 *
 * 1, 2, 4  the packet itself is refused, in the order of bellnewt_packet_read
 * 10  the number is none of bellnewt_packet_field
 * 4   the value is wider than the field, the total 0, or the own number not below the total
 *
 * A refusal leaves the packet as it was; otherwise only that field's bits change.
 */
uint32_t bellnewt_packet_correct(uint8_t *s, size_t len, size_t field, uint64_t value);

/*
 * Splits a content: writes its packet of number `packet`, counted from 0, into the front of a buffer; bytes past it
 * stay. Each packet has 206 bytes of content, so 210 in all; the last has the rest.
 *
 * 4  the language is above 1
 * 1  the content has not 1 to 12,978 bytes
 * 4  the content has no packet of that number
 * 6  the buffer is shorter than the packet
 *
 * A refusal leaves the buffer as it was.
 */
uint32_t bellnewt_split(uint8_t *buf, size_t buf_len, const uint8_t *content, size_t content_len, uint8_t language,
                        uint8_t number, size_t packet);

/* Answers the message number that follows another: after 255 comes 0. There is no refusal. */
uint8_t bellnewt_next_number(uint8_t number);

/*
 * A notice, 8 to 12,978 bytes, is what the contents of its packets are together. Its language stands in them, so every
 * call is told it; one above 1 is refused by 4 before anything else.
 *
 * Source, station, serial, year, type, subtype, expiry, how many areas; the areas; the text, which takes all whole
 * bytes that are left; a fill of 0 to 7 bits.
 */
enum bellnewt_notice_size {
    BELLNEWT_NOTICE_LEAST = 8,
    BELLNEWT_NOTICE_GREATEST = 12978,
    BELLNEWT_NOTICE_ROW = 10,
    BELLNEWT_NOTICE_ENTRIES = 480, /* the most entries of areas: 15 of 15 points */
    BELLNEWT_NOTICE_TEXT = 12970,  /* the most bytes of text */
    BELLNEWT_OUTLINE_ROW = 450     /* the most entries of an outline: 225 points */
};

/* What stands in the row of a notice. */
enum bellnewt_notice_entry {
    BELLNEWT_NOTICE_ENTRY_SOURCE = 0,
    BELLNEWT_NOTICE_ENTRY_STATION = 1,
    BELLNEWT_NOTICE_ENTRY_SERIAL = 2,
    BELLNEWT_NOTICE_ENTRY_YEAR = 3,
    BELLNEWT_NOTICE_ENTRY_TYPE = 4,
    BELLNEWT_NOTICE_ENTRY_SUBTYPE = 5,
    BELLNEWT_NOTICE_ENTRY_EXPIRY = 6,
    BELLNEWT_NOTICE_ENTRY_COUNT = 7, /* how many areas */
    BELLNEWT_NOTICE_ENTRY_AREAS = 8, /* how many entries of `areas` they take */
    BELLNEWT_NOTICE_ENTRY_TEXT = 9   /* how many bytes of text */
};

/*
 * The kinds of area, and what stands in `areas`: one area behind another, each opened by its kind. A point is its
 * latitude, then its longitude.
 *
 * SEA                    kind, code, 8 bits
 * POINTS, LINE, POLYGON  kind, how many points, the points: at least 1, 2 and 3, at most 15
 * CIRCLE                 kind, the centre, radius, 10 bits, unit, 2 bits
 *
 * A latitude is the number that its 21 bits spell: south 1, degrees 7 (0 to 90), minutes 6 (0 to 60), hundredths 7 (0
 * to 99). A longitude is that of 22: west 1, degrees 8 (0 to 180), minutes 6, hundredths 7.
 */
enum bellnewt_notice_area {
    BELLNEWT_NOTICE_AREA_SEA = 0,
    BELLNEWT_NOTICE_AREA_POINTS = 1,
    BELLNEWT_NOTICE_AREA_LINE = 2,
    BELLNEWT_NOTICE_AREA_CIRCLE = 3,
    BELLNEWT_NOTICE_AREA_POLYGON = 4
};

/*
 * The numbers of the fields that can be corrected. From FIRST_ENTRY on they are those of the entries of `areas`, as
 * reading gives them: entry j is FIRST_ENTRY + j. Kinds of area and how many points there are decide the layout (10).
 */
enum bellnewt_notice_field {
    BELLNEWT_NOTICE_SOURCE = 0,  /* 5 bits, 1 to 21 */
    BELLNEWT_NOTICE_STATION = 1, /* 4 bits, 1 to 3 */
    BELLNEWT_NOTICE_SERIAL = 2,  /* 14 bits, 1 to 9,999 */
    BELLNEWT_NOTICE_YEAR = 3,    /* 7 bits, 0 to 99 */
    BELLNEWT_NOTICE_TYPE = 4,    /* 4 bits, 1 to 8 */
    BELLNEWT_NOTICE_SUBTYPE = 5, /* 4 bits; type 1: 1 to 10; 4 and 6: 1 to 13; 5: 1 to 8; else 0 */
    BELLNEWT_NOTICE_EXPIRY = 6,  /* 21 bits: next year 1, month 4, day 5, hour 5, minute 6; 0 for not known */
    BELLNEWT_NOTICE_FIRST_ENTRY = 8
};

/*
 * Reads a notice: its numbers into the first 10 entries of a row, its areas into the first entries of `areas`, its text
 * into the first bytes of `text`. The row says how many; entries and bytes past them stay.
 *
 * 4  the language is above 1
 * 1  not 8 to 12,978 bytes
 * 4  source, station, serial, year, type, subtype or a part of the expiry is outside its range
 * 1  the notice ends before a number of an area, or before a part of a latitude or longitude
 * 4  a kind of area above 4, too few points, or a part of a latitude or longitude outside its range
 * 4  a character of the text: not 0x20 to 0x7E, and in Chinese no pair of GB 2312 level one either
 * 5  a fill bit isn't zero
 * 6  the row has fewer than 10 entries, or `areas` or `text` is shorter than what it is to hold
 *
 * The areas are walked in bit order, so that of the 1 and 4 that they give the first comes. A refusal leaves all three
 * as they were.
 */
uint32_t bellnewt_notice_read(const uint8_t *s, size_t len, uint8_t language, int64_t *row, size_t row_len,
                              uint32_t *areas, size_t areas_len, uint8_t *text, size_t text_len);

/*
 * Writes a notice of `count` areas into the front of a buffer; bytes past it stay. `kind` is its type. It has 63 bits,
 * 11 for a sea area, 7 and 43 a point for points, a line or a polygon, 58 for a circle, and 8 a byte of text, rounded
 * up to bytes.
 *
 * 4  the language is above 1
 * 4  a value outside its field's range, or wider than the field; more than 15 areas or points; a bad character. Entries
 *    that `areas` is too short for count as 0 here; entries past those of `count` areas are not looked at
 * 1  more than 12,978 bytes
 * 6  the buffer is shorter than the notice, or `areas` than its areas ask
 *
 * A refusal leaves the buffer as it was.
 */
uint32_t bellnewt_notice_write(uint8_t *buf, size_t buf_len, const uint32_t *areas, size_t areas_len,
                               const uint8_t *text, size_t text_len, uint8_t language, uint8_t source, uint8_t station,
                               uint16_t serial, uint8_t year, uint8_t kind, uint8_t subtype, uint32_t expiry,
                               uint8_t count);

/*
 * Corrects one field of a notice where it stands. The new value is the plain number that the field's bits shall spell.
 * The buffer is the notice alone, so there is no 6.
 *
 * 4, 1, 4, 5  the language or the notice itself is refused, in the order of bellnewt_notice_read
 * 10  the number is none of bellnewt_notice_field, that of a kind or of how many points, or past the last entry
 * 4   the value is wider than the field or outside its range, or the subtype is none of the type's
 *
 * A refusal leaves the notice as it was; otherwise only that field's bits change.
 */
uint32_t bellnewt_notice_correct(uint8_t *s, size_t len, uint8_t language, size_t field, uint64_t value);

/*
 * Puts the points of a notice into the first entries of a row, and how many there are into *points: latitude, then
 * longitude, in hundredths of a minute, south and west negative. A circle gives its centre, a sea area nothing. Entries
 * past 2 * *points stay.
 *
 * 4, 1, 4, 5  the language or the notice itself is refused, in the order of bellnewt_notice_read
 * 6  the row is shorter than two entries a point
 *
 * A refusal leaves the row and *points as they were.
 */
uint32_t bellnewt_outline(const uint8_t *s, size_t len, uint8_t language, int32_t *row, size_t row_len, size_t *points);

/*
 * A tide telegram, 9 to 210 bytes: type 0xE4, version 1, data class 0, how many records; the records; a fill of 0 to 7
 * bits. A record says where, by a port's code or by a point, whether its levels are forecasts, and how many entries it
 * has; an entry is a level at a time. Records and entries are at least one and at most 511.
 */
enum bellnewt_tide_size {
    BELLNEWT_TIDE_LEAST = 9,
    BELLNEWT_TIDE_GREATEST = 210,
    BELLNEWT_TIDE_ROW = 234,   /* the most entries of a row: 33 ports, one of them with two levels */
    BELLNEWT_TIDE_HEIGHTS = 51 /* the most levels: one port's */
};

/*
 * What stands in the row of a telegram: one record behind another.
 *
 * position type       PORT or POINT
 * port                6 bits; of a POINT the latitude, 21 bits, and the longitude, 22, as a notice has them
 * forecast mark       1 bit: 0 for a level that was observed
 * how many entries    1 to 511, and then of each
 *   time              21 bits: next year 1, month 4 (1 to 12), day 5 (1 to 31), hour 5 (0 to 23), minute 6 (0 to 59)
 *   sign              1 bit: 0 for a level below zero
 *   value             10 bits, in centimetres: 0 to 1,023, and of sign 0 from 1 on
 */
enum bellnewt_tide_position { BELLNEWT_TIDE_PORT = 0, BELLNEWT_TIDE_POINT = 1 };

/*
 * The numbers of the fields that can be corrected: entry j of the row is FIRST_ENTRY + j. Position types and how many
 * entries there are decide the layout (10), and so does how many records.
 */
enum bellnewt_tide_field { BELLNEWT_TIDE_FIRST_ENTRY = 4 };

/*
 * Reads a telegram: how many records into *count, how many entries these have in the row into *numbers, and the entries
 * into the front of the row; those past them stay.
 *
 * 1  fewer than 9 bytes
 * 2  another type, version or data class
 * 1  more than 210 bytes
 * 4  no record
 * 1  the telegram ends before a number of a record, or before a part of a latitude, longitude or time
 * 4  no entry in a record; a part of a latitude, longitude or time outside its range, and so a time of all zeros; a
 *    value of 0 behind sign 0
 * 5  a fill bit isn't zero
 * 1  bytes are left over
 * 6  the row is shorter than what it is to hold
 *
 * The records are walked in bit order, so that of the 1 and 4 that they give the first comes. A refusal leaves *count,
 * *numbers and the row as they were.
 */
uint32_t bellnewt_tide_read(const uint8_t *s, size_t len, uint16_t *count, size_t *numbers, uint32_t *row,
                            size_t row_len);

/*
 * Writes a telegram of `count` records into the front of a buffer; bytes past it stay. It has 21 bits, 17 for a record
 * with a port and 54 for one with a point, and 32 an entry, rounded up to bytes.
 *
 * 4  a value outside its field's range, or wider than the field; no record or entry, or more than 511. Entries that the
 *    row is too short for count as good here; entries past those of `count` records are not looked at
 * 1  more than 210 bytes
 * 6  the buffer is shorter than the telegram, or the row than its records ask
 *
 * A refusal leaves the buffer as it was.
 */
uint32_t bellnewt_tide_write(uint8_t *buf, size_t buf_len, uint16_t count, const uint32_t *row, size_t row_len);

/*
 * Corrects one field of a telegram where it stands. The new value is the plain number that the field's bits shall
 * spell. The buffer is the telegram alone, so there is no 6.
 *
 * 1, 2, 4, 5  the telegram itself is refused, in the order of bellnewt_tide_read
 * 10  the number is below FIRST_ENTRY, that of a position type or of how many entries, or past the last entry
 * 4   the value is wider than the field or outside its range; sign 0 and value 0 would come together
 *
 * A refusal leaves the telegram as it was; otherwise only that field's bits change.
 */
uint32_t bellnewt_tide_correct(uint8_t *s, size_t len, size_t field, uint64_t value);

/*
 * Puts the levels of a telegram into the front of a row, in centimetres, those of sign 0 negative, and how many there
 * are into *count: all records' in the telegram's order. Entries past them stay.
 *
 * 1, 2, 4, 5  the telegram itself is refused, in the order of bellnewt_tide_read
 * 6  the row is shorter than that
 *
 * A refusal leaves the row and *count as they were.
 */
uint32_t bellnewt_tide_heights(const uint8_t *s, size_t len, int32_t *heights, size_t heights_len, size_t *count);

/*
 * The desk joins the packets of up to four notices, in whatever order they come. A notice is known by its message
 * number. All that the desk knows is in its places and its store, which every call is lent as the one before left them;
 * an empty desk is places whose marks are 0, and any store.
 *
 * A place is BELLNEWT_PLACE_BYTES bytes, a byte each entry, and the four stand one behind another. Held packets stand
 * in the store: packet k of place p from byte p * BELLNEWT_PLACE_PART + k * BELLNEWT_PACKET_CONTENT on.
 */
enum bellnewt_desk_size {
    BELLNEWT_PLACE_BYTES = 67,
    BELLNEWT_PLACE_PACKETS = 63, /* the most packets of a notice */
    BELLNEWT_PLACE_PART = 12978, /* a place's part of the store */
    BELLNEWT_DESK_PLACES = 4,
    BELLNEWT_DESK_ROW = 268, /* the bytes of four places */
    BELLNEWT_DESK_STORE = 51912,
    BELLNEWT_DESK_MISSING = 62 /* the most packets that are missing: a notice is opened by one */
};

/* What stands in a place. A closed place's other entries mean nothing. */
enum bellnewt_place_entry {
    BELLNEWT_PLACE_MARK = 0,     /* 0 closed, 1 open */
    BELLNEWT_PLACE_NUMBER = 1,   /* the message number */
    BELLNEWT_PLACE_LANGUAGE = 2, /* one of bellnewt_language, as its packets say */
    BELLNEWT_PLACE_TOTAL = 3,    /* how many packets the notice has, 1 to 63 */
    BELLNEWT_PLACE_HELD = 4      /* and 62 more: how many bytes of packet 0, 1, .. are held; 0 for none of it */
};

/*
 * The tests of places and store, which every call of the desk makes. More bytes of either are good, and stay as they
 * are:
 *
 * 6  fewer than 268 bytes of places, or fewer than 51,912 bytes of store
 * 4  a mark above 1; two open places of one number; an open place that holds no packet, whose total is not 1 to 63, or
 *    which holds a packet not below its total or more than 206 bytes of one
 */

/*
 * Takes a packet in. *again is 1 if the desk held the same packet before, else 0. An accepted packet changes its own
 * bytes of the store and its own entry of its place; the first of a notice opens the lowest closed place.
 *
 * 1, 2, 4  the packet itself is refused, in the order of bellnewt_packet_read
 * 6, 4  the tests of places and store
 * 7  its notice is open with another language or total, or this packet is held with other content
 * 8  its notice is not open, and all four places are
 *
 * A refusal leaves places, store and *again as they were.
 */
uint32_t bellnewt_desk_accept(uint8_t *places, size_t places_len, uint8_t *store, size_t store_len,
                              const uint8_t *packet, size_t packet_len, uint8_t *again);

/*
 * Joins a notice: puts its bytes into the front of `notice`, how many they are into *count and its language into
 * *language, and closes its place. If packets are missing, it puts their numbers, rising, into the front of `missing`
 * and how many they are into *count, and answers 9; all else stays. BELLNEWT_NOTICE_GREATEST bytes and
 * BELLNEWT_DESK_MISSING entries are always enough.
 *
 * 6, 4  the tests of places and store
 * 11  no open notice of that number
 * 6   packets are missing, and `missing` has fewer entries
 * 9   packets are missing
 * 6   `notice` is shorter than the notice
 *
 * A refusal but 9 leaves all lent memory as it was, and the place open.
 */
uint32_t bellnewt_desk_ask(uint8_t *places, size_t places_len, const uint8_t *store, size_t store_len, uint8_t number,
                           uint8_t *notice, size_t notice_len, uint16_t *missing, size_t missing_len, size_t *count,
                           uint8_t *language);

/*
 * Gives up a notice: closes its place.
 *
 * 6, 4  the tests of places and store
 * 11  no open notice of that number
 *
 * A refusal leaves the places as they were.
 */
uint32_t bellnewt_desk_drop(uint8_t *places, size_t places_len, const uint8_t *store, size_t store_len, uint8_t number);

#ifdef __cplusplus
}
#endif

#endif
