/* Bushingowl: CAN traces (PEAK TRC 1.1 and 1.2) to packed records and back, and packed records to Telemotive ASCII and
 * back; and what is wrong with a line that is no row.
 *
 * WHAT A CALL DOES
 *
 * Every function takes any bytes and any numbers. It allocates nothing, keeps no pointer and has no state, so that
 * several threads may call at once. What it has to say goes to the array `answer`:
 *
 *   answer[0]  the number: 0 accepted, anything else a refusal
 *   answer[1]  the place: a line of a text or a record of a list, each from 1; 0 where the refusal has no place, and
 *              when accepted
 *   the rest   as the function says; all 0 with a refusal
 *
 * Every number of the answer is set by every call. Accepted: the output begins with the bytes written, and behind them
 * it holds what it held before. Refused: all of the output holds what it held before.
 *
 * POINTERS
 *
 * Bytes are lent as a pointer and a length. Only where the length is 0 the pointer may be null. `answer` and `fields`
 * are never null, and have as many numbers as their brackets say. What is lent to one call does not overlap: neither
 * input and output, nor either of them and the answer, nor the answer and the fields. Nothing else writes to any of it
 * during the call.
 *
 * TIMES
 *
 * A start counts milliseconds from 30 December 1899, 0:00, in the local time of the logger (1 January 1970 is day
 * 25,569). An offset counts microseconds from the start. The stamp of a record is start plus offset. Offsets of a trace
 * may go back from row to row. Day 99,999, the last of a start, is 13 October 2173.
 *
 * ROW NUMBERS
 *
 * The first row of a trace has any number from 1 to 999,999, and each next row one more; behind number 999,999 no row
 * may follow. The first number is part of the trace, 0 where there are no rows: bo_read gives it, and bo_write is given
 * it. The packed records do not hold it. The first step back, and the record of a refusal, are positions, from 1
 * whatever the first number is: the row at position p has the number first + p - 1.
 *
 * THE PACKED RECORD
 *
 * 20 bytes, 160 bits, the most significant first. A list of records is one after the other, with nothing between.
 *
 *   bits  field
 *     48  offset    microseconds from the start, 0 to 281,474,976,710,655: all that 48 bits hold
 *      5  bus       1 to 16; 0 for none, which is so for version 1.1
 *      3  kind      one of the six below
 *      1  extended  1 for an ID of the extended form, whatever its value; 0 for a standard one
 *     29  ID        standard 0 to 0x7FF, extended 0 to 0x1FFFFFFF
 *      4  length    0 to 8
 *     64  data      eight bytes, the first one first; those past the length are 0
 *      1  mark      1 for a step back, 0 for none
 *      5  zero
 *
 * A record is well formed if its fields lie within these limits and, by its kind: of a remote frame all data is 0 (its
 * length is the one asked for); a warning has extended 0, ID 0 and length 4; an error frame has extended 0, ID 1, 2, 4
 * or 8, length 4, a first byte of 0 (sending) or 1 (receiving) and as second byte a position in the bit stream: 2 to 15,
 * 17, 18, 19, 23 to 28. Its third and fourth byte are the error counters.
 *
 * MARKS
 *
 * In a list the mark of a record is 1 exactly if its offset is below that of the record before it; the first record has
 * 0. It is the bit of weight 32 in the last of the 20 bytes. Texts have no marks: bo_read and bo_read_ascii set them in
 * the records that they give. bo_write and bo_export check them, and refuse a list in which one is false with 23. A
 * single record may have either mark: bo_unpack gives it, and bo_pack is given it. So a record that is copied out of
 * its list still tells whether the offset stepped back there.
 *
 * Who makes a list of copied records, some of them or in another order, sets the marks anew: 1 where the offset is
 * below that of the record before it in the new list, and 0 elsewhere. A list that was packed before there were marks
 * has 0 everywhere; if it steps back, its marks have to be set as well.
 *
 * CHANNELS
 *
 * A line of Telemotive ASCII has a channel, 0 to 16. Bus 1 to 16 is written as the channel of its number. Bus 0, which
 * means none, is written as the channel that the caller gives to bo_export. Read back, each channel is the bus of its
 * number, channel 0 among them. So what was exported with channel 0 for bus 0 comes back on its bus; with another one,
 * bus 0 comes back as the bus of that number.
 *
 * REFUSALS
 *
 *   no.  place   given exactly when                                                     by
 *    1   0       the text has more than 134,217,728 bytes                               bo_read, bo_read_ascii
 *    2   line    a line is not ended by CR LF                                           bo_read
 *    3   line    an ended line has more than 250 bytes before its CR LF                 bo_read
 *    4   1       line 1 is absent or no version line (;$FILEVERSION=1.1 or 1.2)         bo_read
 *    5   2       line 2 is absent, or no start line (;$STARTTIME=36585.5) or one with   bo_read
 *                a start above 8,639,999,999,999
 *    6   line    from line 3 on, a comment whose first byte behind ; and blanks is $    bo_read
 *    7   line    from line 3 on, any other line that is no comment and no row           bo_read
 *    8   0       the text is good, and the output too short for its records             bo_read, bo_read_ascii
 *   20   0       the bytes of the records are no multiple of 20 or above 19,999,980     bo_write, bo_export
 *                the bytes of the one record are not 20                                 bo_unpack
 *   21   0       the version is neither 11 nor 12                                       bo_write, bo_explain
 *   22   0       the start is above 8,639,999,999,999                                   bo_write, bo_export
 *   26   0       the first number is 0 with records, or not 0 without, or the last      bo_write
 *                row's would be above 999,999
 *   35   0       the channel of bus 0 is above 16, also where no record has bus 0       bo_export
 *   23   record  the first record that is not well formed or whose mark is false        bo_write, bo_export
 *        1       the record is not well formed                                          bo_unpack, bo_pack
 *   24   record  the first record that the version can't carry: 11 needs bus 0 and      bo_write
 *                an offset of whole 100 microseconds, 12 needs bus 1 to 16
 *   25   0       everything is good, and the output too short                           bo_write, bo_export, bo_pack
 *   30   0       the expected number is above 999,999, or the line holds CR or LF, or   bo_explain
 *                it is a row of this version and number (of any number, if 0 is
 *                expected), or a comment
 *   31   line    a line is no line of Telemotive ASCII, or has more than 250 bytes      bo_read_ascii
 *                before its end, or is not ended by CR LF or LF
 *   32   line    its stamp lies before the start                                        bo_read_ascii
 *   33   line    its stamp lies more than 281,474,976,710,655 microseconds behind the   bo_read_ascii
 *                start
 *   34   0       all lines are good, and there are more than 999,999                    bo_read_ascii
 *
 * Of several, bo_read gives 1 first, then that of the earliest line (on one line 2, then 3, then the rest), and 8 last.
 * bo_read_ascii gives 1 first, then that of the earliest line (on one line 31, then 32 or 33), then 34, and 8 last: a
 * wrong line comes before 34, even behind 999,999 good ones. The others give the one that stands first in this table,
 * in which 26 and 35 come before 23; bo_write tests all records, and their marks, for 23 before any for 24.
 * docs/FORMAT.md says what a row, a comment and the first two lines are, and what a line of Telemotive ASCII is.
 */
#ifndef BUSHINGOWL_H
#define BUSHINGOWL_H

#include <stddef.h>
#include <stdint.h>

#ifdef __cplusplus
extern "C" {
#endif

/* The state of this interface: one more whenever a function is added, or its parameters or answer change. 2 added
 * bo_explain; 3 gave bo_read and bo_write the first number; 4 added bo_read_ascii; 5 gave bo_export the channel of
 * bus 0; 6 gave the packed records their marks, and with them bo_pack a field and bo_unpack a number more. */
#define BUSHINGOWL_API 6

/* The kinds of a record. Only data frames give a line of an export. */
#define BUSHINGOWL_DATA_RECEIVED 0
#define BUSHINGOWL_DATA_SENT 1
#define BUSHINGOWL_REMOTE_RECEIVED 2
#define BUSHINGOWL_REMOTE_SENT 3
#define BUSHINGOWL_WARNING 4
#define BUSHINGOWL_ERROR_FRAME 5

/* The reasons why a line is no row. */
#define BUSHINGOWL_WRONG_FIELD 1
#define BUSHINGOWL_ENDED_EARLY 2

/* The bytes of a packed record. */
#define BUSHINGOWL_RECORD 20

/* The most bytes of a text that bo_read and bo_read_ascii take. */
#define BUSHINGOWL_MOST_TEXT 134217728

/* The largest number of a row, and so the most rows of a text and the most records of a list. A text whose first row
 * has the number n has at most BUSHINGOWL_MOST_ROWS - n + 1 rows. bo_read_ascii takes as many lines at most. */
#define BUSHINGOWL_MOST_ROWS 999999

/* The fewest bytes of a row with its CR LF, which are those of `1) 0.0 Rx 0000 0`. So a text of n bytes has at most
 * n / BUSHINGOWL_LEAST_ROW rows, and never more than BUSHINGOWL_MOST_ROWS. */
#define BUSHINGOWL_LEAST_ROW 18

/* The most bytes that bo_write gives for lines 1 and 2 with their CR LF: 19 for `;$FILEVERSION=1.2`, and 30 for
 * `;$STARTTIME=` with five digits of the day, a point and ten digits. */
#define BUSHINGOWL_MOST_HEADER 49

/* The most bytes that bo_write gives for a record, with CR LF:
 * `999999) 281474976710.655 16 Rx 1FFFFFFF 8 00 11 22 33 44 55 66 77`. */
#define BUSHINGOWL_MOST_ROW 67

/* The most bytes that bo_export gives for a record, with CR LF:
 * `29.02.2000 12:00:00.0000 CANExt #16 | EXTENDED Rx 1fffffff 8 00 11 22 33 44 55 66 77`. */
#define BUSHINGOWL_MOST_LINE 86

/* The fewest bytes of a line that bo_read_ascii takes, with its LF, which are those of
 * `29.02.2000 12:00:00.0000 CAN #1 | Rx 123 0`. So a text of n bytes has at most n / BUSHINGOWL_LEAST_LINE of them. */
#define BUSHINGOWL_LEAST_LINE 43

/* The last start, the last millisecond of day 99,999: 8,639,999,999,999. */
#define BUSHINGOWL_MOST_START ((uint64_t)99999 * 86400000 + 86399999)

/* The largest offset, which fills its 48 bits of a packed record: 281,474,976,710,655 microseconds, almost nine years.
 * In a row it is `281474976710.655`; version 1.1 goes up to `281474976710.6`. */
#define BUSHINGOWL_MOST_OFFSET (((uint64_t)1 << 48) - 1)

/* The last channel, which is that of the last bus. */
#define BUSHINGOWL_MOST_CHANNEL 16

/* Two channels that bo_export can be given for bus 0; any other up to BUSHINGOWL_MOST_CHANNEL will do as well.
 * AS_BUS: bus 0 as channel 0, so that each bus is the channel of its number. What is exported so comes back on its bus,
 *   and what came back is exported with the channels that it had.
 * AS_BENCH: bus 0 as channel 1, as the bench program (./bushingowl) prints it. It comes back as bus 1. */
#define BUSHINGOWL_CHANNEL_AS_BUS 0
#define BUSHINGOWL_CHANNEL_AS_BENCH 1

/* Reads a trace text into packed records, each with its mark.
 * out: BUSHINGOWL_RECORD bytes for each row; text_len / BUSHINGOWL_LEAST_ROW * BUSHINGOWL_RECORD bytes are enough for
 *   any text, and so are BUSHINGOWL_MOST_ROWS * BUSHINGOWL_RECORD.
 * answer: number, place (a line), version (11 for 1.1, 12 for 1.2), start, rows, first step back, first number.
 *   The first step back is the position, from 1, of the first row whose offset is below that of the row before it (0 if
 *   there is none), and so of the first record with mark 1. It is not that row's number in the text, which is
 *   answer[6] + answer[5] - 1.
 *   The first number is that of the first row in the text, 1 to 999,999 (0 if there are no rows).
 * Refusals: 1 to 8. */
void bo_read(const uint8_t *text, size_t text_len, uint8_t *out, size_t out_len, uint64_t answer[7]);

/* Writes packed records as a trace text, which bo_read reads back as the same version, start, records and first number.
 * The marks are not written, but checked: one that is false is 23.
 * version: 11 for 1.1, 12 for 1.2.
 * first: the number of the first row, from 1; 0 where there are no records. Each next row gets one more, and the last
 *   at most 999,999. To write what was read, give what bo_read gave in answer[6].
 * out: BUSHINGOWL_MOST_HEADER + records_len / BUSHINGOWL_RECORD * BUSHINGOWL_MOST_ROW bytes are enough.
 * answer: number, place (the position of a record, from 1, not its row's number), bytes written.
 * Refusals: 20 to 26, in the order 20, 21, 22, 26, 23, 24, 25. */
void bo_write(uint32_t version, uint64_t start, uint64_t first, const uint8_t *records, size_t records_len,
              uint8_t *out, size_t out_len, uint64_t answer[3]);

/* Exports the data frames among packed records as lines of Telemotive ASCII; the other records are left out. A stamp is
 * cut to 100 microseconds. The marks are not written, but checked, those of the records that are left out as well: one
 * that is false is 23.
 * channel: the channel that bus 0 is written as, 0 to 16, such as BUSHINGOWL_CHANNEL_AS_BUS or
 *   BUSHINGOWL_CHANNEL_AS_BENCH; every other bus is written as the channel of its number. Two loggers whose records
 *   have no bus look like one, unless each is exported with a channel of its own.
 * out: records_len / BUSHINGOWL_RECORD * BUSHINGOWL_MOST_LINE bytes are enough.
 * answer: number, place (a record), bytes written, lines, records left out.
 * Refusals: 20, 22, 35, 23, 25, in this order. */
void bo_export(uint64_t start, uint64_t channel, const uint8_t *records, size_t records_len,
               uint8_t *out, size_t out_len, uint64_t answer[5]);

/* Reads lines of Telemotive ASCII, as bo_export gives them and as they come back edited, into a start and packed
 * records. bo_export of these, with BUSHINGOWL_CHANNEL_AS_BUS as the channel of bus 0, gives the lines back in its own
 * spelling: with the same stamps, directions, IDs, channels and bytes, one blank between two parts, small letters and
 * CR LF.
 * text: lines, each ended by CR LF or by LF, with at most 250 bytes before that and no other CR. A line has the parts
 *   that bo_export writes, as `29.02.2000 12:00:00.0000 CAN #1 | Rx 123 2 0a ff` and
 *   `29.02.2000 12:00:01.5002 CANExt #2 | EXTENDED Tx 18ab0001 0` have, with one blank (byte 32 only) or more between
 *   two and none at the ends of the line. Hexadecimal letters may be capital or small; all else is spelled as there.
 *   The date exists and lies from 30.12.1899 to 13.10.2173, which is day 99,999; the time lies from 00:00:00.0000 to
 *   23:59:59.9999; the channel is #0 to #16 without a leading zero; behind the length, 0 to 8, stand just as many
 *   bytes.
 *   An empty line is no such line. An empty text is good, and gives start 0 and no records.
 * out: BUSHINGOWL_RECORD bytes for each line; text_len / BUSHINGOWL_LEAST_LINE * BUSHINGOWL_RECORD bytes are enough for
 *   any text, and so are BUSHINGOWL_MOST_ROWS * BUSHINGOWL_RECORD. With a refusal all of it holds what it held before.
 * answer: number, place (a line), start, records.
 *   The start is the stamp of line 1, cut to the millisecond, and the offset of a record is its line's stamp less the
 *   start, in microseconds; so that of the first record is 0 to 900. Stamps may go back from line to line, and records
 *   stay in the order of the lines, as long as no stamp lies before the start. One that lies before line 1 by at most
 *   0.9 milliseconds may still lie at the start or behind it.
 *   The kind of a record is 0 for Rx and 1 for Tx, and its bus is the channel; channel 0 is bus 0. What bo_export wrote
 *   for bus 0 comes back as the bus of the channel that was given: exported with BUSHINGOWL_CHANNEL_AS_BENCH, as bus 1.
 *   The mark of a record is 1 where its stamp lies before that of the line before it, whatever it was when exported.
 *   What an export leaves out or cuts off does not come back: records of other kinds, microseconds below 100, the start
 *   of the trace.
 *   bo_write takes records of channel 1 to 16 in version 12, and those of channel 0 in version 11, since all offsets
 *   here are whole 100 microseconds. Where a text has lines of both, no version carries all its records (24).
 * Refusals: 1, 31 to 34 and 8, in this order. Of what bo_export gives only these are refused: a stamp past day 99,999
 *   (31), and one before the start, where the records step back to before the first line (32). */
void bo_read_ascii(const uint8_t *text, size_t text_len, uint8_t *out, size_t out_len, uint64_t answer[4]);

/* Takes one packed record of BUSHINGOWL_RECORD bytes apart.
 * answer: number, place, offset, bus, kind, extended, ID, length, data (the first byte the most significant), mark.
 *   The mark, 0 or 1, speaks of the list that the record stood in; here either is good.
 * Refusals: 20, 23. */
void bo_unpack(const uint8_t *record, size_t record_len, uint64_t answer[10]);

/* Packs one record.
 * fields: offset, bus, kind, extended, ID, length, data (the first byte the most significant), mark, each with any
 *   value; what is not well formed is 23, a mark above 1 among it. They stand in the order of bo_unpack's answer from
 *   answer[2] on: where that is accepted, answer + 2 packs the record again, with another mark if answer[9] is changed.
 * out: BUSHINGOWL_RECORD bytes.
 * answer: number, place.
 * Refusals: 23, 25. */
void bo_pack(const uint64_t fields[8], uint8_t *out, size_t out_len, uint64_t answer[2]);

/* Tells what is wrong with a line that bo_read refused with 7: which field to look at.
 * A field is one byte or more, none of them a blank (byte 32 only), with blanks or an end of the line on either side.
 *   Fields count from 1 as they stand in the line. In version 12 they are row number, offset, bus, type, ID, length,
 *   then the data; version 11 has no bus, so that the type is field 3.
 * line: its bytes without CR LF, as many as there are; bo_read's limit of 250 does not count here. The time grows in
 *   proportion to the line's length, and the stack does not grow.
 * version: 11 for 1.1, 12 for 1.2.
 * number: the number that is expected of the row; 0 for a first row, which may have any number from 1 to 999,999. The
 *   lines before the refused one are a trace themselves, so that bo_read of them gives both: the version in answer[2],
 *   and the expected number as answer[6] + answer[4], the first number plus the rows. Where no row stands before, both
 *   are 0, and so is the expected number.
 * answer: number, place (always 0), reason, field. Accepted: the line is no row, and one of two reasons is given:
 *   BUSHINGOWL_WRONG_FIELD: some row of this version and number (if 0 is expected, of this version and some number)
 *     begins with the fields before this one, and none with this one as well.
 *   BUSHINGOWL_ENDED_EARLY: some such row begins with all fields of the line, and none ends with them; the field is the
 *     last one, or 0 where the line is empty or blank.
 * Refusals: 21, 30. A line that starts with ; is a comment, unless its first byte behind ; and blanks is $: that is a
 *   wrong field 1. Behind a row of number 999,999 bo_read takes only comments, however few the rows are. Of a line that
 *   it refuses there with 7 the expected number is 1,000,000, which bo_explain refuses with 30: no field is wrong, but
 *   no number is left. */
void bo_explain(const uint8_t *line, size_t line_len, uint32_t version, uint64_t number, uint64_t answer[4]);

#ifdef __cplusplus
}
#endif

#endif
