/* Prints what a trace file holds, and its export: convert FILE; or its refusal, and for a line that is no row what is wrong with it, in words.
 * Bus 0 is printed as channel 1, as the bench program prints it, or as channel N: convert --channel N FILE, with N from 0 to 16. So the traces of two
 * loggers without buses can be told apart.
 * Reads lines of Telemotive ASCII back, as they return edited: convert --ascii FILE. Prints them as an export has them, with the same channels; or the
 * refusal, and in words what is wrong.
 * All lines end with CR LF, as those of the export do. A pipe will do as well.
 * Ends with 0 if the trace or the lines were exported, 1 if they were refused, and 2 if it could not be done. */
#include "bushingowl.h"

#include <errno.h>
#include <inttypes.h>
#include <signal.h>
#include <stdio.h>
#include <stdlib.h>
#include <string.h>

/* Memory for so many bytes; never null, not even for none. */
static uint8_t *room(size_t bytes)
{
    uint8_t *memory = malloc(bytes + 1);
    if (memory == NULL) {
        fputs("convert: no memory\n", stderr);
        exit(2);
    }
    return memory;
}

/* The bytes of a file. Of one above the limit one byte more is read than a text may have, so that it is refused as such. */
static uint8_t *contents(const char *name, size_t *len)
{
    const size_t most = (size_t)BUSHINGOWL_MOST_TEXT + 1;
    uint8_t *text = room(most);
    FILE *file = fopen(name, "rb");
    if (file != NULL)
        *len = fread(text, 1, most, file);
    if (file == NULL || ferror(file)) {
        fprintf(stderr, "convert: can't read %s: %s\n", name, strerror(errno));
        exit(2);
    }
    fclose(file);
    return text;
}

/* Whether the bytes could be printed. */
static int put(const void *bytes, size_t len)
{
    return fwrite(bytes, 1, len, stdout) == len;
}

static int put_refusal(uint64_t number, uint64_t place)
{
    return printf("refused %" PRIu64 " at line %" PRIu64 "\r\n", number, place) >= 0;
}

/* Bytes of the text. */
struct bytes {
    const uint8_t *at;
    size_t len;
};

/* A line, from 1, without its CR LF. It and all lines before it are ended. */
static struct bytes line_of(const uint8_t *text, uint64_t number)
{
    struct bytes line = {text, 0};
    for (;;) {
        while (line.at[line.len] != '\r')
            line.len++;
        if (--number == 0)
            return line;
        line.at += line.len + 2;
        line.len = 0;
    }
}

/* A field of a line, from 1: what stands between blanks. Empty where the line has fewer. */
static struct bytes field_of(struct bytes line, uint64_t number)
{
    size_t start = 0, end = 0;
    for (; number > 0; number--) {
        for (start = end; start < line.len && line.at[start] == ' '; start++)
            ;
        for (end = start; end < line.len && line.at[end] != ' '; end++)
            ;
    }
    struct bytes field = {line.at + start, end - start};
    return field;
}

static int is(struct bytes bytes, const char *word)
{
    return bytes.len == strlen(word) && memcmp(bytes.at, word, bytes.len) == 0;
}

/* Room for the name of a column. */
#define COLUMN 40

/* The name of the column of a field, behind fields that are right; empty behind the last of a row. Where the field is not right itself, or not
 * there, it may be meant as RTR. */
static void name_column(char name[COLUMN], struct bytes line, uint64_t version, uint64_t field, int right)
{
    static const char *const names[] = {"row number", "offset", "bus", "type", "ID", "length"};
    /* In version 1.1, which has no bus, the type is field 3. */
    uint64_t left_out = version == 11 ? 1 : 0;
    uint64_t column = field < 3 ? field : field + left_out;
    if (column <= 6) {
        snprintf(name, COLUMN, "%s", names[column - 1]);
        return;
    }
    struct bytes type = field_of(line, 4 - left_out);
    int frame = is(type, "Rx") || is(type, "Tx");
    int remote = frame && is(field_of(line, 7 - left_out), "RTR");
    int bytes = *field_of(line, 6 - left_out).at - '0';
    int byte = (int)(column - 6);
    if (frame && byte == 1 && !right && bytes == 0)
        snprintf(name, COLUMN, "RTR or nothing");
    else if (frame && byte == 1 && !right)
        snprintf(name, COLUMN, "RTR or data byte 1 of %d", bytes);
    else if (byte <= bytes && !remote)
        snprintf(name, COLUMN, "data byte %d of %d", byte, bytes);
    else
        snprintf(name, COLUMN, "%s", is(type, "Warng") ? "word" : "");
}

/* Prints at most 40 bytes of a field or part, in quotes. What can't be seen is printed as its number. */
static int put_quoted(struct bytes field)
{
    int done = putchar('"') != EOF;
    for (size_t i = 0; i < field.len && i < 40; i++) {
        int byte = field.at[i];
        int seen = byte > ' ' && byte < 127 && byte != '"' && byte != '\\';
        done = done && printf(seen ? "%c" : "\\x%02X", byte) >= 0;
    }
    return done && printf(field.len > 40 ? "\"..." : "\"") >= 0;
}

/* Prints what is wrong with a field. The number is the one that the row must have, or 0 where it may be any. */
static int put_wrong(struct bytes line, uint64_t version, uint64_t number, uint64_t field)
{
    char name[COLUMN];
    name_column(name, line, version, field, 0);
    int done = printf("field %" PRIu64, field) >= 0;
    done = done && (name[0] == 0 ? printf(" is one too many: ") : printf(" (%s) is wrong: ", name)) >= 0;
    done = done && put_quoted(field_of(line, field));
    if (field == 1 && number == 0)
        done = done && printf(" instead of a number from 1 to 999999 and \")\"") >= 0;
    else if (field == 1)
        done = done && printf(" instead of \"%" PRIu64 ")\"", number) >= 0;
    return done && printf("\r\n") >= 0;
}

/* Prints what is missing behind the last field. */
static int put_early(struct bytes line, uint64_t version, uint64_t number, uint64_t field)
{
    if (field == 0 && number == 0)
        return printf("the line is empty: a row number from 1 to 999999 and \")\" was expected\r\n") >= 0;
    if (field == 0)
        return printf("the line is empty: row number \"%" PRIu64 ")\" was expected\r\n", number) >= 0;
    char last[COLUMN], next[COLUMN];
    name_column(last, line, version, field, 1);
    name_column(next, line, version, field + 1, 0);
    return printf("the row ended early after field %" PRIu64 " (%s): %s was expected next\r\n", field, last, next) >= 0;
}

/* Prints what is wrong with the line at which a text was refused with 7. The lines before it are a trace, which has the version, the first number and
 * as many rows as stand before (both 0 where none does, and any number will do); the room for records is enough for those of the whole text. */
static int put_explanation(const uint8_t *text, uint64_t place, uint8_t *records, size_t records_len)
{
    struct bytes line = line_of(text, place);
    uint64_t read[7], why[4];
    bo_read(text, (size_t)(line.at - text), records, records_len, read);
    uint64_t version = read[2], number = read[6] + read[4];
    if (number > BUSHINGOWL_MOST_ROWS)
        return printf("row number 999999 stands before it, and no row may follow\r\n") >= 0;
    bo_explain(line.at, line.len, (uint32_t)version, number, why);
    if (why[2] == BUSHINGOWL_WRONG_FIELD)
        return put_wrong(line, version, number, why[3]);
    return put_early(line, version, number, why[3]);
}

/* What a trace holds beside its records. The row that steps back is given by the number that it has in the file. */
static int put_head(const uint64_t read[7])
{
    uint64_t rows = read[4], back = read[5], first = read[6];
    int done = printf("version %" PRIu64 ", start %" PRIu64 ", %" PRIu64 " rows", read[2], read[3], rows) >= 0;
    if (rows > 0)
        done = done && printf(" numbered from %" PRIu64, first) >= 0;
    if (back == 0)
        return done && printf(", no step back\r\n") >= 0;
    return done && printf(", first step back at row number %" PRIu64 "\r\n", first + back - 1) >= 0;
}

/* What is printed for a text, with bus 0 as this channel: status is 0 if it is a trace, and 1 if it or the channel is refused. */
static int put_text(const uint8_t *text, size_t len, uint64_t channel, int *status)
{
    size_t rows = len / BUSHINGOWL_LEAST_ROW;
    if (rows > BUSHINGOWL_MOST_ROWS)
        rows = BUSHINGOWL_MOST_ROWS;
    uint8_t *records = room(rows * BUSHINGOWL_RECORD);
    uint64_t read[7];
    bo_read(text, len, records, rows * BUSHINGOWL_RECORD, read);
    *status = 1;
    if (read[0] != 0) {
        int done = put_refusal(read[0], read[1]);
        if (read[0] == 7)
            done = done && put_explanation(text, read[1], records, rows * BUSHINGOWL_RECORD);
        free(records);
        return done;
    }
    rows = (size_t)read[4];
    uint8_t *lines = room(rows * BUSHINGOWL_MOST_LINE);
    uint64_t exported[5];
    bo_export(read[3], channel, records, rows * BUSHINGOWL_RECORD, lines, rows * BUSHINGOWL_MOST_LINE, exported);
    free(records);
    /* Records just read are not refused, but the channel may be. */
    *status = exported[0] == 0 ? 0 : 1;
    int done = *status == 0 ? put_head(read) && put(lines, (size_t)exported[2]) : put_refusal(exported[0], exported[1]);
    if (exported[0] == 35)
        done = done && printf("the channel of bus 0 is above %d\r\n", BUSHINGOWL_MOST_CHANNEL) >= 0;
    free(lines);
    return done;
}

/* A part of a line of Telemotive ASCII: its name, and one that is good there. */
struct part {
    const char *name, *good;
};

/* The parts up to the length, with a standard ID and with an extended one. */
static const struct part standard[] = {
    {"date", "30.12.1899"}, {"time", "00:00:00.0000"}, {"message type", "CAN"}, {"channel", "#1"}, {"bar", "|"},
    {"direction", "Rx"}, {"ID", "000"}, {"length", "0"},
};
static const struct part extended[] = {
    {"date", "30.12.1899"}, {"time", "00:00:00.0000"}, {"message type", "CANExt"}, {"channel", "#1"}, {"bar", "|"},
    {"EXTENDED", "EXTENDED"}, {"direction", "Rx"}, {"ID", "00000000"}, {"length", "0"},
};

/* What comes next behind the first so many parts of a line, with which some line begins: its name goes to `name`, and one that is good there is given.
 * Null behind the last. Parts are what stands between blanks. */
static const char *next_part(struct bytes line, uint64_t parts, char name[COLUMN])
{
    int wide = parts > 2 && is(field_of(line, 3), "CANExt");
    uint64_t head = wide ? 9 : 8;
    if (parts < head) {
        struct part part = wide ? extended[parts] : standard[parts];
        snprintf(name, COLUMN, "%s", part.name);
        return part.good;
    }
    struct bytes length = field_of(line, head);
    int bytes = length.len == 1 && *length.at >= '0' && *length.at <= '8' ? *length.at - '0' : 0;
    if (parts - head >= (uint64_t)bytes)
        return NULL;
    snprintf(name, COLUMN, "data byte %d of %d", (int)(parts - head) + 1, bytes);
    return "00";
}

/* Whether some line begins with the first so many parts of this one, which has at most 250 bytes: the library takes them with good ones behind. */
static int begins_line(struct bytes line, uint64_t parts)
{
    /* For what the line has, and the good parts of a whole line. */
    char text[400], name[COLUMN];
    struct bytes begun = {(const uint8_t *)text, 0};
    for (uint64_t part = 1; part <= parts; part++) {
        struct bytes given = field_of(line, part);
        if (part > 1)
            text[begun.len++] = ' ';
        memcpy(text + begun.len, given.at, given.len);
        begun.len += given.len;
    }
    for (const char *good; (good = next_part(begun, parts, name)) != NULL; parts++)
        begun.len += (size_t)sprintf(text + begun.len, " %s", good);
    /* Before LF alone a CR of the line would be part of its end. */
    memcpy(text + begun.len, "\r\n", 2);
    uint8_t record[BUSHINGOWL_RECORD];
    uint64_t read[4];
    bo_read_ascii(begun.at, begun.len + 2, record, sizeof record, read);
    return read[0] == 0;
}

/* Prints what is wrong with the line, from 1, at which a text was refused with 31. */
static int put_no_line(const uint8_t *text, size_t len, uint64_t number)
{
    const uint8_t *end = text + len, *lf;
    struct bytes line = {text, 0};
    while ((lf = memchr(line.at, '\n', (size_t)(end - line.at))) != NULL && --number > 0)
        line.at = lf + 1;
    if (lf == NULL)
        return printf("the line is not ended by CR LF or LF\r\n") >= 0;
    line.len = (size_t)(lf - line.at);
    if (line.len > 0 && line.at[line.len - 1] == '\r')
        line.len--;
    if (line.len > 250)
        return printf("the line has more than 250 bytes\r\n") >= 0;
    char last[COLUMN], next[COLUMN];
    uint64_t parts = 0;
    for (; field_of(line, parts + 1).len > 0; parts++) {
        if (begins_line(line, parts + 1))
            continue;
        int done = printf("part %" PRIu64, parts + 1) >= 0;
        done = done && (next_part(line, parts, next) == NULL ? printf(" is one too many: ") : printf(" (%s) is wrong: ", next)) >= 0;
        return done && put_quoted(field_of(line, parts + 1)) && printf("\r\n") >= 0;
    }
    if (next_part(line, parts, next) == NULL)
        return printf("a blank stands before the first part or behind the last\r\n") >= 0;
    if (parts == 0)
        return printf("the line is empty: %s was expected\r\n", next) >= 0;
    next_part(line, parts - 1, last);
    return printf("the line ended early after part %" PRIu64 " (%s): %s was expected next\r\n", parts, last, next) >= 0;
}

/* Prints why lines of Telemotive ASCII are refused. */
static int put_ascii_refusal(const uint8_t *text, size_t len, const uint64_t read[4])
{
    int done = put_refusal(read[0], read[1]);
    switch (read[0]) {
    case 1:
        return done && printf("the text has more than %d bytes\r\n", BUSHINGOWL_MOST_TEXT) >= 0;
    case 31:
        return done && put_no_line(text, len, read[1]);
    case 32:
        return done && printf("its stamp lies before the start, that of line 1 cut to the millisecond\r\n") >= 0;
    case 33:
        return done && printf("its stamp lies more than %" PRIu64 " microseconds behind the start, that of line 1 cut to the millisecond\r\n",
                              BUSHINGOWL_MOST_OFFSET) >= 0;
    case 34:
        return done && printf("there are more than %d lines\r\n", BUSHINGOWL_MOST_ROWS) >= 0;
    default:
        /* There is room for the records. */
        return done;
    }
}

/* What is printed for lines of Telemotive ASCII: status is 0 if they are good, and 1 if they are refused. */
static int put_ascii(const uint8_t *text, size_t len, int *status)
{
    size_t lines = len / BUSHINGOWL_LEAST_LINE;
    if (lines > BUSHINGOWL_MOST_ROWS)
        lines = BUSHINGOWL_MOST_ROWS;
    uint8_t *records = room(lines * BUSHINGOWL_RECORD);
    uint64_t read[4];
    bo_read_ascii(text, len, records, lines * BUSHINGOWL_RECORD, read);
    *status = 1;
    if (read[0] != 0) {
        free(records);
        return put_ascii_refusal(text, len, read);
    }
    lines = (size_t)read[3];
    uint8_t *spelled = room(lines * BUSHINGOWL_MOST_LINE);
    uint64_t exported[5];
    bo_export(read[2], BUSHINGOWL_CHANNEL_AS_BUS, records, lines * BUSHINGOWL_RECORD, spelled, lines * BUSHINGOWL_MOST_LINE, exported);
    free(records);
    /* Records just read are not refused. */
    *status = exported[0] == 0 ? 0 : 1;
    int done = *status == 0 ? put(spelled, (size_t)exported[2]) : put_refusal(exported[0], exported[1]);
    free(spelled);
    return done;
}

/* Whether a word is a number in decimal, which goes to `channel`; of one above the last channel, as many digits as it takes to be above. */
static int is_channel(const char *word, uint64_t *channel)
{
    uint64_t number = 0;
    size_t digits = strspn(word, "0123456789");
    for (size_t i = 0; i < digits && number <= BUSHINGOWL_MOST_CHANNEL; i++)
        number = 10 * number + (uint64_t)(word[i] - '0');
    *channel = number;
    return digits > 0 && word[digits] == 0;
}

int main(int argc, char **argv)
{
    uint64_t channel = BUSHINGOWL_CHANNEL_AS_BENCH;
    int ascii = argc > 1 && strcmp(argv[1], "--ascii") == 0;
    int given = argc > 1 && strcmp(argv[1], "--channel") == 0;
    if (argc != (given ? 4 : ascii ? 3 : 2) || (given && !is_channel(argv[2], &channel))) {
        fputs("usage: convert FILE, or convert --channel N FILE, or convert --ascii FILE\n", stderr);
        return 2;
    }
#ifdef SIGPIPE
    signal(SIGPIPE, SIG_IGN);
#endif
    size_t len = 0;
    uint8_t *text = contents(argv[argc - 1], &len);
    int status;
    int done = (ascii ? put_ascii(text, len, &status) : put_text(text, len, channel, &status)) && fflush(stdout) == 0;
    /* A reader that closes early has what it wants. */
    if (!done && errno != EPIPE) {
        fprintf(stderr, "convert: can't write: %s\n", strerror(errno));
        status = 2;
    }
    free(text);
    return status;
}
