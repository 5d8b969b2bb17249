/*
 * A host in C: hands a model file to Vividlawn.
 *
 *     host FILE              prints the report, or the fault taken apart
 *     host --damaged FILE    damages the file, which has to be a good one, in many ways, and looks at what each call leaves behind
 */
#include "vividlawn.h"

#include <stdio.h>
#include <stdlib.h>
#include <string.h>

/* What the output is filled with: no report holds this byte. */
#define UNTOUCHED 0xA5

/* So many bytes past the output are looked at too. */
#define MARGIN 64

/* Memory for len bytes that ends where they end, so that a checker of memory sees any step past them. It is never null. */
struct block {
    uint8_t *whole;
    uint8_t *bytes;
};

static struct block block_of(size_t len)
{
    struct block b;
    b.whole = malloc(len + 1);
    if (b.whole == NULL) {
        fprintf(stderr, "no memory\n");
        exit(2);
    }
    b.bytes = b.whole + 1;
    return b;
}

/* The bytes of a file. */
static uint8_t *read_file(const char *name, size_t *len)
{
    FILE *file = fopen(name, "rb");
    size_t room = 65536;
    uint8_t *bytes = malloc(room);

    *len = 0;
    while (file != NULL && bytes != NULL) {
        *len += fread(bytes + *len, 1, room - *len, file);
        if (*len < room)
            break;
        room *= 2;
        bytes = realloc(bytes, room);
    }
    if (file == NULL || bytes == NULL || ferror(file)) {
        fprintf(stderr, "%s cannot be read\n", name);
        exit(2);
    }
    fclose(file);
    return bytes;
}

static const char *layer_name(int layer)
{
    switch (layer) {
    case 1:
        return "the file";
    case 2:
        return "the diagram";
    case 3:
        return "the report";
    default:
        return "no layer";
    }
}

static void print_fault(int64_t answer)
{
    int layer = VIVIDLAWN_FAULT_LAYER(answer);
    int record = VIVIDLAWN_FAULT_RECORD(answer);

    printf("fault of %s", layer_name(layer));
    if (record != VIVIDLAWN_NO_RECORD)
        printf(", record %d", record);
    printf(", number %d\n", VIVIDLAWN_FAULT_NUMBER(answer));
}

static int analyse(const uint8_t *model, size_t len)
{
    uint8_t output[VIVIDLAWN_LONGEST_REPORT];
    int64_t answer = vividlawn_analyse(model, len, output, sizeof output);

    if (answer < 0) {
        print_fault(answer);
        return 1;
    }
    fwrite(output, 1, (size_t)answer, stdout);
    return 0;
}

/* Damaged files. */

static size_t calls;
static size_t reports;
static size_t faults;
static size_t wrong;

static void complain(const char *damage, size_t at, const char *why)
{
    wrong++;
    fprintf(stderr, "%s %zu: %s\n", damage, at, why);
}

static int is_untouched(const uint8_t *bytes, size_t len)
{
    for (size_t i = 0; i < len; i++)
        if (bytes[i] != UNTOUCHED)
            return 0;
    return 1;
}

/* Does the answer hold a fault that there is? */
static int is_fault(int64_t answer)
{
    int record = VIVIDLAWN_FAULT_RECORD(answer);
    int number = VIVIDLAWN_FAULT_NUMBER(answer);

    switch (VIVIDLAWN_FAULT_LAYER(answer)) {
    case 1:
        if (number == 21 || number == 22 || number == 25)
            return record == VIVIDLAWN_NO_RECORD;
        return record < 49 && (number == 23 || number == 24 || number == 26);
    case 2:
        return record < 48 && ((number >= 3 && number <= 7) || number == 11 || number == 12);
    case 3:
        return record == VIVIDLAWN_NO_RECORD && number == 27;
    default:
        return 0;
    }
}

/* Calls with these bytes and so much output, and looks at the output and past it. */
static int64_t call(const char *damage, size_t at, const uint8_t *bytes, size_t len, size_t room)
{
    struct block model = block_of(len);
    struct block copy = block_of(len);
    struct block output = block_of(room + MARGIN);
    int64_t answer;

    memcpy(model.bytes, bytes, len);
    memcpy(copy.bytes, bytes, len);
    memset(output.bytes, UNTOUCHED, room + MARGIN);
    answer = vividlawn_analyse(model.bytes, len, output.bytes, room);
    calls++;
    if (answer < 0) {
        faults++;
        if (!is_fault(answer))
            complain(damage, at, "no such fault");
        if (!is_untouched(output.bytes, room + MARGIN))
            complain(damage, at, "a fault changed the output");
    } else {
        size_t written = (size_t)answer;

        reports++;
        if (written == 0 || written > room || written > VIVIDLAWN_LONGEST_REPORT) {
            complain(damage, at, "the length of the report cannot be");
        } else {
            if (memcmp(output.bytes, "need ", 5) != 0 || output.bytes[written - 1] != '\n')
                complain(damage, at, "the report is no report");
            if (memchr(output.bytes, UNTOUCHED, written) != NULL)
                complain(damage, at, "the report is shorter than its length");
            if (!is_untouched(output.bytes + written, room + MARGIN - written))
                complain(damage, at, "bytes past the report changed");
        }
    }
    if (memcmp(model.bytes, copy.bytes, len) != 0)
        complain(damage, at, "the model changed");
    free(model.whole);
    free(copy.whole);
    free(output.whole);
    return answer;
}

static void expect_fault(const char *damage, size_t at, int64_t answer, int layer, int number)
{
    if (answer >= 0 || VIVIDLAWN_FAULT_LAYER(answer) != layer || VIVIDLAWN_FAULT_NUMBER(answer) != number)
        complain(damage, at, "another answer was expected");
}

/* The file is cut short: there is always a fault. */
static void try_cuts(const uint8_t *good, size_t len)
{
    for (size_t left = 0; left < len; left++)
        if (call("cut to", left, good, left, VIVIDLAWN_LONGEST_REPORT) >= 0)
            complain("cut to", left, "a file that was cut short has a report");
}

/* Each byte is changed by turning each of its bits, by one more and one less, and to 0 and 255. The file may still be a good one. */
static void try_changes(const uint8_t *good, size_t len)
{
    struct block changed = block_of(len);

    for (size_t i = 0; i < len; i++) {
        uint8_t was = good[i];
        uint8_t bytes[12] = {0, 255, (uint8_t)(was + 1), (uint8_t)(was - 1)};

        for (int bit = 0; bit < 8; bit++)
            bytes[4 + bit] = (uint8_t)(was ^ (1 << bit));
        memcpy(changed.bytes, good, len);
        for (size_t j = 0; j < sizeof bytes; j++) {
            changed.bytes[i] = bytes[j];
            call("changed byte", i, changed.bytes, len, VIVIDLAWN_LONGEST_REPORT);
        }
    }
    free(changed.whole);
}

/* Bytes are left over. */
static void try_longer(const uint8_t *good, size_t len)
{
    struct block longer = block_of(len + 1);

    memcpy(longer.bytes, good, len);
    for (int last = 0; last < 256; last++) {
        longer.bytes[len] = (uint8_t)last;
        expect_fault("left over", (size_t)last, call("left over", (size_t)last, longer.bytes, len + 1, VIVIDLAWN_LONGEST_REPORT), 1, 25);
    }
    free(longer.whole);
}

/* Every output that is too short, and one that is just long enough. */
static void try_rooms(const uint8_t *good, size_t len, size_t report)
{
    for (size_t room = 0; room < report; room++)
        expect_fault("room of", room, call("room of", room, good, len, room), 3, 27);
    if (call("room of", report, good, len, report) != (int64_t)report)
        complain("room of", report, "another answer was expected");
}

static int analyse_damaged(const uint8_t *good, size_t len)
{
    int64_t answer = call("undamaged", 0, good, len, VIVIDLAWN_LONGEST_REPORT);

    if (answer < 0) {
        print_fault(answer);
        fprintf(stderr, "the file is not good before it is damaged\n");
        return 2;
    }
    try_cuts(good, len);
    try_changes(good, len);
    try_longer(good, len);
    try_rooms(good, len, (size_t)answer);
    printf("%zu calls: %zu reports, %zu faults, %zu wrong\n", calls, reports, faults, wrong);
    return wrong == 0 ? 0 : 1;
}

int main(int argc, char **argv)
{
    int damaged = argc == 3 && strcmp(argv[1], "--damaged") == 0;
    uint8_t *model;
    size_t len;
    int status;

    if (argc != 2 && !damaged) {
        fprintf(stderr, "usage: host [--damaged] FILE\n");
        return 2;
    }
    model = read_file(argv[argc - 1], &len);
    status = damaged ? analyse_damaged(model, len) : analyse(model, len);
    free(model);
    return status;
}
