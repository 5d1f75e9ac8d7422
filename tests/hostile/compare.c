/* Compares the archive with the independent implementation: compare CASES SEED, where CASES is how many are made up at random,
   in turn for each function, before those that are always tried. Prints how often each function answered and refused, and ends
   with 1 where the two differ or where a refusal that document 01, or 02, allows was not reached. */
#include "check.h"
#include "tally.h"

#include <inttypes.h>
#include <stdio.h>
#include <stdlib.h>
#include <string.h>

enum { CODES = 6, MOST_POINTS = 500, MOST_ANSWER = 36, MOST_ELEMENT = 47 };
enum { LATITUDE_LENGTH = 11, LONGITUDE_LENGTH = 12, LINE_LENGTH = 26 };
enum { MINUTE = 60000, ROUND = 9000, LARGEST_LATITUDE = 324000000, LARGEST_LONGITUDE = 1295999999 };

static const struct implementation ARCHIVE = IMPLEMENTATION(buckettin);
static uint64_t state;

/* Ends of the areas, in minutes of arc: south, north, west, east. */
static const int AREAS[CODES][4] = {
    { 2070, 2145, 1930, 2080 }, { 240, 840, 150, 885 }, { 3240, 4320, 11400, 13200 },
    { 1460, 1575, 3040, 3105 }, { 350, 595, 4770, 4920 }, { 1200, 1575, 3060, 3540 },
};

static const int64_t EXTREMES[] = {
    0, 1, -1, LARGEST_LATITUDE, LARGEST_LATITUDE + 1, -LARGEST_LATITUDE, -LARGEST_LATITUDE - 1, LARGEST_LONGITUDE,
    LARGEST_LONGITUDE + 1, -LARGEST_LONGITUDE, INT32_MAX, INT32_MAX + INT64_C(1), INT32_MIN, INT32_MIN - INT64_C(1), UINT32_MAX,
    UINT32_MAX + INT64_C(1), UINT32_MAX + INT64_C(2), -(int64_t)UINT32_MAX, INT64_MAX, INT64_MAX - 1, INT64_MIN, INT64_MIN + 1,
};

enum { EXTREME_COUNT = sizeof EXTREMES / sizeof EXTREMES[0] };

/* Chance, by splitmix64. */

static uint64_t chance(void) {
    uint64_t z = state += UINT64_C(0x9e3779b97f4a7c15);
    z = (z ^ z >> 30) * UINT64_C(0xbf58476d1ce4e5b9);
    z = (z ^ z >> 27) * UINT64_C(0x94d049bb133111eb);
    return z ^ z >> 31;
}

static int64_t among(int64_t least, int64_t most) {
    return least + (int64_t)(chance() % (uint64_t)(most - least + 1));
}

static bool one_in(int count) {
    return chance() % (uint64_t)count == 0;
}

/* Trying a call. */

static void try(const struct call *call) {
    struct answer answer;
    if (!is_same(&ARCHIVE, call, (uint32_t)chance(), &answer)) exit(1);
    count_call(call, answer);
}

static void try_waypoint(int64_t code, int64_t latitude, int64_t longitude, size_t room) {
    try(&(struct call){ .function = WAYPOINT, .number = { code, latitude, longitude }, .room = room });
}

static void try_point(int64_t code, int64_t latitude, int64_t longitude) {
    for (enum function function = SHIFT; function <= REFUSAL; function++) {
        try(&(struct call){ .function = function, .number = { code, latitude, longitude } });
    }
    try_waypoint(code, latitude, longitude, one_in(4) ? 0 : MOST_ELEMENT);
}

static void try_bytes(enum function function, const void *bytes, size_t length, size_t room) {
    try(&(struct call){ .function = function, .given = bytes, .length = length, .room = room });
}

static void try_write(enum function function, int64_t ms, size_t room) {
    try(&(struct call){ .function = function, .number = { ms }, .room = room });
}

/* Points. */

/* The two ends, what lies one off each, and the middle. */
static void put_edges(int least, int most, int64_t edges[7]) {
    for (int off = -1; off <= 1; off++) {
        edges[1 + off] = (int64_t)least * MINUTE + off;
        edges[4 + off] = (int64_t)most * MINUTE + off;
    }
    edges[6] = ((int64_t)least + most) / 2 * MINUTE;
}

static void try_area_edges(const int area[4]) {
    int64_t latitudes[7], longitudes[7];
    put_edges(area[0], area[1], latitudes);
    put_edges(area[2], area[3], longitudes);
    for (int i = 0; i < 49; i++) {
        for (int64_t code = -1; code <= 8; code++) try_point(code, latitudes[i / 7], longitudes[i % 7]);
    }
}

static void try_extreme_points(void) {
    for (int i = 0; i < EXTREME_COUNT; i++) {
        for (int j = 0; j < EXTREME_COUNT; j++) try_point(among(1, CODES), EXTREMES[i], EXTREMES[j]);
        for (int code = 1; code <= CODES; code++) {
            try_point(code, EXTREMES[i], (int64_t)AREAS[code - 1][2] * MINUTE);
            try_point(code, (int64_t)AREAS[code - 1][0] * MINUTE, EXTREMES[i]);
        }
        try_point(EXTREMES[i], (int64_t)AREAS[0][0] * MINUTE, (int64_t)AREAS[0][2] * MINUTE);
    }
}

static int64_t any_number(void) {
    if (one_in(3)) return EXTREMES[among(0, EXTREME_COUNT - 1)];
    return (int64_t)chance() >> among(0, 63);
}

static int64_t any_code(void) {
    return one_in(8) ? (one_in(2) ? among(-1, 8) : any_number()) : among(1, CODES);
}

/* A latitude or longitude of an area: mostly within, or at an end, or near it, or anywhere, or so round that K times it can be an
   exact half. */
static int64_t any_place(int least, int most, int64_t first, int64_t last) {
    int64_t from = (int64_t)least * MINUTE, to = (int64_t)most * MINUTE;
    switch (chance() % 32) {
    case 0: return from + among(-1, 1);
    case 1: return to + among(-1, 1);
    case 2: return among(first, last);
    case 3: return among(first, last) + (one_in(2) ? last : -last);
    case 4: case 5: case 6: return among(from / ROUND, to / ROUND) * ROUND;
    default: return among(from, to);
    }
}

static int64_t any_latitude(int64_t code) {
    const int *area = AREAS[(uint64_t)(code - 1) % CODES];
    return any_place(area[0], area[1], -LARGEST_LATITUDE, LARGEST_LATITUDE);
}

static int64_t any_longitude(int64_t code) {
    const int *area = AREAS[(uint64_t)(code - 1) % CODES];
    return any_place(area[2], area[3], 0, LARGEST_LONGITUDE);
}

/* Points at which the lengths of the two numbers differ, into every room. */
static void try_waypoints(void) {
    for (int code = 1; code <= CODES; code++) {
        const int *area = AREAS[code - 1];
        for (size_t room = 0; room <= MOST_ELEMENT + 20; room++) {
            for (int corner = 0; corner < 4; corner++) {
                try_waypoint(code, (int64_t)area[corner / 2] * MINUTE, (int64_t)area[2 + corner % 2] * MINUTE, room);
            }
            try_waypoint(code, any_latitude(code), any_longitude(code), room);
        }
    }
}

static size_t any_room(void) {
    return (size_t)(one_in(4) ? among(0, MOST_ELEMENT + 4) : MOST_ELEMENT);
}

static void try_any_point(enum function function) {
    int64_t code = any_code();
    struct call call = { .function = function, .number = { code, any_latitude(code), any_longitude(code) } };
    if (function == WAYPOINT) call.room = any_room();
    if (one_in(16)) call.number[1] = any_number();
    if (one_in(16)) call.number[2] = any_number();
    if (one_in(16)) call.number[among(0, 2)] ^= INT64_C(1) << among(8, 62);
    try(&call);
}

/* Texts and lines. */

static const char *const LATITUDES[] = {
    "000000.000N", "000000.001S", "350000.000N", "895959.999S", "900000.000N", "900000.001N", "000000.000S", "006000.000N",
    "000060.000N", "990000.000S",
};
static const char *const LONGITUDES[] = {
    "0000000.000E", "0330000.000E", "3595959.999E", "3600000.000E", "1234560.000E", "0006000.000E", "9990000.000E",
};
static const char *const LINES[] = {
    "1 350000.000N 0330000.000E", "3 643109.064N 1943728.092E", "6 230000.000N 0570000.000E", "0 350000.000N 0330000.000E",
    "9 350000.000N 3600000.000E", "4 350000.000N 0330000.000E", "2 000000.000S 0080000.000E",
};

static size_t length_of(enum function function) {
    return function == READ_LATITUDE ? LATITUDE_LENGTH : function == READ_LONGITUDE ? LONGITUDE_LENGTH : LINE_LENGTH;
}

/* Every byte value at every place; every length up to 40, cut or going on with zeros or with its last byte; every room. */
static void try_damaged(enum function function, const char *text) {
    size_t length = length_of(function);
    uint8_t bytes[41];
    for (size_t i = 0; i < length * 256; i++) {
        memcpy(bytes, text, length);
        bytes[i / 256] = (uint8_t)(i % 256);
        try_bytes(function, bytes, length, MOST_ANSWER);
    }
    for (size_t i = 0; i < 2 * sizeof bytes; i++) {
        memset(bytes, i % 2 == 0 ? 0 : text[length - 1], sizeof bytes);
        memcpy(bytes, text, length);
        try_bytes(function, bytes, i / 2, MOST_ANSWER);
    }
    for (size_t room = 0; function == LINE && room <= MOST_ANSWER + 4; room++) try_bytes(function, text, length, room);
}

static void try_texts(void) {
    for (size_t i = 0; i < sizeof LATITUDES / sizeof *LATITUDES; i++) try_damaged(READ_LATITUDE, LATITUDES[i]);
    for (size_t i = 0; i < sizeof LONGITUDES / sizeof *LONGITUDES; i++) try_damaged(READ_LONGITUDE, LONGITUDES[i]);
    for (size_t i = 0; i < sizeof LINES / sizeof *LINES; i++) try_damaged(LINE, LINES[i]);
}

static void try_writes(void) {
    for (int i = 0; i < EXTREME_COUNT; i++) {
        for (size_t room = 0; room <= LONGITUDE_LENGTH + 20; room++) {
            try_write(WRITE_LATITUDE, EXTREMES[i], room);
            try_write(WRITE_LONGITUDE, EXTREMES[i], room);
        }
    }
}

/* The size of an angle as text, most often one that a position can have. */
static int any_angle(char *text, int degree_digits, int64_t ms) {
    int degrees = (int)(ms / 3600000), minutes = (int)(ms / MINUTE % 60), seconds = (int)(ms / 1000 % 60);
    if (one_in(40)) degrees = (int)among(0, degree_digits == 2 ? 99 : 999);
    if (one_in(40)) minutes = (int)among(58, 99);
    if (one_in(40)) seconds = (int)among(58, 99);
    return sprintf(text, "%0*d%02d%02d.%03d", degree_digits, degrees, minutes, seconds, (int)(ms % 1000));
}

static int64_t within(int64_t ms, int64_t most) {
    int64_t size = ms < 0 ? -ms : ms;
    return size > most ? most : size;
}

static int any_latitude_text(char *text, int64_t code) {
    int64_t ms = one_in(2) ? any_latitude(code) : among(-LARGEST_LATITUDE, LARGEST_LATITUDE);
    int length = any_angle(text, 2, one_in(40) ? 0 : within(ms, LARGEST_LATITUDE));
    text[length] = ms < 0 ? 'S' : 'N';
    return length + 1;
}

static int any_longitude_text(char *text, int64_t code) {
    int64_t ms = one_in(2) ? any_longitude(code) : among(0, LARGEST_LONGITUDE);
    int length = any_angle(text, 3, within(ms, LARGEST_LONGITUDE));
    text[length] = 'E';
    return length + 1;
}

/* A position within the area of a code, or nearly so. */
static int any_line(char *line) {
    int64_t code = one_in(16) ? among(0, 9) : among(1, CODES);
    int length = sprintf(line, "%d ", (int)code);
    length += any_angle(line + length, 2, within(any_latitude(code), LARGEST_LATITUDE));
    line[length++] = one_in(20) ? 'S' : 'N';
    line[length++] = ' ';
    length += any_angle(line + length, 3, within(any_longitude(code), LARGEST_LONGITUDE));
    line[length++] = 'E';
    return length;
}

static void try_any_text(enum function function) {
    char text[64] = { 0 };
    int64_t code = among(1, CODES);
    int length = function == LINE ? any_line(text)
                 : function == READ_LATITUDE ? any_latitude_text(text, code) : any_longitude_text(text, code);
    while (one_in(6)) text[among(0, length - 1)] = (char)chance();
    if (one_in(12)) length = (int)among(0, 40);
    try_bytes(function, text, (size_t)length, (size_t)(one_in(4) ? among(0, MOST_ANSWER + 4) : MOST_ANSWER));
}

static void try_any_write(enum function function) {
    int64_t ms = function == WRITE_LATITUDE ? among(-LARGEST_LATITUDE, LARGEST_LATITUDE) : among(0, LARGEST_LONGITUDE);
    try_write(function, one_in(4) ? any_number() : ms, (size_t)among(one_in(4) ? 0 : LATITUDE_LENGTH, 32));
}

/* Sheets. A flaw is one thing that is wrong with a sheet, or with its call; any of them may come together. */

enum {
    SERIAL_ZERO = 1, SERIAL_FOREIGN = 2, DATUMS_OVER = 4, CODES_WRONG = 8, POINTS_OVER = 16, UNLISTED = 32, TOO_SHORT = 64,
    TOO_LONG = 128, ROOM_SHORT = 256, FLAWS = 512
};

struct sheet { uint8_t bytes[MOST_GIVEN]; size_t length; int64_t unit; size_t needed; };

static void put(struct sheet *sheet, int64_t number, int width) {
    for (int i = width - 1; i >= 0; i--) sheet->bytes[sheet->length++] = (uint8_t)((uint64_t)number >> 8 * i);
}

static int64_t foreign_to(int64_t serial) {
    switch (chance() % 8) {
    case 0: return serial + (INT64_C(1) << 32);
    case 1: return serial - (INT64_C(1) << 32);
    case 2: return -serial;
    case 3: return serial ^ (INT64_C(1) << among(0, 62));
    case 4: return any_number();
    default: return EXTREMES[among(0, EXTREME_COUNT - 1)];
    }
}

static void put_serial(struct sheet *sheet, int flaws) {
    static const int64_t SERIALS[] = { 1, 255, 256, INT32_MAX, INT32_MAX + INT64_C(1), UINT32_MAX };
    int64_t serial = one_in(2) ? among(1, UINT32_MAX) : SERIALS[among(0, 5)];
    sheet->unit = flaws & SERIAL_FOREIGN ? foreign_to(serial) : flaws & SERIAL_ZERO && one_in(2) ? 0 : serial;
    put(sheet, flaws & SERIAL_ZERO ? 0 : serial, 4);
}

/* The codes of a set, bit 0 being code 1. */
static int codes_of(int set, uint8_t codes[CODES]) {
    int count = 0;
    for (int code = 1; code <= CODES; code++) {
        if (set >> (code - 1) & 1) codes[count++] = (uint8_t)code;
    }
    return count;
}

static void spoil_codes(uint8_t *codes, int count) {
    static const uint8_t WRONG[] = { 0, 7, 8, 127, 128, 255 };
    int at = (int)among(0, count - 1), beside = at > 0 ? at - 1 : at + 1;
    uint8_t code = codes[at];
    if (count == 1 || one_in(3)) {
        codes[at] = WRONG[among(0, 5)];
    } else {
        codes[at] = codes[beside];
        if (one_in(2)) codes[beside] = code;
    }
}

static void put_datums(struct sheet *sheet, int set, int flaws) {
    uint8_t codes[CODES];
    int count = codes_of(set, codes);
    if (flaws & CODES_WRONG && count > 0) spoil_codes(codes, count);
    put(sheet, flaws & DATUMS_OVER ? (one_in(2) ? CODES + 1 : among(CODES + 1, 255)) : count, 1);
    for (int i = 0; i < count; i++) put(sheet, codes[i], 1);
}

static void put_points(struct sheet *sheet, int set, int count, int flaws) {
    uint8_t codes[CODES];
    int datums = codes_of(set, codes), unlisted = flaws & UNLISTED ? (int)among(0, count) : -1;
    if (datums == 0 && !(flaws & UNLISTED)) count = 0;
    put(sheet, flaws & POINTS_OVER ? (one_in(2) ? MOST_POINTS + 1 : among(MOST_POINTS + 1, UINT16_MAX)) : count, 2);
    for (int i = 0; i < count; i++) {
        int64_t code = i == unlisted || datums == 0 ? among(0, 8) : codes[among(0, datums - 1)];
        put(sheet, code, 1);
        put(sheet, any_latitude(code), 4);
        put(sheet, any_longitude(code), 4);
    }
    sheet->needed = RESULT_START + RESULT_LENGTH * (size_t)count;
}

static void make_sheet(struct sheet *sheet, int set, int count, int flaws) {
    sheet->length = 0;
    put_serial(sheet, flaws);
    put_datums(sheet, set, flaws);
    put_points(sheet, set, count, flaws);
    if (flaws & TOO_LONG) put(sheet, (int64_t)chance(), (int)among(1, 8));
    if (flaws & TOO_SHORT) sheet->length = (size_t)among(0, (int64_t)sheet->length - 1);
}

static void try_sheet(const struct sheet *sheet, size_t length, size_t room) {
    try(&(struct call){ .function = SHEET, .number = { sheet->unit }, .given = sheet->bytes, .length = length, .room = room });
}

/* Rooms from none up, and about what is needed. */
static void try_rooms(const struct sheet *sheet) {
    for (size_t room = 0; room <= 20; room++) try_sheet(sheet, sheet->length, room);
    for (size_t room = sheet->needed < 20 ? 0 : sheet->needed - 20; room <= sheet->needed + 20; room++) {
        try_sheet(sheet, sheet->length, room);
    }
}

static void try_lengths(struct sheet *sheet) {
    memset(sheet->bytes + sheet->length, 0, 40);
    for (size_t length = 0; length <= sheet->length + 40; length++) try_sheet(sheet, length, sheet->needed);
}

/* Each byte, or one in so many, changed in several ways. */
static void try_changed(struct sheet *sheet, size_t step) {
    for (size_t at = 0; at < sheet->length; at += step) {
        uint8_t was = sheet->bytes[at];
        uint8_t changes[] = { 0, 255, 7, (uint8_t)(was + 1), (uint8_t)(was - 1), was ^ 0x80, was ^ 1, (uint8_t)chance() };
        for (size_t i = 0; i < sizeof changes; i++) {
            sheet->bytes[at] = changes[i];
            try_sheet(sheet, sheet->length, sheet->needed + among(0, 3));
        }
        sheet->bytes[at] = was;
    }
}

static void try_units(struct sheet *sheet) {
    int64_t unit = sheet->unit;
    for (int i = 0; i < EXTREME_COUNT; i++) {
        sheet->unit = EXTREMES[i];
        try_sheet(sheet, sheet->length, sheet->needed);
        sheet->unit = unit + EXTREMES[i] / 2;
        try_sheet(sheet, sheet->length, sheet->needed);
    }
    sheet->unit = unit;
}

static void try_sheets(void) {
    static struct sheet sheet;
    static const int COUNTS[] = { 0, 1, 2, 7, 20, MOST_POINTS };
    for (int i = 0; i < 6; i++) {
        make_sheet(&sheet, i == 0 ? 0 : i == 1 ? 8 : 63, COUNTS[i], 0);
        try_rooms(&sheet);
        try_lengths(&sheet);
        try_changed(&sheet, COUNTS[i] < 100 ? 1 : 173);
        try_units(&sheet);
    }
    for (int count = 0; count <= MOST_POINTS + 1; count++) {
        make_sheet(&sheet, 1 + count % 63, count, 0);
        try_sheet(&sheet, sheet.length, sheet.needed);
    }
    for (int i = 0; i < 8 * FLAWS; i++) {
        make_sheet(&sheet, (int)among(0, 63), (int)among(0, 4), i % FLAWS);
        try_sheet(&sheet, sheet.length, i % FLAWS & ROOM_SHORT ? sheet.needed - 1 : sheet.needed);
    }
}

static void try_any_sheet(void) {
    static struct sheet sheet;
    int flaws = 0, count = (int)(one_in(200) ? among(0, MOST_POINTS) : among(0, 8));
    if (one_in(2)) flaws = 1 << among(0, 8);
    if (one_in(4)) flaws |= 1 << among(0, 8);
    make_sheet(&sheet, (int)among(0, 63), count, flaws);
    if (one_in(4) && sheet.length > 0) sheet.bytes[among(0, (int64_t)sheet.length - 1)] = (uint8_t)chance();
    size_t room = flaws & ROOM_SHORT ? (size_t)among(0, (int64_t)sheet.needed - 1) : sheet.needed + (size_t)among(0, 20);
    try_sheet(&sheet, sheet.length, room);
}

/* The whole. */

static void try_any(enum function function) {
    if (function <= REFUSAL || function == WAYPOINT) {
        try_any_point(function);
    } else if (function == SHEET) {
        try_any_sheet();
    } else if (function == WRITE_LATITUDE || function == WRITE_LONGITUDE) {
        try_any_write(function);
    } else {
        try_any_text(function);
    }
}

int main(int count, char **words) {
    if (count != 3) return 2;
    uint64_t cases = strtoull(words[1], NULL, 10);
    state = strtoull(words[2], NULL, 10);
    printf("seed %" PRIu64 "\n", state);
    start_checks();
    print_astray();
    for (uint64_t i = 0; i < cases; i++) try_any((enum function)(i % FUNCTIONS));
    for (int i = 0; i < CODES; i++) try_area_edges(AREAS[i]);
    try_extreme_points();
    try_waypoints();
    try_texts();
    try_writes();
    try_sheets();
    print_tally();
    return is_all_reached() ? 0 : 1;
}
