/*
 * The known answers of the sample check: what document 01 gives, written down here and not asked of any program when the test runs.
 * B1 to B18 are the readings of the places where its words leave room.
 */
#ifndef KNOWN_SAMPLES_H
#define KNOWN_SAMPLES_H

#include <stddef.h>
#include <stdint.h>

/* Some bytes, NUL among them where a case has one. */
typedef struct Bytes {
    const char *text;
    size_t size;
} Bytes;

#define BYTES(text) {text, sizeof(text) - 1}
#define NONE BYTES("")
#define HEADINGS "t,LoadP,PvAvailP,ShedLoadP\n"
#define ROW "0,1,1,1\n"

/* A whole sample file and its answer; number 0 is accepted. */
typedef struct Sheet {
    const char *what;
    Bytes file;
    uint64_t number;
    uint64_t place;
} Sheet;

static const Sheet sheets[] = {
    {"Station A's samples", BYTES(HEADINGS "0,40,10,0\n1,75,10,5\n2,75,10,5\n3,30,40,5\n"), 0, 0},
    {"one row", BYTES(HEADINGS ROW), 0, 0},
    {"one row, last line without LF", BYTES(HEADINGS "0,1,1,1"), 0, 0},
    {"CR LF throughout", BYTES("t,LoadP,PvAvailP,ShedLoadP\r\n0,1,1,1\r\n5,1,1,1\r\n"), 0, 0},
    {"CR LF and LF mixed", BYTES("t,LoadP,PvAvailP,ShedLoadP\r\n0,1,1,1\n5,1,1,1\r\n6,1,1,1"), 0, 0},

    /* Headings. */
    {"P12, a blank heading", BYTES("t,LoadP,,PvAvailP,ShedLoadP\n0,1,1,1,1\n"), 12, 1},
    {"P12, the heading line alone", BYTES("t,LoadP,,PvAvailP,ShedLoadP"), 12, 1},
    {"a last heading that is blank", BYTES("t,\n"), 12, 1},
    {"headings in the order load, shed, solar", BYTES("t,LoadP,ShedLoadP,PvAvailP\n0,2,2,9\n"), 0, 0},
    {"headings in the order solar, load, shed", BYTES("t,PvAvailP,LoadP,ShedLoadP\n0,9,2,2\n"), 0, 0},
    {"headings in the order solar, shed, load", BYTES("t,PvAvailP,ShedLoadP,LoadP\n0,9,2,2\n"), 0, 0},
    {"headings in the order shed, load, solar", BYTES("t,ShedLoadP,LoadP,PvAvailP\n0,2,2,9\n"), 0, 0},
    {"headings in the order shed, solar, load", BYTES("t,ShedLoadP,PvAvailP,LoadP\n0,2,9,2\n"), 0, 0},
    {"20 under load, shed, solar", BYTES("t,LoadP,ShedLoadP,PvAvailP\n0,1,1.001,0\n"), 20, 2},
    {"20 under solar, load, shed", BYTES("t,PvAvailP,LoadP,ShedLoadP\n0,9,1,1.001\n"), 20, 2},
    {"20 under solar, shed, load", BYTES("t,PvAvailP,ShedLoadP,LoadP\n0,9,1.001,1\n"), 20, 2},
    {"20 under shed, load, solar", BYTES("t,ShedLoadP,LoadP,PvAvailP\n0,1.001,1,9\n"), 20, 2},
    {"20 under shed, solar, load", BYTES("t,ShedLoadP,PvAvailP,LoadP\n0,1.001,9,1\n"), 20, 2},
    {"an unknown heading", BYTES("t,LoadP,X,PvAvailP,ShedLoadP\n"), 13, 1},
    {"a heading with a byte more", BYTES("t,LoadPP,PvAvailP,ShedLoadP\n"), 13, 1},
    {"a heading with a byte fewer", BYTES("t,LoadP,PvAvailP,ShedLoad\n"), 13, 1},
    {"a heading with NUL after it", BYTES("t,LoadP\0,PvAvailP,ShedLoadP\n"), 13, 1},
    {"a heading of a high byte", BYTES("t,\xff,PvAvailP,ShedLoadP\n"), 13, 1},
    {"a heading with its high bit set", BYTES("t,\xcc" "oadP,PvAvailP,ShedLoadP\n"), 13, 1},
    {"a heading given twice", BYTES("t,LoadP,PvAvailP,LoadP\n"), 14, 1},
    {"a heading given twice beside all four", BYTES("t,LoadP,PvAvailP,ShedLoadP,ShedLoadP\n"), 14, 1},
    {"t alone", BYTES("t"), 15, 1},
    {"t and LF", BYTES("t\n"), 15, 1},
    {"t and CR LF", BYTES("t\r\n"), 15, 1},
    {"no solar heading", BYTES("t,LoadP,ShedLoadP\n0,1,1\n"), 15, 1},
    {"no load heading", BYTES("t,PvAvailP,ShedLoadP\n0,1,1\n"), 15, 1},
    {"no sheddable heading", BYTES("t,PvAvailP,LoadP\n0,1,1\n"), 15, 1},
    {"12 before 15", BYTES("t,LoadP,\n"), 12, 1},
    {"13 before 15", BYTES("t,X\n"), 13, 1},
    {"14 before 15", BYTES("t,LoadP,LoadP\n"), 14, 1},
    {"another first heading", BYTES("LoadP,t,PvAvailP,ShedLoadP\n"), 16, 1},
    {"t in the last place", BYTES("LoadP,PvAvailP,ShedLoadP,t\n"), 16, 1},
    {"no heading line", BYTES(ROW), 16, 1},
    {"NUL alone", BYTES("\0"), 16, 1},
    {"t and NUL", BYTES("t\0,LoadP,PvAvailP,ShedLoadP\n"), 16, 1},
    {"a high byte alone", BYTES("\x80"), 16, 1},
    {"16 before 12", BYTES(",,\n"), 16, 1},
    {"16 before 13", BYTES("X,Y\n"), 16, 1},
    {"16 before 14", BYTES("LoadP,LoadP\n"), 16, 1},

    /* The readings, in their order. */
    {"B1, an empty file", NONE, 16, 1},
    {"B2, one LF", BYTES("\n"), 16, 1},
    {"B2, one CR LF", BYTES("\r\n"), 16, 1},
    {"B2, a first heading that is blank", BYTES(",LoadP,PvAvailP,ShedLoadP\n"), 16, 1},
    {"B3, CR alone", BYTES("\r"), 16, 1},
    {"B3, a heading line with CR at the end of the file", BYTES("t,LoadP,PvAvailP,ShedLoadP\r"), 13, 1},
    {"B3, a row with CR at the end of the file", BYTES(HEADINGS "0,1,1,1\r"), 18, 2},
    {"B3, CR alone as the last line", BYTES(HEADINGS ROW "\r"), 17, 3},
    {"B3, CR CR LF after the headings", BYTES("t,LoadP,PvAvailP,ShedLoadP\r\r\n" ROW), 13, 1},
    {"B3, CR CR LF after a row", BYTES(HEADINGS "0,1,1,1\r\r\n"), 18, 2},
    {"B3, CR between two rows ends no line", BYTES(HEADINGS "0,1,1,1\r1,1,1,1\n"), 17, 2},
    {"B3, CR before a comma", BYTES(HEADINGS "0,1\r,1,1\n"), 18, 2},
    {"B3, CR after the time", BYTES(HEADINGS "0\r,1,1,1\n"), 18, 2},
    {"B3, LF CR", BYTES(HEADINGS ROW "\r0,1,1,1\n"), 18, 3},
    {"B5, headings and LF", BYTES(HEADINGS), 22, 0},
    {"B5, headings without LF", BYTES("t,LoadP,PvAvailP,ShedLoadP"), 22, 0},
    {"B5, headings, LF, LF", BYTES(HEADINGS "\n"), 17, 2},
    {"B5, headings, LF, CR LF", BYTES(HEADINGS "\r\n"), 17, 2},
    {"B5, an empty line before the first row", BYTES(HEADINGS "\n" ROW), 17, 2},
    {"B5, an empty line at the end", BYTES(HEADINGS ROW "\n"), 17, 3},
    {"B5, two empty lines at the end", BYTES(HEADINGS ROW "\n\n"), 17, 3},
    {"B6, a heading of a space", BYTES("t,LoadP, ,PvAvailP,ShedLoadP\n"), 13, 1},
    {"B6, a cell of a space", BYTES(HEADINGS "0,1, ,1\n"), 18, 2},
    {"B6, a blank cell", BYTES(HEADINGS "0,1,,1\n"), 18, 2},
    {"B6, four blank cells", BYTES(HEADINGS ",,,\n"), 18, 2},
    {"B7, t twice", BYTES("t,t,LoadP,PvAvailP,ShedLoadP\n"), 14, 1},
    {"B7, t in the last place too", BYTES("t,LoadP,PvAvailP,t\n"), 14, 1},
    {"B8, unknown before blank", BYTES("t,X,,LoadP\n"), 13, 1},
    {"B8, blank before unknown", BYTES("t,,X,LoadP\n"), 12, 1},
    {"B8, twice before blank", BYTES("t,LoadP,LoadP,,X\n"), 14, 1},
    {"B8, unknown twice", BYTES("t,X,X\n"), 13, 1},
    {"B9, a fifth heading that is known", BYTES("t,LoadP,PvAvailP,ShedLoadP,LoadP\n"), 14, 1},
    {"B9, a fifth heading that is unknown", BYTES("t,LoadP,PvAvailP,ShedLoadP,X\n"), 13, 1},
    {"B9, a fifth heading that is blank", BYTES("t,LoadP,PvAvailP,ShedLoadP,\n"), 12, 1},
    {"B10, a byte order mark", BYTES("\xef\xbb\xbft,LoadP,PvAvailP,ShedLoadP\n" ROW), 16, 1},
    {"B10, T", BYTES("T,LoadP,PvAvailP,ShedLoadP\n"), 16, 1},
    {"B10, a space before t", BYTES(" t,LoadP,PvAvailP,ShedLoadP\n"), 16, 1},
    {"B10, quotes around t", BYTES("\"t\",LoadP,PvAvailP,ShedLoadP\n"), 16, 1},
    {"B10, another case", BYTES("t,loadP,PvAvailP,ShedLoadP\n"), 13, 1},
    {"B10, a space after a heading", BYTES("t,LoadP ,PvAvailP,ShedLoadP\n"), 13, 1},
    {"B10, quotes around a heading", BYTES("t,\"LoadP\",PvAvailP,ShedLoadP\n"), 13, 1},
    {"B11, leading zeros", BYTES(HEADINGS "000000000,050000,000001,000000.000\n"), 0, 0},
    {"B11, seven digits", BYTES(HEADINGS "0,0050000,1,1\n"), 18, 2},
    {"B12, a time of ten digits", BYTES(HEADINGS "0000000000,1,1,1\n"), 18, 2},
    {"B12, a time of nine digits over its limit", BYTES(HEADINGS "316224000,1,1,1\n"), 19, 2},
    {"B13, 50000", BYTES(HEADINGS "0,50000,50000,50000\n"), 0, 0},
    {"B13, 50000.001", BYTES(HEADINGS "0,50000.001,1,1\n"), 19, 2},
    {"B13, 50000.0001", BYTES(HEADINGS "0,50000.0001,1,1\n"), 18, 2},
    {"B14, an over-limit cell before a malformed one", BYTES(HEADINGS "0,50001,x,1\n"), 19, 2},
    {"B14, a malformed cell before an over-limit one", BYTES(HEADINGS "0,x,50001,1\n"), 18, 2},
    {"B14, the third cell before the fourth", BYTES(HEADINGS "0,1,50001,x\n"), 19, 2},
    {"B14, the time before all", BYTES(HEADINGS "999999999,x,1,1\n"), 19, 2},
    {"B14, the time malformed before all", BYTES(HEADINGS "x,50001,50001,50001\n"), 18, 2},
    {"B14, in the file's order of columns", BYTES("t,ShedLoadP,PvAvailP,LoadP\n0,50001,1,x\n"), 19, 2},
    {"B14, 18 before 19 in a cell", BYTES(HEADINGS "0,999999.9999,1,1\n"), 18, 2},
    {"B14, 18 before 19 in a time", BYTES(HEADINGS "9999999999,1,1,1\n"), 18, 2},
    {"B16, skipped rows", BYTES(HEADINGS "0,1,1,1\n5,1,1,1\n3,1,1,1\n4,1,1,1\n6,1,1,1\n"), 0, 0},
    {"B16, each row skipped but the first", BYTES(HEADINGS ROW ROW ROW ROW), 0, 0},
    {"B16, 17 of a skipped row", BYTES(HEADINGS "0,1,1,1\n5,1,1,1\n3,1,1\n"), 17, 4},
    {"B16, 18 of a skipped row", BYTES(HEADINGS "0,1,1,1\n5,1,1,1\n3,1,1,x\n"), 18, 4},
    {"B16, 19 of a skipped row", BYTES(HEADINGS "0,1,1,1\n5,1,1,1\n3,50001,1,1\n"), 19, 4},
    {"B16, 20 of a skipped row", BYTES(HEADINGS "0,1,1,1\n5,1,1,1\n3,1,1,2\n"), 20, 4},
    {"B16, a skipped row counts as a line", BYTES(HEADINGS "0,1,1,1\n0,1,1,1\n0,1,1,1\n1,x,1,1\n"), 18, 5},
    {"B16, no 21 of a later row", BYTES(HEADINGS "0,1,1,1\n9,1,1,1\n"), 0, 0},
    {"B17, 20 before 21", BYTES(HEADINGS "1,1,1,2\n"), 20, 2},
    {"B18, no row", BYTES("t,ShedLoadP,LoadP,PvAvailP\r\n"), 22, 0},

    /* Rows. */
    {"three cells", BYTES(HEADINGS "0,1,1\n"), 17, 2},
    {"five cells", BYTES(HEADINGS "0,1,1,1,1\n"), 17, 2},
    {"a comma at the end", BYTES(HEADINGS "0,1,1,1,\n"), 17, 2},
    {"one cell", BYTES(HEADINGS "0\n"), 17, 2},
    {"17 before 18", BYTES(HEADINGS "x,x,x\n"), 17, 2},
    {"17 of the last line, without LF", BYTES(HEADINGS ROW "1,1"), 17, 3},
    {"18 before 20", BYTES(HEADINGS "0,1,x,2\n"), 18, 2},
    {"19 before 20", BYTES(HEADINGS "0,1,1,50001\n"), 19, 2},
    {"18 before 21", BYTES(HEADINGS "1,1,1,x\n"), 18, 2},
    {"19 before 21", BYTES(HEADINGS "1,1,50001,1\n"), 19, 2},
    {"sheddable load equal to the load", BYTES(HEADINGS "0,1,1,1.000\n"), 0, 0},
    {"sheddable load a watt above", BYTES(HEADINGS "0,1,1,1.001\n"), 20, 2},
    {"20 in line 4", BYTES(HEADINGS "0,1,1,1\n1,1,1,1\n2,0,9,0.001\n"), 20, 4},
    {"first time 1", BYTES(HEADINGS "1,1,1,1\n"), 21, 2},
    {"first time 1, then 0", BYTES(HEADINGS "000000001,1,1,1\n0,1,1,1\n"), 21, 2},
    {"first time at its limit", BYTES(HEADINGS "316223999,1,1,1\n"), 21, 2},
    {"21 before a fault in line 3", BYTES(HEADINGS "1,1,1,1\nx\n"), 21, 2},
    {"a fault in line 2 before one in line 3", BYTES(HEADINGS "0,1,1,2\nx\n"), 20, 2},
    {"NUL in place of LF", BYTES(HEADINGS "0,1,1,1\0"), 18, 2},
    {"NUL in place of a comma", BYTES(HEADINGS "0,1,1\0" "1\n"), 17, 2},
    {"a semicolon in place of a comma", BYTES(HEADINGS "0;1;1;1\n"), 17, 2},
};

/* A file that says one thing many times: `before`, then `repeated` so many times, then `after`. */
typedef struct LongSheet {
    const char *what;
    Bytes before;
    Bytes repeated;
    size_t times;
    Bytes after;
    uint64_t number;
    uint64_t place;
} LongSheet;

static const LongSheet long_sheets[] = {
    {"B4, 512 bytes and LF", BYTES(HEADINGS), BYTES("0"), 512, BYTES("\n"), 17, 2},
    {"B4, 513 bytes and LF", BYTES(HEADINGS), BYTES("0"), 513, BYTES("\n"), 11, 2},
    {"B4, 511 bytes and CR LF", BYTES(HEADINGS), BYTES("0"), 511, BYTES("\r\n"), 17, 2},
    {"B4, 512 bytes and CR LF", BYTES(HEADINGS), BYTES("0"), 512, BYTES("\r\n"), 11, 2},
    {"B4, 512 bytes at the end of the file", BYTES(HEADINGS), BYTES("0"), 512, NONE, 17, 2},
    {"B4, 513 bytes at the end of the file", BYTES(HEADINGS), BYTES("0"), 513, NONE, 11, 2},
    {"B4, 511 bytes and CR at the end of the file", BYTES(HEADINGS), BYTES("0"), 511, BYTES("\r"), 17, 2},
    {"B4, 512 bytes and CR at the end of the file", BYTES(HEADINGS), BYTES("0"), 512, BYTES("\r"), 11, 2},
    {"four cells in 512 bytes", BYTES(HEADINGS "0,1,1,"), BYTES("0"), 506, BYTES("\n"), 18, 2},
    {"four cells in 513 bytes", BYTES(HEADINGS "0,1,1,"), BYTES("0"), 507, BYTES("\n"), 11, 2},
    {"512 bytes in line 3", BYTES(HEADINGS ROW), BYTES(","), 512, BYTES("\n"), 17, 3},
    {"513 bytes in line 3", BYTES(HEADINGS ROW), BYTES(","), 513, BYTES("\n"), 11, 3},
    {"a skipped row of 513 bytes", BYTES(HEADINGS ROW "9,1,1,1\n3,1,1,"), BYTES("0"), 507, BYTES("\n"), 11, 4},
    {"512 bytes of NUL", BYTES(HEADINGS ROW), BYTES("\0"), 512, BYTES("\n"), 17, 3},
    {"513 bytes of NUL", BYTES(HEADINGS ROW), BYTES("\0"), 513, BYTES("\n"), 11, 3},
    {"513 high bytes", BYTES(HEADINGS ROW), BYTES("\xff"), 513, BYTES("\n"), 11, 3},
    {"512 bytes of CR and LF", BYTES(HEADINGS ROW), BYTES("\r"), 512, BYTES("\n"), 17, 3},
    {"513 bytes of CR and LF", BYTES(HEADINGS ROW), BYTES("\r"), 513, BYTES("\n"), 11, 3},
    {"a first heading of 512 bytes", NONE, BYTES("x"), 512, NONE, 16, 1},
    {"11 before 16", NONE, BYTES("x"), 513, NONE, 11, 1},
    {"a heading line of 512 bytes", BYTES("t,"), BYTES("x"), 510, BYTES("\n"), 13, 1},
    {"11 before 13", BYTES("t,"), BYTES("x"), 511, BYTES("\n"), 11, 1},
    {"a heading line of 512 bytes, blank", BYTES("t"), BYTES(","), 511, BYTES("\n"), 12, 1},
    {"11 before 12", BYTES("t"), BYTES(","), 512, BYTES("\n"), 11, 1},
    {"a heading line of 510 bytes and CR CR LF", BYTES("t,"), BYTES("x"), 508, BYTES("\r\r\n"), 13, 1},
    {"a heading line of 511 bytes and CR CR LF", BYTES("t,"), BYTES("x"), 509, BYTES("\r\r\n"), 11, 1},
    {"B15, a malformed cell in line 3 before a long line 4", BYTES(HEADINGS ROW "1,x,1,1\n"), BYTES("0"), 600, BYTES("\n"), 18, 3},
    {"B15, a long line 3 before a malformed cell in line 4", BYTES(HEADINGS ROW), BYTES("0"), 600, BYTES("\n1,x,1,1\n"), 11, 3},
    {"11 before 17", BYTES(HEADINGS), BYTES(",0"), 300, BYTES("\n"), 11, 2},
    {"200,000 rows, all but one skipped", BYTES(HEADINGS), BYTES(ROW), 200000, NONE, 0, 0},
    {"200,000 rows and a fault", BYTES(HEADINGS), BYTES(ROW), 200000, BYTES("x\n"), 17, 200002},
    {"200,000 rows and an empty line", BYTES(HEADINGS), BYTES(ROW), 200000, BYTES("\n"), 17, 200002},
    {"3,000,000 bytes in line 1", NONE, BYTES("t"), 3000000, NONE, 11, 1},
    {"3,000,000 bytes in line 3", BYTES(HEADINGS ROW), BYTES("0"), 3000000, NONE, 11, 3},
    {"3,000,000 bytes of NUL", NONE, BYTES("\0"), 3000000, NONE, 11, 1},
    {"3,000,000 LF", NONE, BYTES("\n"), 3000000, NONE, 16, 1},
    {"headings and 3,000,000 LF", BYTES(HEADINGS), BYTES("\n"), 3000000, NONE, 17, 2},
};

/* What a cell by itself comes to: 0, 18 or 19. Every power column is tried with it, in a first, a later and a skipped row. */
typedef struct KnownCell {
    Bytes cell;
    uint64_t number;
} KnownCell;

static const KnownCell powers[] = {
    {BYTES("0"), 0},           {BYTES("000000"), 0},     {BYTES("0.0"), 0},       {BYTES("0.000"), 0},        {BYTES("0.001"), 0},
    {BYTES("50000"), 0},       {BYTES("050000"), 0},     {BYTES("50000.0"), 0},   {BYTES("50000.000"), 0},    {BYTES("49999.999"), 0},
    {BYTES("000001.5"), 0},    {BYTES("50000.001"), 19}, {BYTES("50000.01"), 19}, {BYTES("50000.1"), 19},     {BYTES("50001"), 19},
    {BYTES("050000.001"), 19}, {BYTES("999999"), 19},    {BYTES("999999.9"), 19}, {BYTES("999999.999"), 19},  {BYTES(""), 18},
    {BYTES(" "), 18},          {BYTES("0000000"), 18},   {BYTES("0050000"), 18},  {BYTES("1234567"), 18},     {BYTES("50000.0001"), 18},
    {BYTES("0.0000"), 18},     {BYTES("50000."), 18},    {BYTES("."), 18},        {BYTES(".5"), 18},          {BYTES("1..2"), 18},
    {BYTES("1.2.3"), 18},      {BYTES("1.2."), 18},      {BYTES("-1"), 18},       {BYTES("-0"), 18},          {BYTES("+1"), 18},
    {BYTES(" 1"), 18},         {BYTES("1 "), 18},        {BYTES("1. 5"), 18},     {BYTES("1e3"), 18},         {BYTES("0x1"), 18},
    {BYTES("x"), 18},          {BYTES("1\0"), 18},       {BYTES("\0"), 18},       {BYTES("\0" "1"), 18},      {BYTES("\xff"), 18},
    {BYTES("\x80"), 18},       {BYTES("1\xff"), 18},     {BYTES("\xb1"), 18},     {BYTES("\xc2\xb2"), 18},    {BYTES("1\r"), 18},
    {BYTES("\r1"), 18},        {BYTES("1\t"), 18},       {BYTES("/"), 18},        {BYTES(":"), 18},           {BYTES("1./"), 18},
    {BYTES("1.:"), 18},        {BYTES("1/5"), 18},       {BYTES("1-5"), 18},      {BYTES("\"1\""), 18},       {BYTES("NaN"), 18},
    {BYTES("4294967297"), 18}, {BYTES("1.4294967297"), 18},
    {BYTES("18446744073709551617"), 18},                 {BYTES("340282366920938463463374607431768211457"), 18},
};

/* The same for a time, which is tried in a later row; one that is refused, in the first row too. */
static const KnownCell times[] = {
    {BYTES("0"), 0},          {BYTES("1"), 0},           {BYTES("000000000"), 0},  {BYTES("316223999"), 0},  {BYTES("099999999"), 0},
    {BYTES("316224000"), 19}, {BYTES("316230000"), 19},  {BYTES("400000000"), 19}, {BYTES("999999999"), 19}, {BYTES(""), 18},
    {BYTES(" "), 18},         {BYTES("0000000000"), 18}, {BYTES("0000000001"), 18}, {BYTES("1234567890"), 18}, {BYTES("9999999999"), 18},
    {BYTES("1.0"), 18},       {BYTES("1."), 18},         {BYTES(".0"), 18},        {BYTES("-0"), 18},        {BYTES("+0"), 18},
    {BYTES(" 0"), 18},        {BYTES("0 "), 18},         {BYTES("t"), 18},         {BYTES("0\0"), 18},       {BYTES("\0"), 18},
    {BYTES("\xff"), 18},      {BYTES("\xb0"), 18},       {BYTES("0\r"), 18},       {BYTES("/"), 18},         {BYTES(":"), 18},
    {BYTES("4294967296"), 18}, {BYTES("18446744073709551616"), 18},
};

/* Where a cell is tried: the bytes before it, those after it, and its line. */
typedef struct Spot {
    const char *what;
    Bytes before;
    Bytes after;
    uint64_t line;
} Spot;

static const Spot power_spots[] = {
    {"load of the first row", BYTES(HEADINGS "0,"), BYTES(",1,0\n"), 2},
    {"solar power of the first row", BYTES(HEADINGS "0,1,"), BYTES(",0\n"), 2},
    {"sheddable load of the first row", BYTES(HEADINGS "0,50000,1,"), BYTES("\n"), 2},
    {"sheddable load of the first row, CR LF", BYTES(HEADINGS "0,50000,1,"), BYTES("\r\n"), 2},
    {"sheddable load of the first row, without LF", BYTES(HEADINGS "0,50000,1,"), NONE, 2},
    {"load in another column", BYTES("t,ShedLoadP,PvAvailP,LoadP\n0,0,0,"), BYTES("\n"), 2},
    {"load of a later row", BYTES(HEADINGS ROW "7,"), BYTES(",1,0\n"), 3},
    {"solar power of a later row", BYTES(HEADINGS ROW "7,1,"), BYTES(",0\n8,1,1,1\n"), 3},
    {"sheddable load of a later row", BYTES(HEADINGS ROW "7,50000,1,"), BYTES("\n"), 3},
    {"load of a skipped row", BYTES(HEADINGS ROW "0,"), BYTES(",1,0\n"), 3},
    {"solar power of a skipped row", BYTES(HEADINGS ROW "0,1,"), BYTES(",0"), 3},
    {"sheddable load of a skipped row", BYTES(HEADINGS ROW "0,50000,1,"), BYTES("\n"), 3},
};

/* The first of these takes only the times that are refused by themselves, since any but 0 is 21 there. */
static const Spot time_spots[] = {
    {"time of the first row", BYTES(HEADINGS), BYTES(",1,1,1\n"), 2},
    {"time of a later row", BYTES(HEADINGS ROW), BYTES(",1,1,1\n"), 3},
    {"time of the last row, without LF", BYTES(HEADINGS ROW ROW), BYTES(",1,1,1"), 4},
};

#endif
