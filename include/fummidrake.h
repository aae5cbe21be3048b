/* Fummidrake for C: a surveyor's sheet of spaces, its tonnages by 46 CFR 69.107 to 69.119, and the day's file.
 *
 * Every call takes any numbers and any sheet, ends, and answers what its promise in crates/fummidrake_c/src/lib.rt says; nothing
 * has to be checked first, but that a pointer is not null and has as many numbers or bytes behind it as are said, and that the two
 * buffers of a move don't overlap. A sheet goes in by value and comes back with the answer; the calls that end in _on, at the end of
 * this file, change the caller's sheet in place.
 * A sheet's fields are for the calls alone: a sheet comes from fummidrake_open, fummidrake_read or a call, and one that is all zeros
 * is not open.
 *
 * The archive is for x86-64 of level v2 or later and wants memcpy and memset, nothing else: no other call of a C library, no
 * heap, no input or output. How much stack a call takes stands below, beside FUMMIDRAKE_STACK.
 *
 * Lengths, heights, depths and breadths are in hundredths of a foot, tonnages in hundredths of a ton.
 * Kinds: 1 U under-deck part, 2 B between-deck level, 3 S superstructure, 4 H hatchway, 5 R room.
 * Standings: 0 plain, 1 exempt, 2 exempt as water ballast, 3 deducted, 4 machinery.
 * Ends of a U: 1 inner (at a step), 2 upright, 3 pointed.
 * Decks: 0 to 99, 0 for none. Vessel numbers: any, 0 for none.
 * Forms of a sheet in a file: 1 has 16 bytes a space and 28 behind them; 2 has 20 and 32, with the decks and the vessel number.
 *
 * How to move a file up to form 2: fummidrake_read and then fummidrake_read_before answer, from the last sheet to the first, where
 * each starts. Then, from the first to the last, fummidrake_move_last takes the bytes up to the end of a sheet, where the next one
 * starts, and writes that sheet in form 2 into another buffer, behind the one before. Decks and vessel number are 0 there; moved to
 * form 1 the same way the bytes come back.
 *
 * An answer's number is 0 where the call was accepted, else the lowest that applies; but in reading it is the first of 16, 17, 13, 14,
 * 21, 18 in that order, in a write 20 stands before 15, and in a move it is 2, then those of reading in their order, then 20, then 15:
 *
 * | No. | Refused when |
 * |---|---|
 * | 1 | sheet not open |
 * | 2 | a kind, measure, standing, justified mark, end of a U, deck or form outside its range; a tank's fore end over 150,000 |
 * | 3 | stations, depths, heights or breadths not the number the rules ask; of a tank, a section or breadth missing or extra |
 * | 4 | new id outside its range or already standing |
 * | 5 | id to withdraw or mark, or enclosing id, isn't standing |
 * | 6 | kind can't take this standing, or the enclosing space is a hatchway; of a tank, it isn't a U |
 * | 7 | level would pass 8 |
 * | 8 | not plain, and a space above or below isn't plain |
 * | 9 | rooms would pass the enclosing tonnage, or U lengths the tonnage length; a tank passes an end of its U |
 * | 10 | entry where 200 spaces stand |
 * | 11 | withdrawal of a space that encloses a room |
 * | 12 | nothing undoable, or nothing redoable |
 * | 13 | U lengths don't add up to the tonnage length |
 * | 14 | ballast over 30%, not justified |
 * | 15 | buffer has too little room from the named place, in the form asked for |
 * | 16 | file shorter than 28 bytes or than its distance; count over 200; distance, form, mark or tonnage length wrong |
 * | 17 | a record that no entry could have made, as one with a deck over 99; with its position from 1 |
 * | 18 | gross or net isn't what the records give |
 * | 19 | a pointed end of a U has area |
 * | 20 | a write or move in form 1 would lose a deck or the vessel number |
 * | 21 | deductions pass gross: those of rooms and the one for machinery together |
 * | 29 | a tank in a U that has no m: one read from a file; enter the U anew |
 */
#ifndef FUMMIDRAKE_H
#define FUMMIDRAKE_H

#include <stdbool.h>
#include <stddef.h>
#include <stdint.h>

#define FUMMIDRAKE_VERSION "0.1.0"

/* The stack that a call takes, by value or in place, in bytes, with the sheet that goes in and the answer that comes back: at most so
 * many, measured with a full sheet of 200 spaces, eight deep, and 64 changes (tools/stack.c). The first is the greatest of them. */
#define FUMMIDRAKE_STACK FUMMIDRAKE_STACK_LIST
#define FUMMIDRAKE_STACK_OPEN 6000
#define FUMMIDRAKE_STACK_ENTER 29000
#define FUMMIDRAKE_STACK_ENTER_TANK 29000
#define FUMMIDRAKE_STACK_WITHDRAW 23000
#define FUMMIDRAKE_STACK_MARK 39000
#define FUMMIDRAKE_STACK_UNDO 17000
#define FUMMIDRAKE_STACK_REDO 17000
#define FUMMIDRAKE_STACK_COUNTS 12000
#define FUMMIDRAKE_STACK_REPORT 12000
#define FUMMIDRAKE_STACK_IS_OPEN 6000
#define FUMMIDRAKE_STACK_TONNAGE_LENGTH 6000
#define FUMMIDRAKE_STACK_VESSEL 6000
#define FUMMIDRAKE_STACK_STANDING_COUNT 6000
#define FUMMIDRAKE_STACK_SPACE_AT 9000
#define FUMMIDRAKE_STACK_STATIONS 1000
#define FUMMIDRAKE_STACK_BREADTHS_AT_STATION 1000
#define FUMMIDRAKE_STACK_LAY_OUT 1000
#define FUMMIDRAKE_STACK_SECTION_STATION 1000
#define FUMMIDRAKE_STACK_WRITE 18000
#define FUMMIDRAKE_STACK_READ 82000
#define FUMMIDRAKE_STACK_READ_BEFORE 82000
#define FUMMIDRAKE_STACK_MOVE_LAST 77000
#define FUMMIDRAKE_STACK_LIST 111000

/* Has the compiler warn where an answer is dropped, if it can: a sheet that is not kept is lost, and a refusal not looked at. */
#if defined(__GNUC__)
#define FUMMIDRAKE_MUST_USE __attribute__((warn_unused_result))
#else
#define FUMMIDRAKE_MUST_USE
#endif

#ifdef __cplusplus
extern "C" {
#endif

/* A space as it stands; `within` is the enclosing id, 0 for a U, B, S or H. `m` is a U's parts of depth, 4 or 6, where it was entered
 * from offsets; else 0, and 0 for all that was read from a file. `deck` is 0 to 99, 0 for none. */
typedef struct {
    uint16_t id;
    uint16_t within;
    uint8_t kind;
    uint8_t standing;
    uint8_t m;
    uint8_t deck;
    uint32_t tonnage;
    uint32_t length;
} fummidrake_space;

/* What is entered; `within` is looked at only of a room, `fore_end` and `aft_end` only of a U, `deck` of any. */
typedef struct {
    uint16_t id;
    uint16_t within;
    uint8_t kind;
    uint8_t standing;
    uint8_t fore_end;
    uint8_t aft_end;
    uint8_t deck;
    uint32_t length;
} fummidrake_entry;

/* A tank to be entered; `within` is the id of its U, `fore` the distance of its fore end along that. */
typedef struct {
    uint16_t id;
    uint16_t within;
    uint8_t standing;
    uint8_t deck;
    uint32_t length;
    uint32_t fore;
} fummidrake_tank;

/* A change as a sheet keeps it. */
typedef struct {
    uint8_t made;
    uint8_t before;
    uint8_t after;
    size_t place;
    fummidrake_space space;
} fummidrake_open_change;

/* A sheet: handed on, and looked into by calls alone. */
typedef struct {
    uint8_t opened;
    uint32_t length;
    fummidrake_space spaces[200];
    size_t count;
    fummidrake_open_change changes[64];
    size_t undoable;
    size_t redoable;
    uint32_t vessel;
} fummidrake_sheet;

/* The number, and the sheet after the call: where refused, as it came. */
typedef struct {
    uint8_t number;
    fummidrake_sheet sheet;
} fummidrake_changed;

/* What the rounding of third intervals did: above zero where it was up, zero where the third interval is exact, else below. That of a
 * length L in n parts is 3n x third - 10 L, in parts of 1/(3n) of a thousandth of a foot; of a depth D in m parts 3m x third - D, in
 * parts of 1/(3m) of a hundredth. `length` is a U's, B's or S's, 0 for an H or R; `depths` are those at a U's stations, from the bow,
 * and 0 in every other place. Where the entry was refused all are 0; a tank hands on none. */
typedef struct {
    int8_t length;
    int8_t depths[17];
} fummidrake_roundings;

/* The number, what the rounding did, how many enclosing spaces were visited, and the sheet after the call: where refused, as it came.
 * `visited` is a room's, refused or not: one for the named space and one for each step above it to level 1. It is at most 8, and 8
 * only where 7 or a lower number refuses the entry; 0 where the enclosing id isn't standing, of any other kind, and on a sheet not
 * open. */
typedef struct {
    uint8_t number;
    fummidrake_roundings roundings;
    uint8_t visited;
    fummidrake_sheet sheet;
} fummidrake_entering;

/* The same of a tank, which is a room, but for what the rounding did: `visited` is 1 where its enclosing id names a space at level 1,
 * and so in a U. */
typedef struct {
    uint8_t number;
    uint8_t visited;
    fummidrake_sheet sheet;
} fummidrake_tank_entering;

/* How many changes are open, and the sheet as it came. */
typedef struct {
    size_t undoable;
    size_t redoable;
    fummidrake_sheet sheet;
} fummidrake_counted;

/* The number, gross and net (0 and 0 where refused), and the sheet as it came. */
typedef struct {
    uint8_t number;
    uint64_t gross;
    uint64_t net;
    fummidrake_sheet sheet;
} fummidrake_reported;

/* Where a tank is measured: the number, its parts, and how many sections it asks (0 and 0 where refused). */
typedef struct {
    uint8_t number;
    size_t parts;
    size_t sections;
} fummidrake_laid_out;

/* The number, the bytes written (0 where refused), and the sheet as it came. */
typedef struct {
    uint8_t number;
    size_t bytes;
    fummidrake_sheet sheet;
} fummidrake_written;

/* The number, the position of the record where it is 17, the sheet, its justified mark, the byte at which it starts and the form in
 * which it was read. */
typedef struct {
    uint8_t number;
    size_t position;
    fummidrake_sheet sheet;
    uint8_t justified;
    size_t start;
    uint8_t form;
} fummidrake_reading;

/* The number, the bytes written (0 where refused), and the position of the record where the number is 17. */
typedef struct {
    uint8_t number;
    size_t bytes;
    size_t position;
} fummidrake_moved;

/* A text: the first `size` bytes; zeros follow. */
typedef struct {
    uint8_t text[8192];
    size_t size;
} fummidrake_listing;

/* The structs lie in memory as the calls hand them over: each field's first byte, and the size. */
#if defined(__cplusplus) && __cplusplus >= 201103L
#define FUMMIDRAKE_HOLDS(fact) static_assert(fact, #fact)
#elif !defined(__cplusplus) && defined(__STDC_VERSION__) && __STDC_VERSION__ >= 201112L
#define FUMMIDRAKE_HOLDS(fact) _Static_assert(fact, #fact)
#endif
#ifdef FUMMIDRAKE_HOLDS
#define FUMMIDRAKE_FIELD(type, field, byte) FUMMIDRAKE_HOLDS(offsetof(type, field) == byte)
#define FUMMIDRAKE_SIZE(type, bytes) FUMMIDRAKE_HOLDS(sizeof(type) == bytes)
FUMMIDRAKE_FIELD(fummidrake_space, id, 0);
FUMMIDRAKE_FIELD(fummidrake_space, within, 2);
FUMMIDRAKE_FIELD(fummidrake_space, kind, 4);
FUMMIDRAKE_FIELD(fummidrake_space, standing, 5);
FUMMIDRAKE_FIELD(fummidrake_space, m, 6);
FUMMIDRAKE_FIELD(fummidrake_space, deck, 7);
FUMMIDRAKE_FIELD(fummidrake_space, tonnage, 8);
FUMMIDRAKE_FIELD(fummidrake_space, length, 12);
FUMMIDRAKE_SIZE(fummidrake_space, 16);
FUMMIDRAKE_FIELD(fummidrake_entry, id, 0);
FUMMIDRAKE_FIELD(fummidrake_entry, within, 2);
FUMMIDRAKE_FIELD(fummidrake_entry, kind, 4);
FUMMIDRAKE_FIELD(fummidrake_entry, standing, 5);
FUMMIDRAKE_FIELD(fummidrake_entry, fore_end, 6);
FUMMIDRAKE_FIELD(fummidrake_entry, aft_end, 7);
FUMMIDRAKE_FIELD(fummidrake_entry, deck, 8);
FUMMIDRAKE_FIELD(fummidrake_entry, length, 12);
FUMMIDRAKE_SIZE(fummidrake_entry, 16);
FUMMIDRAKE_FIELD(fummidrake_tank, id, 0);
FUMMIDRAKE_FIELD(fummidrake_tank, within, 2);
FUMMIDRAKE_FIELD(fummidrake_tank, standing, 4);
FUMMIDRAKE_FIELD(fummidrake_tank, deck, 5);
FUMMIDRAKE_FIELD(fummidrake_tank, length, 8);
FUMMIDRAKE_FIELD(fummidrake_tank, fore, 12);
FUMMIDRAKE_SIZE(fummidrake_tank, 16);
FUMMIDRAKE_FIELD(fummidrake_open_change, made, 0);
FUMMIDRAKE_FIELD(fummidrake_open_change, before, 1);
FUMMIDRAKE_FIELD(fummidrake_open_change, after, 2);
FUMMIDRAKE_FIELD(fummidrake_open_change, place, 8);
FUMMIDRAKE_FIELD(fummidrake_open_change, space, 16);
FUMMIDRAKE_SIZE(fummidrake_open_change, 32);
FUMMIDRAKE_FIELD(fummidrake_sheet, opened, 0);
FUMMIDRAKE_FIELD(fummidrake_sheet, length, 4);
FUMMIDRAKE_FIELD(fummidrake_sheet, spaces, 8);
FUMMIDRAKE_FIELD(fummidrake_sheet, count, 3208);
FUMMIDRAKE_FIELD(fummidrake_sheet, changes, 3216);
FUMMIDRAKE_FIELD(fummidrake_sheet, undoable, 5264);
FUMMIDRAKE_FIELD(fummidrake_sheet, redoable, 5272);
FUMMIDRAKE_FIELD(fummidrake_sheet, vessel, 5280);
FUMMIDRAKE_SIZE(fummidrake_sheet, 5288);
FUMMIDRAKE_FIELD(fummidrake_changed, number, 0);
FUMMIDRAKE_FIELD(fummidrake_changed, sheet, 8);
FUMMIDRAKE_SIZE(fummidrake_changed, 5296);
FUMMIDRAKE_FIELD(fummidrake_roundings, length, 0);
FUMMIDRAKE_FIELD(fummidrake_roundings, depths, 1);
FUMMIDRAKE_SIZE(fummidrake_roundings, 18);
FUMMIDRAKE_FIELD(fummidrake_entering, number, 0);
FUMMIDRAKE_FIELD(fummidrake_entering, roundings, 1);
FUMMIDRAKE_FIELD(fummidrake_entering, visited, 19);
FUMMIDRAKE_FIELD(fummidrake_entering, sheet, 24);
FUMMIDRAKE_SIZE(fummidrake_entering, 5312);
FUMMIDRAKE_FIELD(fummidrake_tank_entering, number, 0);
FUMMIDRAKE_FIELD(fummidrake_tank_entering, visited, 1);
FUMMIDRAKE_FIELD(fummidrake_tank_entering, sheet, 8);
FUMMIDRAKE_SIZE(fummidrake_tank_entering, 5296);
FUMMIDRAKE_FIELD(fummidrake_counted, undoable, 0);
FUMMIDRAKE_FIELD(fummidrake_counted, redoable, 8);
FUMMIDRAKE_FIELD(fummidrake_counted, sheet, 16);
FUMMIDRAKE_SIZE(fummidrake_counted, 5304);
FUMMIDRAKE_FIELD(fummidrake_reported, number, 0);
FUMMIDRAKE_FIELD(fummidrake_reported, gross, 8);
FUMMIDRAKE_FIELD(fummidrake_reported, net, 16);
FUMMIDRAKE_FIELD(fummidrake_reported, sheet, 24);
FUMMIDRAKE_SIZE(fummidrake_reported, 5312);
FUMMIDRAKE_FIELD(fummidrake_laid_out, number, 0);
FUMMIDRAKE_FIELD(fummidrake_laid_out, parts, 8);
FUMMIDRAKE_FIELD(fummidrake_laid_out, sections, 16);
FUMMIDRAKE_SIZE(fummidrake_laid_out, 24);
FUMMIDRAKE_FIELD(fummidrake_written, number, 0);
FUMMIDRAKE_FIELD(fummidrake_written, bytes, 8);
FUMMIDRAKE_FIELD(fummidrake_written, sheet, 16);
FUMMIDRAKE_SIZE(fummidrake_written, 5304);
FUMMIDRAKE_FIELD(fummidrake_reading, number, 0);
FUMMIDRAKE_FIELD(fummidrake_reading, position, 8);
FUMMIDRAKE_FIELD(fummidrake_reading, sheet, 16);
FUMMIDRAKE_FIELD(fummidrake_reading, justified, 5304);
FUMMIDRAKE_FIELD(fummidrake_reading, start, 5312);
FUMMIDRAKE_FIELD(fummidrake_reading, form, 5320);
FUMMIDRAKE_SIZE(fummidrake_reading, 5328);
FUMMIDRAKE_FIELD(fummidrake_moved, number, 0);
FUMMIDRAKE_FIELD(fummidrake_moved, bytes, 8);
FUMMIDRAKE_FIELD(fummidrake_moved, position, 16);
FUMMIDRAKE_SIZE(fummidrake_moved, 24);
FUMMIDRAKE_FIELD(fummidrake_listing, text, 0);
FUMMIDRAKE_FIELD(fummidrake_listing, size, 8192);
FUMMIDRAKE_SIZE(fummidrake_listing, 8200);
#undef FUMMIDRAKE_SIZE
#undef FUMMIDRAKE_FIELD
#undef FUMMIDRAKE_HOLDS
#endif

/* Opens a new sheet with a tonnage length and a vessel number, any, 0 for none; refused with 2, and a sheet not open, where the length
 * is outside its range. The vessel number stays with the sheet. */
FUMMIDRAKE_MUST_USE
fummidrake_changed fummidrake_open(uint32_t length, uint32_t vessel);

/* Enters a space from its offsets: for a U the depths at the stations, and the breadths station by station from the bow, at each
 * from above; for a B or S one height and one breadth a station; for an H or R one of each. A pointed end of a U has no area: its
 * depth or all its breadths are 0, or its third interval of depth rounds to 0. The answer says too what the rounding of its third
 * intervals did and, refused or not, how many enclosing spaces were visited. Refused with 1 to 10, 19. */
FUMMIDRAKE_MUST_USE
fummidrake_entering fummidrake_enter(fummidrake_sheet sheet, fummidrake_entry entry, const uint32_t *heights, size_t heights_count,
                                     const uint32_t *breadths, size_t breadths_count);

/* Enters a tank that follows the hull, a room directly inside its U, from its sections, as fummidrake_lay_out counts them: a depth a
 * section, and the breadths section by section from the bow, at each m + 1 from above, with that U's m. Where a tank station falls
 * exactly between two zones there are two sections, the fore zone's first, and the larger area is taken. The answer says too, refused
 * or not, how many enclosing spaces were visited. Refused with 1 to 6, 9, 10, 29: with 3, and with 9 by the tank's tonnage, only in a
 * U with m whose ends the tank doesn't pass. On a sheet that no call handed back 7 and 8 are there too, as of any room. */
FUMMIDRAKE_MUST_USE
fummidrake_tank_entering fummidrake_enter_tank(fummidrake_sheet sheet, fummidrake_tank tank, const uint32_t *depths,
                                               size_t depths_count, const uint32_t *breadths, size_t breadths_count);

/* Strikes out the space with an id. Refused with 1, 5, 11. */
FUMMIDRAKE_MUST_USE
fummidrake_changed fummidrake_withdraw(fummidrake_sheet sheet, uint16_t id);

/* Gives the space with an id a new standing, even the same one. Refused with 1, 2, 5, 6, 8. */
FUMMIDRAKE_MUST_USE
fummidrake_changed fummidrake_mark(fummidrake_sheet sheet, uint16_t id, uint8_t standing);

/* Takes back the latest accepted change not undone. Refused with 1, 12. */
FUMMIDRAKE_MUST_USE
fummidrake_changed fummidrake_undo(fummidrake_sheet sheet);

/* Makes again the change last undone. Refused with 1, 12. */
FUMMIDRAKE_MUST_USE
fummidrake_changed fummidrake_redo(fummidrake_sheet sheet);

/* Says how many changes are undoable and redoable: 0 and 0 on a sheet not open. */
FUMMIDRAKE_MUST_USE
fummidrake_counted fummidrake_counts(fummidrake_sheet sheet);

/* Gives gross and net; `justified` is 1 where the surveyor justifies the water ballast, else 0. Refused with 1, 2, 13, 14, 21. */
FUMMIDRAKE_MUST_USE
fummidrake_reported fummidrake_report(fummidrake_sheet sheet, uint8_t justified);

/* Says whether the sheet is open. */
FUMMIDRAKE_MUST_USE
bool fummidrake_is_open(fummidrake_sheet sheet);

/* Gives the tonnage length; 0 on a sheet not open. */
FUMMIDRAKE_MUST_USE
uint32_t fummidrake_tonnage_length(fummidrake_sheet sheet);

/* Gives the vessel number; 0 on a sheet not open. */
FUMMIDRAKE_MUST_USE
uint32_t fummidrake_vessel(fummidrake_sheet sheet);

/* Says how many spaces stand; none on a sheet not open. */
FUMMIDRAKE_MUST_USE
size_t fummidrake_standing_count(fummidrake_sheet sheet);

/* Gives the space at a place of the order of entry, from 0; all zeros where none stands there. */
FUMMIDRAKE_MUST_USE
fummidrake_space fummidrake_space_at(fummidrake_sheet sheet, size_t place);

/* Says how many stations the rules ask of a space of a kind and length: one for an H or R. */
FUMMIDRAKE_MUST_USE
size_t fummidrake_stations(uint8_t kind, uint32_t tonnage_length, uint32_t length);

/* Says how many breadths the rules ask at each station; for a U that depends on the depth at its middle station. */
FUMMIDRAKE_MUST_USE
size_t fummidrake_breadths_at_station(uint8_t kind, uint32_t middle);

/* Says where a tank is measured, in a U of the length `under_deck`, before it is entered: its parts, and how many sections it asks.
 * Refused with 2, 9. It needs no sheet; a U longer than the tonnage length is a part made by a step. */
FUMMIDRAKE_MUST_USE
fummidrake_laid_out fummidrake_lay_out(uint32_t tonnage_length, uint32_t under_deck, uint32_t length, uint32_t fore);

/* Gives the number, from 1, of the under-deck station inside whose section the tank's section, counted from 0, is measured; 0 past
 * the last section, and where fummidrake_lay_out refuses. */
FUMMIDRAKE_MUST_USE
size_t fummidrake_section_station(uint32_t tonnage_length, uint32_t under_deck, uint32_t length, uint32_t fore, size_t section);

/* Writes the sheet with its justified mark into a buffer, from the byte `at` on, in a form: in form 1 16 bytes a space and 28 behind
 * them, in form 2 20 and 32. No byte before or after is touched, and none where refused, with 1, 2, 13, 14, 20, 15, 21. */
FUMMIDRAKE_MUST_USE
fummidrake_written fummidrake_write(fummidrake_sheet sheet, uint8_t justified, uint8_t form, uint8_t *buf, size_t buf_bytes,
                                    size_t at);

/* Reads the last sheet of a file, which may be any bytes; the bytes ahead of its start are the earlier sheets, read the same way.
 * Either form is read, and answered; a sheet in form 1 has no decks and no vessel number. Refused, with a sheet not open, mark 0,
 * start 0 and form 0, with 16, 17, 13, 14, 21, 18. */
FUMMIDRAKE_MUST_USE
fummidrake_reading fummidrake_read(const uint8_t *file, size_t file_bytes);

/* Reads the sheet before the start of another in the same file, by the same rules; its own start counts from the file's first byte. */
FUMMIDRAKE_MUST_USE
fummidrake_reading fummidrake_read_before(const uint8_t *file, size_t file_bytes, size_t start);

/* Moves the last sheet of the file `from`, with its mark, into the buffer `to`, from the byte `at` on, in a form, which may be the one
 * it has. It takes no sheet, and the two must not overlap. No byte before or after is touched, and none where refused, with 2, 16, 17,
 * 13, 14, 21, 18, 20, 15. */
FUMMIDRAKE_MUST_USE
fummidrake_moved fummidrake_move_last(const uint8_t *from, size_t from_bytes, uint8_t form, uint8_t *to, size_t to_bytes, size_t at);

/* Lists the last sheet of a file, in either form: its tonnage length, a line a space, gross and net; or REFUSED, the number and the
 * position. A file has at most 65,536 bytes here: a longer one is listed as REFUSED 16 0, whatever it holds. */
FUMMIDRAKE_MUST_USE
fummidrake_listing fummidrake_list(const uint8_t *file, size_t file_bytes);

/* The same calls in place: each takes a pointer to the caller's sheet, replaces that sheet by the one that the call hands back (where
 * refused, as it was), and answers what else there is. Opening, reading and moving take no sheet, and are not among them. */

/* The number, what the rounding did, and how many enclosing spaces were visited. */
typedef struct {
    uint8_t number;
    fummidrake_roundings roundings;
    uint8_t visited;
} fummidrake_entering_on;

/* The number, and how many enclosing spaces were visited. */
typedef struct {
    uint8_t number;
    uint8_t visited;
} fummidrake_tank_entering_on;

/* How many changes are open. */
typedef struct {
    size_t undoable;
    size_t redoable;
} fummidrake_counted_on;

/* The number, gross and net: 0 and 0 where refused. */
typedef struct {
    uint8_t number;
    uint64_t gross;
    uint64_t net;
} fummidrake_reported_on;

/* The number, and the bytes written: 0 where refused. */
typedef struct {
    uint8_t number;
    size_t bytes;
} fummidrake_written_on;

/* Enters a space on the sheet, and answers the number, what the rounding did, and how many enclosing spaces were visited: see
 * fummidrake_enter. */
FUMMIDRAKE_MUST_USE
static inline fummidrake_entering_on fummidrake_enter_on(fummidrake_sheet *sheet, fummidrake_entry entry, const uint32_t *heights,
                                                         size_t heights_count, const uint32_t *breadths, size_t breadths_count) {
    fummidrake_entering answer = fummidrake_enter(*sheet, entry, heights, heights_count, breadths, breadths_count);
    fummidrake_entering_on values = {answer.number, answer.roundings, answer.visited};
    *sheet = answer.sheet;
    return values;
}

/* Enters a tank on the sheet, and answers the number and how many enclosing spaces were visited: see fummidrake_enter_tank. */
FUMMIDRAKE_MUST_USE
static inline fummidrake_tank_entering_on fummidrake_enter_tank_on(fummidrake_sheet *sheet, fummidrake_tank tank,
                                                                   const uint32_t *depths, size_t depths_count,
                                                                   const uint32_t *breadths, size_t breadths_count) {
    fummidrake_tank_entering answer = fummidrake_enter_tank(*sheet, tank, depths, depths_count, breadths, breadths_count);
    fummidrake_tank_entering_on values = {answer.number, answer.visited};
    *sheet = answer.sheet;
    return values;
}

/* Strikes out the space with an id on the sheet, and answers the number: see fummidrake_withdraw. */
FUMMIDRAKE_MUST_USE
static inline uint8_t fummidrake_withdraw_on(fummidrake_sheet *sheet, uint16_t id) {
    fummidrake_changed answer = fummidrake_withdraw(*sheet, id);
    *sheet = answer.sheet;
    return answer.number;
}

/* Gives the space with an id on the sheet a new standing, and answers the number: see fummidrake_mark. */
FUMMIDRAKE_MUST_USE
static inline uint8_t fummidrake_mark_on(fummidrake_sheet *sheet, uint16_t id, uint8_t standing) {
    fummidrake_changed answer = fummidrake_mark(*sheet, id, standing);
    *sheet = answer.sheet;
    return answer.number;
}

/* Takes back the latest accepted change on the sheet not undone, and answers the number: see fummidrake_undo. */
FUMMIDRAKE_MUST_USE
static inline uint8_t fummidrake_undo_on(fummidrake_sheet *sheet) {
    fummidrake_changed answer = fummidrake_undo(*sheet);
    *sheet = answer.sheet;
    return answer.number;
}

/* Makes the change on the sheet last undone again, and answers the number: see fummidrake_redo. */
FUMMIDRAKE_MUST_USE
static inline uint8_t fummidrake_redo_on(fummidrake_sheet *sheet) {
    fummidrake_changed answer = fummidrake_redo(*sheet);
    *sheet = answer.sheet;
    return answer.number;
}

/* Says how many changes on the sheet are undoable and redoable, which it leaves as it was: see fummidrake_counts. */
FUMMIDRAKE_MUST_USE
static inline fummidrake_counted_on fummidrake_counts_on(fummidrake_sheet *sheet) {
    fummidrake_counted answer = fummidrake_counts(*sheet);
    fummidrake_counted_on values = {answer.undoable, answer.redoable};
    *sheet = answer.sheet;
    return values;
}

/* Gives gross and net of the sheet, which it leaves as it was: see fummidrake_report. */
FUMMIDRAKE_MUST_USE
static inline fummidrake_reported_on fummidrake_report_on(fummidrake_sheet *sheet, uint8_t justified) {
    fummidrake_reported answer = fummidrake_report(*sheet, justified);
    fummidrake_reported_on values = {answer.number, answer.gross, answer.net};
    *sheet = answer.sheet;
    return values;
}

/* Writes the sheet, which it leaves as it was, into a buffer from the byte `at` on: see fummidrake_write. */
FUMMIDRAKE_MUST_USE
static inline fummidrake_written_on fummidrake_write_on(fummidrake_sheet *sheet, uint8_t justified, uint8_t form, uint8_t *buf,
                                                        size_t buf_bytes, size_t at) {
    fummidrake_written answer = fummidrake_write(*sheet, justified, form, buf, buf_bytes, at);
    fummidrake_written_on values = {answer.number, answer.bytes};
    *sheet = answer.sheet;
    return values;
}

#ifdef __cplusplus
}
#endif

#endif
