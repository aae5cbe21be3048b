/* What nothing proves across the boundary to C, tried: that the header's fields are the source's, that the calls stay inside a
 * pointer and its length, that any bytes are a sheet, that what the rounding did arrives with its sign, and how many enclosing spaces
 * were visited with every number, that decks, vessel number and form arrive in every struct, and that a call in place does what the
 * same call by value does. Prints nothing, or the first fault.
 *
 * Run at the root of the project, after `make archive`: see `make test`. */
#define _DEFAULT_SOURCE
#include "fummidrake.h"

#include <stdio.h>
#include <stdlib.h>
#include <string.h>
#include <sys/mman.h>
#include <unistd.h>

#define HOLDS(fact) ((fact) ? (void)0 : fault(#fact, __LINE__))

static void fault(const char *fact, int line) {
    printf("tools/boundary.c:%d: not so: %s\n", line, fact);
    exit(1);
}

static uint64_t seed = 88172645463325252u;

static uint64_t any(uint64_t below) {
    seed ^= seed << 13;
    seed ^= seed >> 7;
    seed ^= seed << 17;
    return seed % below;
}

/* A page between two that can't be touched: what is put at an end of it can't be left unnoticed. */
typedef struct {
    uint8_t *first, *end;
} room;

static room new_room(void) {
    size_t page = (size_t)sysconf(_SC_PAGESIZE);
    uint8_t *pages = mmap(NULL, 3 * page, PROT_NONE, MAP_PRIVATE | MAP_ANONYMOUS, -1, 0);
    HOLDS(pages != MAP_FAILED);
    HOLDS(mprotect(pages + page, page, PROT_READ | PROT_WRITE) == 0);
    return (room){pages + page, pages + 2 * page};
}

/* The place of some bytes at the front or at the end of a room. */
static uint8_t *placed(room r, size_t bytes, bool at_end) {
    return at_end ? r.end - bytes : r.first;
}

static fummidrake_sheet entered(fummidrake_sheet sheet, fummidrake_entry entry, const uint32_t *heights, size_t heights_count,
                                const uint32_t *breadths, size_t breadths_count) {
    fummidrake_entering answer = fummidrake_enter(sheet, entry, heights, heights_count, breadths, breadths_count);
    HOLDS(answer.number == 0);
    return answer.sheet;
}

/* The ends of a U. */
enum { INNER = 1, UPRIGHT, POINTED };

/* The offsets of the U, a box as long as the tonnage length of 48 ft: at each of 7 stations a depth and 5 breadths. */
typedef struct {
    uint32_t depths[7], breadths[35];
} offsets;

static offsets box(void) {
    offsets made;
    for (size_t i = 0; i < 7; i++)
        made.depths[i] = 1200;
    for (size_t i = 0; i < 35; i++)
        made.breadths[i] = 2000;
    return made;
}

static fummidrake_entry under_deck(uint8_t fore_end, uint8_t aft_end) {
    return (fummidrake_entry){1, 0, 1, 0, fore_end, aft_end, 0, 4800};
}

/* A vessel number no two bytes of which are the same, and the greatest deck. */
enum { VESSEL = 0x04030201, LAST_DECK = 99 };

/* The U, a room in it that is exempt as ballast, and a hatchway; numbered, the sheet has a vessel number and each space a deck. */
static fummidrake_sheet three(bool numbered, uint32_t length_of_ballast) {
    offsets given = box();
    uint32_t ten = 1000;
    fummidrake_entry first = under_deck(UPRIGHT, UPRIGHT);
    fummidrake_entry ballast = {2, 1, 5, 2, 0, 0, numbered ? LAST_DECK : 0, length_of_ballast};
    first.deck = numbered ? 1 : 0;
    fummidrake_sheet sheet = fummidrake_open(4800, numbered ? VESSEL : 0).sheet;
    sheet = entered(sheet, first, given.depths, 7, given.breadths, 35);
    sheet = entered(sheet, ballast, &ten, 1, &ten, 1);
    return entered(sheet, (fummidrake_entry){3, 0, 4, 0, 0, 0, numbered ? 7 : 0, 500}, &ten, 1, &ten, 1);
}

static fummidrake_sheet three_spaces(void) {
    return three(false, 1000);
}

static fummidrake_sheet three_numbered(void) {
    return three(true, 1000);
}

static bool same_space(fummidrake_space a, fummidrake_space b) {
    return a.id == b.id && a.within == b.within && a.kind == b.kind && a.standing == b.standing && a.m == b.m && a.deck == b.deck &&
           a.tonnage == b.tonnage && a.length == b.length;
}

static bool same_change(fummidrake_open_change a, fummidrake_open_change b) {
    return a.made == b.made && a.before == b.before && a.after == b.after && a.place == b.place && same_space(a.space, b.space);
}

/* The same in every field, free places too; what lies between fields isn't compared. */
static bool same_sheet(const fummidrake_sheet *a, const fummidrake_sheet *b) {
    bool same = a->opened == b->opened && a->length == b->length && a->vessel == b->vessel && a->count == b->count &&
                a->undoable == b->undoable && a->redoable == b->redoable;
    for (size_t i = 0; i < 200; i++)
        same = same && same_space(a->spaces[i], b->spaces[i]);
    for (size_t i = 0; i < 64; i++)
        same = same && same_change(a->changes[i], b->changes[i]);
    return same;
}

static bool same_roundings(fummidrake_roundings a, fummidrake_roundings b) {
    return a.length == b.length && memcmp(a.depths, b.depths, sizeof a.depths) == 0;
}

/* What a refused entry hands on. */
static const fummidrake_roundings no_roundings = {0, {0}};

/* The fields of a sheet as the header has them are what the calls say of it. */
static void fields(void) {
    fummidrake_sheet sheet = fummidrake_mark(three_numbered(), 2, 3).sheet;
    sheet = fummidrake_undo(fummidrake_withdraw(sheet, 3).sheet).sheet;
    fummidrake_counted counted = fummidrake_counts(sheet);
    HOLDS(sheet.opened == 1 && fummidrake_is_open(sheet));
    HOLDS(sheet.length == 4800 && fummidrake_tonnage_length(sheet) == 4800);
    HOLDS(sheet.vessel == VESSEL && fummidrake_vessel(sheet) == VESSEL);
    HOLDS(sheet.count == 3 && fummidrake_standing_count(sheet) == 3);
    for (size_t place = 0; place < 3; place++)
        HOLDS(same_space(sheet.spaces[place], fummidrake_space_at(sheet, place)));
    HOLDS(sheet.spaces[0].m == 4 && sheet.spaces[1].m == 0 && sheet.spaces[2].m == 0);
    HOLDS(sheet.spaces[0].deck == 1 && sheet.spaces[1].deck == LAST_DECK && sheet.spaces[2].deck == 7);
    HOLDS(sheet.undoable == 4 && counted.undoable == 4);
    HOLDS(sheet.redoable == 1 && counted.redoable == 1);
    fummidrake_open_change entry = sheet.changes[0], mark = sheet.changes[3], withdrawal = sheet.changes[4];
    HOLDS(entry.made == 0 && same_space(entry.space, sheet.spaces[0]));
    HOLDS(mark.made == 2 && mark.place == 1 && mark.before == 2 && mark.after == 3);
    HOLDS(withdrawal.made == 1 && withdrawal.place == 2 && same_space(withdrawal.space, sheet.spaces[2]));
}

/* A sheet that isn't opened has no vessel number; else it may be any, also where the length is the least. */
static void openings(void) {
    fummidrake_changed refused = fummidrake_open(99, VESSEL), opened = fummidrake_open(100, UINT32_MAX);
    HOLDS(refused.number == 2 && !fummidrake_is_open(refused.sheet) && fummidrake_vessel(refused.sheet) == 0);
    HOLDS(opened.number == 0 && fummidrake_vessel(opened.sheet) == UINT32_MAX && fummidrake_tonnage_length(opened.sheet) == 100);
    HOLDS(fummidrake_vessel(fummidrake_open(100, 0).sheet) == 0);
}

/* A deck, mostly in its range. */
static uint8_t any_deck(void) {
    return (uint8_t)any(any(9) ? LAST_DECK + 1 : 256);
}

/* Lists of any length, with nothing that may be read before or behind them. */
static void lists(void) {
    room heights = new_room(), breadths = new_room();
    fummidrake_sheet sheet = fummidrake_open(4800, VESSEL).sheet;
    for (int turn = 0; turn < 4000; turn++) {
        size_t h = any(10), b = any(3) ? h * (1 + any(7)) : any(60);
        uint32_t *hs = (uint32_t *)placed(heights, 4 * h, any(2)), *bs = (uint32_t *)placed(breadths, 4 * b, any(2));
        for (size_t i = 0; i < h; i++)
            hs[i] = (uint32_t)any(any(20) ? 20001 : UINT64_C(1) << 32);
        for (size_t i = 0; i < b; i++)
            bs[i] = (uint32_t)any(any(20) ? 30001 : UINT64_C(1) << 32);
        fummidrake_entry entry = {1, 0, (uint8_t)any(7), 0, (uint8_t)any(5), (uint8_t)any(5), any_deck(), 4800};
        if (any(2))
            entry.length = (uint32_t)any(9000);
        fummidrake_entering answer = fummidrake_enter(sheet, entry, hs, h, bs, b);
        HOLDS(answer.number <= 10 || answer.number == 19);
        HOLDS(entry.deck <= LAST_DECK || answer.number == 2);
        HOLDS(answer.number != 0 || fummidrake_space_at(answer.sheet, 0).deck == entry.deck);
        HOLDS(answer.sheet.vessel == VESSEL && answer.visited == 0);
        HOLDS(answer.number == 0 || same_roundings(answer.roundings, no_roundings));
    }
}

/* The same of a tank's sections, mostly as many as are asked. The U and the hatchway are at level 1, the room 2 at level 2. */
static void sections(void) {
    static const uint8_t levels[] = {0, 1, 2, 1, 0};
    room depths = new_room(), breadths = new_room();
    fummidrake_sheet sheet = three_spaces();
    for (int turn = 0; turn < 4000; turn++) {
        fummidrake_tank tank = {9, any(9) ? 1 : (uint16_t)any(5), any(9) ? 0 : (uint8_t)any(5), any_deck(), (uint32_t)any(2500), 0};
        tank.fore = (uint32_t)any(any(2) ? 4000 : 1000);
        if (any(20) == 0)
            tank.fore = (uint32_t)any(UINT64_C(1) << 32);
        size_t asked = fummidrake_lay_out(4800, 4800, tank.length, tank.fore).sections;
        size_t d = any(4) ? asked : any(40), b = any(4) ? 5 * d : any(220);
        uint32_t *ds = (uint32_t *)placed(depths, 4 * d, any(2)), *bs = (uint32_t *)placed(breadths, 4 * b, any(2));
        for (size_t i = 0; i < d; i++)
            ds[i] = (uint32_t)any(any(200) ? 1201 : UINT64_C(1) << 32);
        for (size_t i = 0; i < b; i++)
            bs[i] = (uint32_t)any(any(200) ? 2001 : UINT64_C(1) << 32);
        fummidrake_tank_entering answer = fummidrake_enter_tank(sheet, tank, ds, d, bs, b);
        HOLDS(answer.number != 1 && answer.number <= 10 && answer.visited == levels[tank.within]);
        HOLDS(tank.deck <= LAST_DECK || answer.number == 2);
        HOLDS(answer.number != 0 || fummidrake_space_at(answer.sheet, 3).deck == tank.deck);
    }
}

/* Where a tank is measured, of any numbers: a station for each section, from the bow on, and none behind the last. */
static void zones(void) {
    for (int turn = 0; turn < 4000; turn++) {
        uint64_t most = any(9) ? 150002 : UINT64_C(1) << 32;
        uint32_t whole = (uint32_t)any(most), part = any(2) ? whole : (uint32_t)any(most);
        uint32_t length = (uint32_t)any(any(2) ? 3000 : most), fore = (uint32_t)any(any(2) ? 3000 : most);
        fummidrake_laid_out laid_out = fummidrake_lay_out(whole, part, length, fore);
        if (laid_out.number == 0)
            HOLDS(2 <= laid_out.parts && laid_out.parts <= 16 && laid_out.parts < laid_out.sections);
        else
            HOLDS((laid_out.number == 2 || laid_out.number == 9) && laid_out.parts == 0 && laid_out.sections == 0);
        size_t before = 1;
        for (size_t i = 0; i < laid_out.sections; i++) {
            size_t station = fummidrake_section_station(whole, part, length, fore, i);
            HOLDS(before <= station && station <= 17);
            before = station;
        }
        HOLDS(fummidrake_section_station(whole, part, length, fore, laid_out.sections) == 0);
        HOLDS(fummidrake_section_station(whole, part, length, fore, SIZE_MAX) == 0);
    }
}

/* A tank that is its whole U has the U's tonnage and its own deck; in the same U read back from a file it is refused with 29. */
static void whole_under_deck(void) {
    offsets given = box();
    fummidrake_sheet sheet = fummidrake_open(4800, 0).sheet;
    sheet = entered(sheet, under_deck(UPRIGHT, UPRIGHT), given.depths, 7, given.breadths, 35);
    fummidrake_tank tank = {2, 1, 3, LAST_DECK, 4800, 0};
    fummidrake_tank_entering answer = fummidrake_enter_tank(sheet, tank, given.depths, 7, given.breadths, 35);
    fummidrake_space expected = sheet.spaces[0];
    expected.id = 2, expected.within = 1, expected.kind = 5, expected.standing = 3, expected.m = 0, expected.deck = LAST_DECK;
    HOLDS(answer.number == 0 && same_space(fummidrake_space_at(answer.sheet, 1), expected));
    uint8_t file[44];
    HOLDS(fummidrake_write(sheet, 0, 1, file, sizeof file, 0).number == 0);
    sheet = fummidrake_read(file, sizeof file).sheet;
    HOLDS(fummidrake_space_at(sheet, 0).m == 0);
    HOLDS(fummidrake_enter_tank(sheet, tank, given.depths, 7, given.breadths, 35).number == 29);
}

/* The bytes of three spaces in form 1 and in form 2. */
enum { IN_FORM_1 = 76, IN_FORM_2 = 92 };

/* A form, mostly one of the two. */
static uint8_t any_form(void) {
    return (uint8_t)(any(9) ? 1 + any(2) : any(256));
}

static size_t size_in(uint8_t form) {
    return form == 1 ? IN_FORM_1 : IN_FORM_2;
}

/* What three spaces are answered with that are written or moved in a form into so many bytes, from the byte `at` on. */
static uint8_t number_of(bool numbered, uint8_t form, size_t bytes, size_t at) {
    if (form != 1 && form != 2)
        return 2;
    if (numbered && form == 1)
        return 20;
    return at <= bytes && bytes - at >= size_in(form) ? 0 : 15;
}

/* What was written is read back, with decks and vessel number, but for m. */
static void read_back(fummidrake_reading reading, const fummidrake_sheet *sheet, uint8_t form, size_t start) {
    HOLDS(reading.number == 0 && reading.position == 0 && reading.justified == 0 && reading.start == start && reading.form == form);
    HOLDS(fummidrake_vessel(reading.sheet) == sheet->vessel && fummidrake_standing_count(reading.sheet) == 3);
    for (size_t place = 0; place < 3; place++) {
        fummidrake_space expected = sheet->spaces[place];
        expected.m = 0;
        HOLDS(same_space(fummidrake_space_at(reading.sheet, place), expected));
    }
}

/* What was written into a buffer, or a part of it, read in a room where nothing lies beside it. */
static void files(room r, const uint8_t *bytes, size_t part, bool whole, const fummidrake_sheet *sheet, uint8_t form, size_t at) {
    uint8_t *file = placed(r, part, any(2));
    memcpy(file, bytes, part);
    fummidrake_reading reading = fummidrake_read(file, part);
    if (whole)
        read_back(reading, sheet, form, at);
    HOLDS(reading.number == 0 || (!fummidrake_is_open(reading.sheet) && reading.form == 0));
    fummidrake_reading again = fummidrake_read_before(file, part, part + any(3));
    HOLDS(again.number == reading.number && again.position == reading.position && again.start == reading.start);
    HOLDS(again.form == reading.form && again.justified == reading.justified && same_sheet(&again.sheet, &reading.sheet));
    HOLDS(fummidrake_read_before(file, part, any(28)).number == 16);
    HOLDS((fummidrake_list(file, part).text[0] == 'R') == (reading.number != 0));
}

/* Buffers and files of any length, in every form: no byte outside is touched, and none inside but those written. */
static void buffers(void) {
    room r = new_room();
    fummidrake_sheet sheets[] = {three_spaces(), three_numbered()};
    for (int turn = 0; turn < 4000; turn++) {
        bool numbered = any(2);
        size_t bytes = any(180), at = any(180);
        uint8_t *buf = placed(r, bytes, any(2)), before[180], fill = (uint8_t)any(256), form = any_form();
        memset(buf, fill, bytes);
        fummidrake_written answer = fummidrake_write(sheets[numbered], 0, form, buf, bytes, at);
        uint8_t expected = number_of(numbered, form, bytes, at);
        bool fits = expected == 0;
        HOLDS(answer.number == expected && answer.bytes == (fits ? size_in(form) : 0));
        for (size_t i = 0; i < bytes; i++)
            HOLDS((fits && at <= i && i < at + size_in(form)) || buf[i] == fill);
        memcpy(before, buf, bytes);
        bool whole = any(2) && fits;
        files(r, before, whole ? at + size_in(form) : any(bytes + 1), whole, &sheets[numbered], form, at);
    }
}

/* A move between two buffers of any length: what lies ahead of the sheet in the one isn't moved, and in the other no byte outside is
 * touched, and none inside but those that a write in that form would write. */
static void moves(void) {
    room ours = new_room(), theirs = new_room();
    fummidrake_sheet sheets[] = {three_spaces(), three_numbered()};
    for (int turn = 0; turn < 4000; turn++) {
        bool numbered = any(2);
        uint8_t held = numbered ? 2 : (uint8_t)(1 + any(2)), form = any_form(), fill = (uint8_t)any(256);
        size_t ahead = any(60), from_bytes = ahead + size_in(held), to_bytes = any(180);
        size_t at = any(9) ? any(180) : SIZE_MAX - any(180);
        uint8_t *from = placed(ours, from_bytes, any(2)), *to = placed(theirs, to_bytes, any(2)), kept[160], same[IN_FORM_2];
        memset(from, fill, ahead);
        HOLDS(fummidrake_write(sheets[numbered], 0, held, from, from_bytes, ahead).number == 0);
        memcpy(kept, from, from_bytes);
        memset(to, fill, to_bytes);
        fummidrake_moved answer = fummidrake_move_last(from, from_bytes, form, to, to_bytes, at);
        uint8_t expected = number_of(numbered, form, to_bytes, at);
        bool fits = expected == 0;
        HOLDS(answer.number == expected && answer.bytes == (fits ? size_in(form) : 0) && answer.position == 0);
        HOLDS(memcmp(from, kept, from_bytes) == 0);
        for (size_t i = 0; i < to_bytes; i++)
            HOLDS((fits && at <= i && i < at + size_in(form)) || to[i] == fill);
        if (!fits)
            continue;
        HOLDS(fummidrake_write(sheets[numbered], 0, form, same, sizeof same, 0).number == 0);
        HOLDS(memcmp(to + at, same, size_in(form)) == 0);
        fummidrake_listing before = fummidrake_list(from, from_bytes), after = fummidrake_list(to, at + size_in(form));
        HOLDS(before.size == after.size && memcmp(before.text, after.text, before.size) == 0);
    }
}

/* A move that is refused so touches nothing, neither where there is room nor in a buffer of no bytes. Where the number is one of
 * reading's, a read is refused alike. */
static void never_moved(const uint8_t *file, size_t file_bytes, uint8_t form, uint8_t number, size_t position) {
    uint8_t to[200], untouched[sizeof to];
    memset(to, 0xa5, sizeof to);
    memset(untouched, 0xa5, sizeof untouched);
    for (size_t to_bytes = 0; to_bytes <= sizeof to; to_bytes += sizeof to) {
        fummidrake_moved answer = fummidrake_move_last(file, file_bytes, form, to, to_bytes, 0);
        HOLDS(answer.number == number && answer.bytes == 0 && answer.position == position);
        HOLDS(memcmp(to, untouched, sizeof to) == 0);
    }
    fummidrake_reading reading = fummidrake_read(file, file_bytes);
    HOLDS(number == 2 || number == 20 || (reading.number == number && reading.position == position && reading.form == 0));
}

/* A byte of three numbered spaces in form 2, what it is changed to, and the number and position that this is refused with. */
typedef struct {
    size_t byte;
    uint8_t value, number;
    size_t position;
} damage;

/* Each number of a move, in the order that they have: 2; then those of reading, though decks would be lost; then 20, though there is no
 * room; and 15. A record has its zero field at 6, its deck at 16 and its second zero field at 18; the records are followed by the vessel
 * number and, from 64 on, distance, count, mark, the form's byte, tonnage length, gross and net. */
static void refused_moves(void) {
    static const damage damages[] = {
        {71, 0, 16, 0}, {71, 1, 16, 0},   {71, 3, 16, 0}, {71, 255, 16, 0}, {64, 76, 16, 0},  {68, 2, 16, 0},
        {70, 2, 16, 0}, {6, 1, 17, 1},    {7, 1, 17, 1},  {36, 100, 17, 2}, {37, 1, 17, 2},   {58, 1, 17, 3},
        {59, 1, 17, 3}, {72, 0xc1, 13, 0}, {70, 0, 14, 0}, {76, 0, 18, 0},   {84, 0, 18, 0},
    };
    uint8_t file[IN_FORM_2], none[1];
    HOLDS(fummidrake_write(three(true, 4000), 1, 2, file, sizeof file, 0).number == 0);
    for (size_t i = 0; i < sizeof damages / sizeof damages[0]; i++) {
        uint8_t right = file[damages[i].byte];
        file[damages[i].byte] = damages[i].value;
        never_moved(file, sizeof file, 2, damages[i].number, damages[i].position);
        never_moved(file, sizeof file, 1, damages[i].number, damages[i].position);
        never_moved(file, sizeof file, 3, 2, 0);
        file[damages[i].byte] = right;
    }
    never_moved(file, sizeof file, 0, 2, 0);
    never_moved(file, sizeof file, 1, 20, 0);
    never_moved(file + 1, sizeof file - 1, 2, 16, 0);
    never_moved(none, 0, 2, 16, 0);
    never_moved(none, 0, 3, 2, 0);
    HOLDS(fummidrake_move_last(file, sizeof file, 2, none, 0, 0).number == 15);
    HOLDS(fummidrake_move_last(file, sizeof file, 2, none, 0, SIZE_MAX).number == 15);
}

/* The number that a sheet is answered with in form 1: written, and moved from form 2, which holds it all. */
static uint8_t number_in_form_1(fummidrake_sheet sheet) {
    uint8_t file[200], buf[200];
    fummidrake_written written = fummidrake_write(sheet, 0, 2, file, sizeof file, 0);
    uint8_t number = fummidrake_write(sheet, 0, 1, buf, sizeof buf, 0).number;
    HOLDS(written.number == 0 && fummidrake_move_last(file, written.bytes, 1, buf, sizeof buf, 0).number == number);
    return number;
}

/* The vessel number alone would be lost, and the deck of a single space, as long as that stands: 20. */
static void lost_numbers(void) {
    offsets given = box();
    uint32_t ten = 1000;
    fummidrake_sheet vessel = fummidrake_open(4800, 1).sheet, deck = three_spaces();
    vessel = entered(vessel, under_deck(UPRIGHT, UPRIGHT), given.depths, 7, given.breadths, 35);
    deck = entered(deck, (fummidrake_entry){4, 0, 4, 0, 0, 0, 1, 500}, &ten, 1, &ten, 1);
    HOLDS(number_in_form_1(three_spaces()) == 0 && number_in_form_1(vessel) == 20 && number_in_form_1(deck) == 20);
    HOLDS(fummidrake_withdraw_on(&deck, 4) == 0 && number_in_form_1(deck) == 0);
    HOLDS(fummidrake_undo_on(&deck) == 0 && number_in_form_1(deck) == 20);
}

/* A day of three sheets, as the header says: from the last to the first where each starts; then each is moved behind the one before. */
static size_t moved_all(const uint8_t *day, size_t day_bytes, uint8_t form, uint8_t *to, size_t to_bytes) {
    size_t ends[3] = {0, 0, day_bytes}, at = 0;
    for (size_t i = 2; i > 0; i--)
        ends[i - 1] = fummidrake_read_before(day, day_bytes, ends[i]).start;
    for (size_t i = 0; i < 3; i++) {
        fummidrake_moved answer = fummidrake_move_last(day, ends[i], form, to, to_bytes, at);
        HOLDS(answer.number == 0);
        at += answer.bytes;
    }
    return at;
}

/* Up and back gives the bytes again. */
static void up_and_back(void) {
    uint8_t day[3 * IN_FORM_1], up[3 * IN_FORM_2], back[sizeof day];
    for (uint32_t i = 0; i < 3; i++)
        HOLDS(fummidrake_write(three(false, 1000 + i), (uint8_t)(i % 2), 1, day, sizeof day, i * IN_FORM_1).number == 0);
    HOLDS(moved_all(day, sizeof day, 2, up, sizeof up) == sizeof up);
    HOLDS(fummidrake_read(up, sizeof up).form == 2 && fummidrake_vessel(fummidrake_read(up, sizeof up).sheet) == 0);
    HOLDS(moved_all(up, sizeof up, 1, back, sizeof back) == sizeof back);
    HOLDS(memcmp(day, back, sizeof day) == 0);
}

/* The last sheet of a file of 65,536 bytes is listed; of a byte more it is read, and the listing is a refusal. */
static void longest(void) {
    static uint8_t file[65537];
    size_t at = sizeof file - 76;
    HOLDS(fummidrake_write(three_spaces(), 0, 1, file, sizeof file, at).number == 0);
    HOLDS(fummidrake_read(file, sizeof file).number == 0 && fummidrake_read(file, sizeof file).start == at);
    HOLDS(memcmp(fummidrake_list(file + 1, sizeof file - 1).text, "LENGTH 48.00\n", 13) == 0);
    fummidrake_listing refused = fummidrake_list(file, sizeof file);
    HOLDS(refused.size == 13 && memcmp(refused.text, "REFUSED 16 0\n", 13) == 0);
}

/* A call in place answers the number of the same call by value, and leaves the sheet that that one hands back. */
static void same_in_place(uint8_t number, fummidrake_sheet left, fummidrake_changed answer) {
    HOLDS(number == answer.number && same_sheet(&left, &answer.sheet));
}

/* The same of an entry, which answers what the rounding did and how many spaces were visited too. */
static void entered_in_place(fummidrake_entering_on values, fummidrake_sheet left, fummidrake_entering answer) {
    HOLDS(values.number == answer.number && same_roundings(values.roundings, answer.roundings));
    HOLDS(values.visited == answer.visited && same_sheet(&left, &answer.sheet));
}

static void tank_in_place(fummidrake_tank_entering_on values, fummidrake_sheet left, fummidrake_tank_entering answer) {
    HOLDS(values.number == answer.number && values.visited == answer.visited && same_sheet(&left, &answer.sheet));
}

static void changes_in_place(fummidrake_sheet sheet, fummidrake_entry entry, uint8_t standing) {
    uint32_t ten = 1000, tens[15];
    for (size_t i = 0; i < 15; i++)
        tens[i] = ten;
    fummidrake_sheet left = sheet;
    fummidrake_entering_on values = fummidrake_enter_on(&left, entry, &ten, 1, &ten, 1);
    entered_in_place(values, left, fummidrake_enter(sheet, entry, &ten, 1, &ten, 1));
    left = sheet;
    fummidrake_tank tank = {entry.id, entry.within, standing, entry.deck, 800, 0};
    fummidrake_tank_entering_on of_tank = fummidrake_enter_tank_on(&left, tank, tens, 3, tens, 15);
    tank_in_place(of_tank, left, fummidrake_enter_tank(sheet, tank, tens, 3, tens, 15));
    left = sheet;
    uint8_t number = fummidrake_withdraw_on(&left, entry.id);
    same_in_place(number, left, fummidrake_withdraw(sheet, entry.id));
    left = sheet;
    number = fummidrake_mark_on(&left, entry.id, standing);
    same_in_place(number, left, fummidrake_mark(sheet, entry.id, standing));
    left = sheet;
    number = fummidrake_undo_on(&left);
    same_in_place(number, left, fummidrake_undo(sheet));
    left = sheet;
    number = fummidrake_redo_on(&left);
    same_in_place(number, left, fummidrake_redo(sheet));
}

/* The calls that change no sheet: the one behind the pointer is as it was. */
static void looks_in_place(fummidrake_sheet sheet, uint8_t justified, uint8_t form, size_t at) {
    uint8_t here[4096] = {0}, there[4096] = {0};
    fummidrake_sheet left = sheet;
    fummidrake_counted_on counts = fummidrake_counts_on(&left);
    fummidrake_counted counted = fummidrake_counts(sheet);
    HOLDS(counts.undoable == counted.undoable && counts.redoable == counted.redoable);
    fummidrake_reported_on report = fummidrake_report_on(&left, justified);
    fummidrake_reported reported = fummidrake_report(sheet, justified);
    HOLDS(report.number == reported.number && report.gross == reported.gross && report.net == reported.net);
    fummidrake_written_on write = fummidrake_write_on(&left, justified, form, here, sizeof here, at);
    fummidrake_written written = fummidrake_write(sheet, justified, form, there, sizeof there, at);
    HOLDS(write.number == written.number && write.bytes == written.bytes && memcmp(here, there, sizeof here) == 0);
    HOLDS(same_sheet(&left, &sheet) && same_sheet(&counted.sheet, &sheet) && same_sheet(&reported.sheet, &sheet) &&
          same_sheet(&written.sheet, &sheet));
}

/* On sheets that calls reach: each call is accepted on one of them. */
static void in_place(void) {
    fummidrake_sheet sheet = three_numbered();
    looks_in_place(three_spaces(), 0, 1, 0);
    looks_in_place(sheet, 0, 2, 0);
    changes_in_place(sheet, (fummidrake_entry){4, 1, 5, 0, 0, 0, LAST_DECK, 1000}, 0);
    changes_in_place(sheet, (fummidrake_entry){3, 0, 4, 0, 0, 0, 0, 1000}, 0);
    HOLDS(fummidrake_mark_on(&sheet, 2, 3) == 0 && fummidrake_withdraw_on(&sheet, 3) == 0 && fummidrake_undo_on(&sheet) == 0);
    looks_in_place(sheet, 1, 1, 0);
    changes_in_place(sheet, (fummidrake_entry){2, 0, 4, 0, 0, 0, LAST_DECK + 1, 1000}, 1);
}

/* The hatchway alone, with changes to undo and one to redo. */
static fummidrake_sheet without_under_deck(void) {
    fummidrake_sheet sheet = three_spaces();
    HOLDS(fummidrake_withdraw_on(&sheet, 2) == 0 && fummidrake_withdraw_on(&sheet, 1) == 0);
    HOLDS(fummidrake_mark_on(&sheet, 3, 0) == 0 && fummidrake_undo_on(&sheet) == 0);
    return sheet;
}

/* The number that a U of these offsets and ends is answered with. Refused, the sheet is as it came; accepted, as with upright ends. */
static uint8_t answered(const offsets *given, uint8_t fore_end, uint8_t aft_end) {
    fummidrake_sheet sheet = without_under_deck(), left = sheet;
    fummidrake_entry entry = under_deck(fore_end, aft_end);
    fummidrake_entering_on values = fummidrake_enter_on(&left, entry, given->depths, 7, given->breadths, 35);
    entered_in_place(values, left, fummidrake_enter(sheet, entry, given->depths, 7, given->breadths, 35));
    if (values.number == 0)
        sheet = entered(sheet, under_deck(UPRIGHT, UPRIGHT), given->depths, 7, given->breadths, 35);
    HOLDS(same_sheet(&left, &sheet));
    return values.number;
}

/* An entry on a sheet where nothing stands answers this number and these roundings, by value and in place. */
static void rounds(uint32_t tonnage_length, fummidrake_entry entry, const uint32_t *heights, size_t heights_count,
                   const uint32_t *breadths, size_t breadths_count, uint8_t number, fummidrake_roundings expected) {
    fummidrake_sheet sheet = fummidrake_open(tonnage_length, 0).sheet, left = sheet;
    fummidrake_entering answer = fummidrake_enter(sheet, entry, heights, heights_count, breadths, breadths_count);
    HOLDS(answer.number == number && same_roundings(answer.roundings, expected));
    entered_in_place(fummidrake_enter_on(&left, entry, heights, heights_count, breadths, breadths_count), left, answer);
}

/* Of a U with 4 parts of depth. Its length has 6 parts: 48000 / 18 is 2666.7, so 18 x 2667 - 48000 = 6. The box has 1200 / 12 = 100 at
 * each station, exactly. Then to the nearest, and a half up: 1201 goes to 100, and 1200 - 1201 = -1; 1205 the same, -5; 1206 / 12 is 100.5
 * and goes to 101, and 1212 - 1206 = 6; 1207 the same, 5; 1211, 1; and 5 goes to 0, and 0 - 5 = -5. Refused, by a pointed end with area
 * (19), a missing depth (3) or an id over 9,999 (4), it hands on none. */
static void roundings_of_under_deck(void) {
    offsets given = box();
    fummidrake_entry entry = under_deck(UPRIGHT, UPRIGHT), no_id = entry;
    fummidrake_roundings of_box = {6, {0}}, both_ways = {6, {0, -1, -5, 6, 5, 1, -5}};
    uint32_t depths[7] = {1200, 1201, 1205, 1206, 1207, 1211, 5};
    no_id.id = 10000;
    rounds(4800, entry, given.depths, 7, given.breadths, 35, 0, of_box);
    rounds(4800, entry, depths, 7, given.breadths, 35, 0, both_ways);
    rounds(4800, under_deck(POINTED, UPRIGHT), depths, 7, given.breadths, 35, 19, no_roundings);
    rounds(4800, entry, depths, 6, given.breadths, 35, 3, no_roundings);
    rounds(4800, no_id, depths, 7, given.breadths, 35, 4, no_roundings);
}

/* Of a U with the most stations, 17, and 6 parts of depth: every place is used. 250200 / 48 is 5212.5 and goes to 5213, and 48 x 5213 -
 * 250200 = 24, the greatest there is; 250150 / 48 is 5211.5 less a bit and goes to 5211, and 250128 - 250150 = -22. The depths are 1700 to
 * 1716: the first goes to 94, and 18 x 94 - 1700 = -8; 1701 / 18 is 94.5 and goes to 95, as all the others do: 1710 less each. */
static void roundings_of_most_stations(void) {
    uint32_t depths[17], breadths[17 * 7] = {0};
    fummidrake_roundings expected = {24, {-8, 9, 8, 7, 6, 5, 4, 3, 2, 1, 0, -1, -2, -3, -4, -5, -6}};
    for (uint32_t i = 0; i < 17; i++)
        depths[i] = 1700 + i;
    rounds(25020, (fummidrake_entry){1, 0, 1, 0, INNER, INNER, 0, 25020}, depths, 17, breadths, 17 * 7, 0, expected);
    expected.length = -22;
    rounds(25015, (fummidrake_entry){1, 0, 1, 0, INNER, INNER, 0, 25015}, depths, 17, breadths, 17 * 7, 0, expected);
}

/* Of the other kinds there are none of depths. The length of a B has the tonnage length's 6 parts: 48010 / 18 goes to 2667, and 48006 -
 * 48010 = -4. An S of 16 ft has 2: 16000 / 6 goes to 2667, and 16002 - 16000 = 2. A hatchway isn't divided, though 16 ft would be. */
static void roundings_of_levels(void) {
    uint32_t feet[7] = {701, 702, 703, 704, 705, 706, 707};
    fummidrake_roundings between_deck = {-4, {0}}, superstructure = {2, {0}};
    rounds(4800, (fummidrake_entry){1, 0, 2, 0, 0, 0, 0, 4801}, feet, 7, feet, 7, 0, between_deck);
    rounds(4800, (fummidrake_entry){1, 0, 3, 0, 0, 0, 0, 1600}, feet, 3, feet, 3, 0, superstructure);
    rounds(4800, (fummidrake_entry){1, 0, 4, 0, 0, 0, 0, 1600}, feet, 1, feet, 1, 0, no_roundings);
    rounds(4800, (fummidrake_entry){1, 0, 2, 0, 0, 0, 0, 4801}, feet, 6, feet, 7, 3, no_roundings);
}

/* A pointed end is refused with 19 where it has area. It has none with breadths that are all 0, nor with a depth up to 5, of which the
 * third interval rounds to 0. */
static void pointed_ends(void) {
    offsets given = box();
    HOLDS(answered(&given, UPRIGHT, INNER) == 0 && answered(&given, INNER, UPRIGHT) == 0);
    HOLDS(answered(&given, POINTED, UPRIGHT) == 19 && answered(&given, UPRIGHT, POINTED) == 19);
    for (uint32_t depth = 0; depth < 9; depth++) {
        given.depths[0] = depth;
        HOLDS(answered(&given, POINTED, INNER) == (depth <= 5 ? 0 : 19) && answered(&given, POINTED, POINTED) == 19);
    }
    memset(given.breadths, 0, 5 * sizeof given.breadths[0]);
    HOLDS(answered(&given, POINTED, UPRIGHT) == 0 && answered(&given, POINTED, POINTED) == 19);
    given.depths[6] = 0;
    HOLDS(answered(&given, POINTED, POINTED) == 0);
}

/* 19 comes after all the others: where 200 spaces stand the U is refused with 10, with one fewer by its end. */
static void judged_last(void) {
    offsets given = box();
    uint32_t ten = 1000;
    fummidrake_sheet sheet = fummidrake_open(4800, 0).sheet;
    for (uint16_t id = 2; id <= 201; id++)
        sheet = entered(sheet, (fummidrake_entry){id, 0, 4, 0, 0, 0, 0, 500}, &ten, 1, &ten, 1);
    HOLDS(fummidrake_enter(sheet, under_deck(POINTED, UPRIGHT), given.depths, 7, given.breadths, 35).number == 10);
    HOLDS(fummidrake_withdraw_on(&sheet, 201) == 0);
    HOLDS(fummidrake_enter(sheet, under_deck(POINTED, UPRIGHT), given.depths, 7, given.breadths, 35).number == 19);
}

/* Any other number of an end is refused with 2; where the space is no U none is looked at. */
static void other_ends(void) {
    offsets given = {{0}, {0}};
    uint32_t feet[7] = {100, 100, 100, 100, 100, 100, 100};
    fummidrake_sheet sheet = three_spaces();
    for (unsigned end = 0; end < 256; end++) {
        uint8_t expected = INNER <= end && end <= POINTED ? 0 : 2;
        HOLDS(answered(&given, (uint8_t)end, UPRIGHT) == expected && answered(&given, POINTED, (uint8_t)end) == expected);
        for (uint8_t kind = 2; kind <= 5; kind++) {
            fummidrake_entry entry = {9, 1, kind, 0, (uint8_t)end, (uint8_t)any(256), 0, 500};
            fummidrake_entry without = {9, 1, kind, 0, 0, 0, 0, 500};
            size_t stations = fummidrake_stations(kind, 4800, 500);
            fummidrake_sheet left = entered(sheet, entry, feet, stations, feet, stations);
            fummidrake_sheet right = entered(sheet, without, feet, stations, feet, stations);
            HOLDS(same_sheet(&left, &right));
        }
    }
}

/* The U, 1, and a chain of rooms in it, each directly inside the one before, so that each one's id is its level; and a hatchway, 9. */
static fummidrake_sheet eight_levels(void) {
    offsets given = box();
    uint32_t ten = 1000;
    fummidrake_sheet sheet = fummidrake_open(4800, 0).sheet;
    sheet = entered(sheet, under_deck(UPRIGHT, UPRIGHT), given.depths, 7, given.breadths, 35);
    for (uint16_t level = 2; level <= 8; level++) {
        fummidrake_entry next = {level, (uint16_t)(level - 1), 5, 0, 0, 0, 0, 1000u - 100u * level};
        sheet = entered(sheet, next, &ten, 1, &ten, 1);
    }
    return entered(sheet, (fummidrake_entry){9, 0, 4, 0, 0, 0, 0, 500}, &ten, 1, &ten, 1);
}

/* An entry of so many heights and breadths, 10 ft each, answers this number and so many visited, by value and in place. */
static void visits(fummidrake_sheet sheet, fummidrake_entry entry, size_t heights, size_t breadths, uint8_t number,
                   uint8_t visited) {
    uint32_t tens[35];
    for (size_t i = 0; i < 35; i++)
        tens[i] = 1000;
    fummidrake_sheet left = sheet;
    fummidrake_entering answer = fummidrake_enter(sheet, entry, tens, heights, tens, breadths);
    HOLDS(answer.number == number && answer.visited == visited);
    entered_in_place(fummidrake_enter_on(&left, entry, tens, heights, tens, breadths), left, answer);
}

/* The same of a tank of so many depths and breadths, a foot each. */
static void tank_visits(fummidrake_sheet sheet, fummidrake_tank tank, size_t depths, size_t breadths, uint8_t number,
                        uint8_t visited) {
    uint32_t feet[15];
    for (size_t i = 0; i < 15; i++)
        feet[i] = 100;
    fummidrake_sheet left = sheet;
    fummidrake_tank_entering answer = fummidrake_enter_tank(sheet, tank, feet, depths, feet, breadths);
    HOLDS(answer.number == number && answer.visited == visited);
    tank_in_place(fummidrake_enter_tank_on(&left, tank, feet, depths, feet, breadths), left, answer);
}

/* A room's entry visits as many spaces as the level of the enclosing one: accepted, and with each number. In a room at level 8 it is
 * refused, with 7 where no lower number applies. On a sheet not open none is visited. */
static void visited_at_each_level(void) {
    uint32_t ten = 1000;
    fummidrake_sheet sheet = eight_levels(), exempt = sheet, full = sheet, closed = fummidrake_open(0, 0).sheet;
    HOLDS(fummidrake_mark_on(&exempt, 2, 1) == 0);
    for (uint16_t id = 10; id <= 200; id++)
        full = entered(full, (fummidrake_entry){id, 0, 4, 0, 0, 0, 0, 500}, &ten, 1, &ten, 1);
    for (uint8_t level = 1; level <= 8; level++) {
        fummidrake_entry entry = {500, level, 5, 0, 0, 0, 0, 1}, misstated = entry, taken = entry, ballast = entry, large = entry;
        misstated.standing = 5, taken.id = level, ballast.standing = 2, large.length = 150000;
        bool too_deep = level == 8;
        visits(sheet, entry, 1, 1, too_deep ? 7 : 0, level);
        visits(closed, entry, 1, 1, 1, 0);
        visits(sheet, misstated, 1, 1, 2, level);
        visits(sheet, entry, 0, 1, 3, level);
        visits(sheet, taken, 1, 1, 4, level);
        visits(exempt, ballast, 1, 1, too_deep ? 7 : level == 1 ? 0 : 8, level);
        visits(sheet, large, 1, 1, too_deep ? 7 : 9, level);
        visits(full, entry, 1, 1, too_deep ? 7 : 10, level);
        visits(full, misstated, 0, 0, 2, level);
    }
}

/* One in a hatchway, which is at level 1; none where the enclosing id isn't standing, and none by an entry of another kind. */
static void visited_elsewhere(void) {
    static const uint16_t no_ids[] = {0, 10, 9999, 10000, 65535};
    fummidrake_sheet sheet = eight_levels();
    visits(sheet, (fummidrake_entry){500, 9, 5, 0, 0, 0, 0, 1}, 1, 1, 6, 1);
    visits(sheet, (fummidrake_entry){500, 9, 5, 5, 0, 0, 0, 1}, 1, 1, 2, 1);
    for (size_t i = 0; i < sizeof no_ids / sizeof no_ids[0]; i++) {
        visits(sheet, (fummidrake_entry){500, no_ids[i], 5, 0, 0, 0, 0, 1}, 1, 1, 5, 0);
        visits(sheet, (fummidrake_entry){1, no_ids[i], 5, 0, 0, 0, 0, 1}, 1, 1, 4, 0);
        visits(sheet, (fummidrake_entry){500, no_ids[i], 5, 0, 0, 0, 100, 1}, 1, 1, 2, 0);
    }
    HOLDS(fummidrake_withdraw_on(&sheet, 8) == 0);
    visits(sheet, (fummidrake_entry){500, 8, 5, 0, 0, 0, 0, 1}, 1, 1, 5, 0);
    visits(sheet, (fummidrake_entry){500, 7, 1, 0, UPRIGHT, UPRIGHT, 0, 4800}, 7, 35, 9, 0);
    visits(sheet, (fummidrake_entry){500, 7, 2, 0, 0, 0, 0, 4800}, 7, 7, 0, 0);
    visits(sheet, (fummidrake_entry){500, 7, 3, 0, 0, 0, 0, 1600}, 3, 3, 0, 0);
    visits(sheet, (fummidrake_entry){500, 7, 4, 0, 0, 0, 0, 500}, 1, 1, 0, 0);
    visits(sheet, (fummidrake_entry){500, 7, 4, 1, 0, 0, 0, 500}, 1, 1, 6, 0);
    visits(sheet, (fummidrake_entry){500, 7, 0, 0, 0, 0, 0, 500}, 1, 1, 2, 0);
    visits(sheet, (fummidrake_entry){500, 7, 6, 0, 0, 0, 0, 500}, 1, 1, 2, 0);
}

/* By a tank one in a U, whatever its number is, and in a hatchway; where it names a room, as many as that one's level. */
static void visited_by_tanks(void) {
    uint8_t file[16 * 8 + 28];
    fummidrake_sheet sheet = eight_levels(), closed = fummidrake_open(0, 0).sheet;
    fummidrake_tank tank = {500, 1, 0, 0, 1600, 0}, misstated = tank, taken = tank, too_long = tank;
    misstated.standing = 5, taken.id = 1, too_long.length = 4801;
    tank_visits(sheet, tank, 3, 15, 0, 1);
    tank_visits(closed, tank, 3, 15, 1, 0);
    tank_visits(sheet, misstated, 3, 15, 2, 1);
    tank_visits(sheet, tank, 2, 15, 3, 1);
    tank_visits(sheet, taken, 3, 15, 4, 1);
    tank_visits(sheet, too_long, 3, 15, 9, 1);
    for (uint8_t level = 2; level <= 8; level++) {
        tank.within = misstated.within = taken.within = level;
        tank_visits(sheet, tank, 3, 15, 6, level);
        tank_visits(sheet, misstated, 3, 15, 2, level);
        tank_visits(sheet, taken, 3, 15, 4, level);
        tank_visits(closed, tank, 3, 15, 1, 0);
    }
    tank.within = 9;
    tank_visits(sheet, tank, 3, 15, 6, 1);
    tank.within = 10;
    tank_visits(sheet, tank, 3, 15, 5, 0);
    tank.within = 1;
    HOLDS(fummidrake_withdraw_on(&sheet, 8) == 0 && fummidrake_write_on(&sheet, 0, 1, file, sizeof file, 0).number == 0);
    tank_visits(fummidrake_read(file, sizeof file).sheet, tank, 3, 15, 29, 1);
    visits(fummidrake_read(file, sizeof file).sheet, (fummidrake_entry){500, 7, 5, 0, 0, 0, 0, 1}, 1, 1, 0, 7);
}

/* Eight in a ring of rooms and in a chain of nine, as no call leaves them. */
static void visited_at_most(void) {
    fummidrake_sheet ring = eight_levels(), nine = ring;
    ring.spaces[0].kind = nine.spaces[0].kind = 5;
    ring.spaces[0].within = 3;
    nine.spaces[0].within = 9;
    for (int i = 0; i < 2; i++) {
        fummidrake_sheet sheet = i ? nine : ring;
        visits(sheet, (fummidrake_entry){500, 8, 5, 0, 0, 0, 0, 1}, 1, 1, 7, 8);
        visits(sheet, (fummidrake_entry){500, 8, 5, 0, 0, 0, 0, 0}, 1, 1, 2, 8);
        tank_visits(sheet, (fummidrake_tank){500, 8, 0, 0, 1600, 0}, 3, 15, 6, 8);
    }
    visits(ring, (fummidrake_entry){500, 1, 5, 0, 0, 0, 0, 1}, 1, 1, 7, 8);
    visits(nine, (fummidrake_entry){500, 1, 5, 0, 0, 0, 0, 1}, 1, 1, 0, 2);
}

/* At most 8 were visited, 8 only where 7 or a lower number refused the entry, and none on a sheet not open. */
static void visited_as_said(uint8_t number, uint8_t visited) {
    HOLDS(visited <= 8 && (visited < 8 || (1 <= number && number <= 7)) && (number != 1 || visited == 0));
}

/* Every call on a sheet, whatever its bytes are: it ends, and one that isn't open is refused with 1. */
static void every_call(fummidrake_sheet sheet) {
    uint32_t ten = 1000, tens[15] = {0};
    uint8_t buf[4096], unopened = fummidrake_is_open(sheet) ? 0 : 1, justified = (uint8_t)any(3), form = (uint8_t)any(4);
    uint16_t id = sheet.spaces[any(200)].id;
    fummidrake_tank tank = {any(2) ? id : 9999, sheet.spaces[any(2)].id, (uint8_t)any(5), any_deck(), 500, (uint32_t)any(2000)};
    fummidrake_entering of_room = fummidrake_enter(sheet, (fummidrake_entry){id, 1, 5, 0, 0, 0, any_deck(), 500}, &ten, 1, &ten, 1);
    fummidrake_tank_entering of_tank = fummidrake_enter_tank(sheet, tank, tens, 3, tens, 15);
    visited_as_said(of_room.number, of_room.visited);
    visited_as_said(of_tank.number, of_tank.visited);
    uint8_t numbers[] = {
        of_room.number,
        of_tank.number,
        fummidrake_enter(sheet, (fummidrake_entry){id, 0, 1, 0, POINTED, POINTED, 0, 500}, tens, 3, tens, 15).number,
        fummidrake_withdraw(sheet, id).number,
        fummidrake_mark(sheet, id, (uint8_t)any(5)).number,
        fummidrake_undo(sheet).number,
        fummidrake_redo(sheet).number,
        fummidrake_report(sheet, justified).number,
        fummidrake_write(sheet, justified, form, buf, sizeof buf, any(4200)).number,
    };
    for (size_t i = 0; i < sizeof numbers; i++)
        HOLDS(unopened ? numbers[i] == 1 : (numbers[i] <= 15 || numbers[i] == 20 || numbers[i] == 29) && numbers[i] != 1);
    HOLDS(fummidrake_vessel(sheet) == (unopened ? 0 : sheet.vessel));
    HOLDS(fummidrake_standing_count(sheet) <= 200 && fummidrake_counts(sheet).undoable <= 64);
    HOLDS(same_space(fummidrake_space_at(sheet, fummidrake_standing_count(sheet)), (fummidrake_space){0}));
    changes_in_place(sheet, (fummidrake_entry){id, 1, 5, 0, 0, 0, any_deck(), 500}, (uint8_t)any(5));
    looks_in_place(sheet, justified, form, any(4200));
}

static void any_bytes(void) {
    fummidrake_sheet sheet;
    memset(&sheet, 0, sizeof sheet);
    every_call(sheet);
    memset(&sheet, 255, sizeof sheet);
    every_call(sheet);
    for (int turn = 0; turn < 2000; turn++) {
        for (size_t i = 0; i < sizeof sheet; i++)
            ((uint8_t *)&sheet)[i] = (uint8_t)any(any(2) ? 256 : 4);
        every_call(sheet);
        sheet.opened = 1;
        sheet.count = any(201);
        sheet.undoable = any(65);
        sheet.redoable = any(65 - sheet.undoable);
        HOLDS(fummidrake_is_open(sheet));
        every_call(sheet);
        sheet.spaces[0].kind = 1;
        sheet.spaces[0].m = any(2) ? 4 : (uint8_t)any(256);
        every_call(sheet);
    }
}

int main(void) {
    fields();
    openings();
    in_place();
    lists();
    sections();
    zones();
    whole_under_deck();
    roundings_of_under_deck();
    roundings_of_most_stations();
    roundings_of_levels();
    pointed_ends();
    judged_last();
    other_ends();
    visited_at_each_level();
    visited_elsewhere();
    visited_by_tanks();
    visited_at_most();
    buffers();
    moves();
    refused_moves();
    lost_numbers();
    up_and_back();
    longest();
    any_bytes();
    return 0;
}
