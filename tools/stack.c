/* The stack that each call takes, measured: a call is made on a stack of its own, every byte of it painted, and the lowest byte that is
 * no longer as it was painted says how far down the call went. The sheet has 200 spaces, eight deep, and 64 changes; beside it each
 * call is made on one with a space fewer, on one with decks and a vessel number, on others where changes are undone, on one whose rooms
 * enclose one another in a ring, as no call leaves them, on one not open, and on one without its U. What is entered is a room, on the
 * last the U: upright, and pointed with no area there and with some. Files are written, read and moved in both forms. Prints nothing, or
 * the calls that take more than the header says; with -v what each takes.
 *
 * Run at the root of the project, after `make archive`: see `make test`. */
#define _DEFAULT_SOURCE
#include "fummidrake.h"

#include <stdio.h>
#include <stdlib.h>
#include <string.h>
#include <ucontext.h>

enum { PAINT = 0xa5, STATIONS = 17, ALL_BREADTHS = 17 * 7, DAY = 65536, LENGTH = 30000, VESSEL = 1042 };
/* The ends of a U. */
enum { UPRIGHT = 2, POINTED };
/* A tank in the U, of 16 parts; three of its stations lie between two zones. */
enum { TANK_LENGTH = 28000, TANK_FORE = 1375, SECTIONS = STATIONS + 3, SECTION_BREADTHS = SECTIONS * 7 };

/* What the calls are given, and where they leave their answers: nothing of it lies on the stack that is measured. */
typedef struct {
    fummidrake_sheet sheet;
    fummidrake_entry entry;
    uint32_t heights[STATIONS], breadths[ALL_BREADTHS];
    size_t heights_count, breadths_count;
    uint16_t id;
} input;

/* An input's entry and offsets, and the tank and its sections, as a call takes them after the sheet. */
#define ENTRY(of) (of).entry, (of).heights, (of).heights_count, (of).breadths, (of).breadths_count
#define TANK tank, section_depths, SECTIONS, section_breadths, SECTION_BREADTHS

static input given;
static uint32_t section_depths[SECTIONS], section_breadths[SECTION_BREADTHS];
static const fummidrake_tank tank = {9999, 2, 0, 99, TANK_LENGTH, TANK_FORE};
/* The form of what is written and read. For each form a day whose last sheet is the full one, and the room for another. */
static uint8_t form;
static uint8_t days[2][DAY], buffer[DAY];
static uint8_t number;
static fummidrake_changed changed;
static fummidrake_entering entered;
static fummidrake_tank_entering tank_entered;
static fummidrake_counted counted;
static fummidrake_reported reported;
static fummidrake_laid_out laid_out;
static fummidrake_written written;
static fummidrake_reading reading;
static fummidrake_moved moved;
static fummidrake_listing listing;
static fummidrake_space space;
static size_t size;

/* Where a full sheet is the last of a day in its form. */
static size_t last(void) {
    return form == 1 ? DAY - (16 * 200 + 28) : DAY - (20 * 200 + 32);
}

/* The calls: where one can be made in place too, it is made both ways, and the greater counts. */
#define CHANGES(name, ...)                                                                                                     \
    static void name(void) {                                                                                                   \
        changed = fummidrake_##name(given.sheet __VA_ARGS__);                                                                  \
        number = changed.number;                                                                                               \
    }                                                                                                                          \
    static void name##_on(void) {                                                                                              \
        number = fummidrake_##name##_on(&given.sheet __VA_ARGS__);                                                             \
    }

CHANGES(withdraw, , given.id)
CHANGES(mark, , given.id, 1)
CHANGES(undo, )
CHANGES(redo, )

static void enter(void) {
    entered = fummidrake_enter(given.sheet, ENTRY(given));
    number = entered.number;
}

static void enter_on(void) {
    number = fummidrake_enter_on(&given.sheet, ENTRY(given)).number;
}

static void enter_tank(void) {
    tank_entered = fummidrake_enter_tank(given.sheet, TANK);
    number = tank_entered.number;
}

static void enter_tank_on(void) {
    number = fummidrake_enter_tank_on(&given.sheet, TANK).number;
}

static void open(void) {
    changed = fummidrake_open(LENGTH, VESSEL);
    number = changed.number;
}

static void counts(void) {
    counted = fummidrake_counts(given.sheet);
    number = 0;
}

static void counts_on(void) {
    size = fummidrake_counts_on(&given.sheet).undoable;
    number = 0;
}

static void report(void) {
    reported = fummidrake_report(given.sheet, 1);
    number = reported.number;
}

static void report_on(void) {
    number = fummidrake_report_on(&given.sheet, 1).number;
}

static void write(void) {
    written = fummidrake_write(given.sheet, 1, form, buffer, DAY, last());
    number = written.number;
}

static void write_on(void) {
    number = fummidrake_write_on(&given.sheet, 1, form, buffer, DAY, last()).number;
}

static void is_open(void) {
    number = fummidrake_is_open(given.sheet) ? 0 : 1;
}

static void tonnage_length(void) {
    number = fummidrake_tonnage_length(given.sheet) == LENGTH ? 0 : 1;
}

static void vessel(void) {
    number = fummidrake_vessel(given.sheet) == VESSEL ? 0 : 1;
}

static void standing_count(void) {
    size = fummidrake_standing_count(given.sheet);
    number = size == 200 ? 0 : 1;
}

static void space_at(void) {
    space = fummidrake_space_at(given.sheet, 199);
    number = space.id == 200 ? 0 : 1;
}

static void stations(void) {
    number = fummidrake_stations(1, LENGTH, LENGTH) == STATIONS ? 0 : 1;
}

static void breadths_at_station(void) {
    number = fummidrake_breadths_at_station(1, 1700) == 7 ? 0 : 1;
}

static void lay_out(void) {
    laid_out = fummidrake_lay_out(LENGTH, LENGTH, TANK_LENGTH, TANK_FORE);
    number = laid_out.sections == SECTIONS ? 0 : 1;
}

static void section_station(void) {
    number = fummidrake_section_station(LENGTH, LENGTH, TANK_LENGTH, TANK_FORE, SECTIONS - 1) == STATIONS ? 0 : 1;
}

static void read(void) {
    reading = fummidrake_read(days[form - 1], DAY);
    number = reading.number;
}

static void read_before(void) {
    reading = fummidrake_read_before(days[form - 1], DAY, DAY);
    number = reading.number;
}

/* To either form: the greater counts. */
static void move_last(void) {
    number = 0;
    for (uint8_t to = 1; to <= 2; to++) {
        moved = fummidrake_move_last(days[form - 1], DAY, to, buffer, DAY, 0);
        number |= moved.number;
    }
}

static void list(void) {
    listing = fummidrake_list(days[form - 1], DAY);
    number = listing.text[0] == 'L' ? 0 : 1;
}

#define ROW(name, stated) {#name, name, name, stated}
#define ROW_ON(name, stated) {#name, name, name##_on, stated}

static const struct {
    const char *name;
    void (*by_value)(void), (*in_place)(void);
    size_t stated;
} calls[] = {
    ROW(open, FUMMIDRAKE_STACK_OPEN),
    ROW_ON(enter, FUMMIDRAKE_STACK_ENTER),
    ROW_ON(enter_tank, FUMMIDRAKE_STACK_ENTER_TANK),
    ROW_ON(withdraw, FUMMIDRAKE_STACK_WITHDRAW),
    ROW_ON(mark, FUMMIDRAKE_STACK_MARK),
    ROW_ON(undo, FUMMIDRAKE_STACK_UNDO),
    ROW_ON(redo, FUMMIDRAKE_STACK_REDO),
    ROW_ON(counts, FUMMIDRAKE_STACK_COUNTS),
    ROW_ON(report, FUMMIDRAKE_STACK_REPORT),
    ROW(is_open, FUMMIDRAKE_STACK_IS_OPEN),
    ROW(tonnage_length, FUMMIDRAKE_STACK_TONNAGE_LENGTH),
    ROW(vessel, FUMMIDRAKE_STACK_VESSEL),
    ROW(standing_count, FUMMIDRAKE_STACK_STANDING_COUNT),
    ROW(space_at, FUMMIDRAKE_STACK_SPACE_AT),
    ROW(stations, FUMMIDRAKE_STACK_STATIONS),
    ROW(breadths_at_station, FUMMIDRAKE_STACK_BREADTHS_AT_STATION),
    ROW(lay_out, FUMMIDRAKE_STACK_LAY_OUT),
    ROW(section_station, FUMMIDRAKE_STACK_SECTION_STATION),
    ROW_ON(write, FUMMIDRAKE_STACK_WRITE),
    ROW(read, FUMMIDRAKE_STACK_READ),
    ROW(read_before, FUMMIDRAKE_STACK_READ_BEFORE),
    ROW(move_last, FUMMIDRAKE_STACK_MOVE_LAST),
    ROW(list, FUMMIDRAKE_STACK_LIST),
};

/* The painted stack */

static uint8_t stack[1 << 20];
static uint8_t *first_used;
static void (*call)(void);

static void make_call(void) {
    first_used = __builtin_frame_address(0);
    call();
}

/* The bytes of stack that a call takes; on the painted one nothing else runs. */
static size_t taken_by(void (*made)(void)) {
    static ucontext_t here, there;
    call = made;
    memset(stack, PAINT, sizeof stack);
    getcontext(&there);
    there.uc_stack.ss_sp = stack;
    there.uc_stack.ss_size = sizeof stack;
    there.uc_link = &here;
    makecontext(&there, make_call, 0);
    swapcontext(&here, &there);
    size_t untouched = 0;
    while (stack[untouched] == PAINT)
        untouched++;
    return (size_t)(first_used - (stack + untouched));
}

/* The inputs */

/* What an entry is made of: as high and as broad at every station. */
static input entering(fummidrake_sheet sheet, fummidrake_entry entry, uint32_t height, uint32_t breadth) {
    input made = {.sheet = sheet, .entry = entry, .id = 1};
    made.heights_count = fummidrake_stations(entry.kind, LENGTH, entry.length);
    made.breadths_count = made.heights_count * fummidrake_breadths_at_station(entry.kind, height);
    for (size_t i = 0; i < STATIONS; i++)
        made.heights[i] = height;
    for (size_t i = 0; i < ALL_BREADTHS; i++)
        made.breadths[i] = breadth;
    return made;
}

static void answers(uint8_t expected, uint8_t answered) {
    if (answered == expected)
        return;
    printf("tools/stack.c: a call of the set-up answers %d, not %d\n", answered, expected);
    exit(1);
}

static void accepted(uint8_t answered) {
    answers(0, answered);
}

/* The number of the entry, by which the input's own sheet stays as it is. */
static uint8_t number_of(input made) {
    return fummidrake_enter_on(&made.sheet, ENTRY(made)).number;
}

/* The space with an id: a superstructure, the U, a superstructure with a chain of rooms, and in the lowest of these, 9, the others. */
static input entering_space(fummidrake_sheet sheet, uint16_t id) {
    if (id == 2)
        return entering(sheet, (fummidrake_entry){id, 0, 1, 0, UPRIGHT, UPRIGHT, 0, LENGTH}, 1700, 500);
    if (id <= 3)
        return entering(sheet, (fummidrake_entry){id, 0, 3, 0, 0, 0, 0, 300}, 933, 1000);
    if (id <= 9)
        return entering(sheet, (fummidrake_entry){id, (uint16_t)(id - 1), 5, 0, 0, 0, 0, 500}, 500, 1000);
    return entering(sheet, (fummidrake_entry){id, 9, 5, 1, 0, 0, 0, 100}, 100, 100);
}

/* A sheet of so many spaces, with a vessel number, and with a deck for each of them if that isn't 0. */
static fummidrake_sheet sheet_of(uint16_t count, uint32_t vessel_number) {
    fummidrake_sheet sheet = fummidrake_open(LENGTH, vessel_number).sheet;
    for (uint16_t id = 1; id <= count; id++) {
        input next = entering_space(sheet, id);
        next.entry.deck = (uint8_t)(vessel_number ? id % 100 : 0);
        accepted(fummidrake_enter_on(&sheet, ENTRY(next)).number);
    }
    return sheet;
}

enum { ROOMS = 9, INPUTS = ROOMS + 3 };
static input inputs[INPUTS];

/* The U entered where it was withdrawn: upright; pointed at both ends, with no depth there; the same with area at the aft end. */
static void set_up_under_decks(fummidrake_sheet sheet) {
    accepted(fummidrake_withdraw_on(&sheet, 2));
    input *upright = &inputs[ROOMS], *pointed = upright + 1, *with_area = upright + 2;
    *upright = *pointed = entering_space(sheet, 2);
    pointed->entry.fore_end = pointed->entry.aft_end = POINTED;
    pointed->heights[0] = pointed->heights[STATIONS - 1] = 0;
    *with_area = *pointed;
    with_area->heights[STATIONS - 1] = upright->heights[STATIONS - 1];
    accepted(number_of(*upright));
    accepted(number_of(*pointed));
    answers(19, number_of(*with_area));
}

static void set_up(void) {
    for (size_t i = 0; i < SECTIONS; i++)
        section_depths[i] = 1500;
    for (size_t i = 0; i < SECTION_BREADTHS; i++)
        section_breadths[i] = 400;
    fummidrake_sheet full = sheet_of(200, 0), fewer = sheet_of(199, 0), numbered = sheet_of(200, VESSEL), ring = full;
    fummidrake_sheet withdrawn = full, marked = full, closed = fummidrake_open(0, 0).sheet;
    accepted(fummidrake_withdraw_on(&withdrawn, 1));
    accepted(fummidrake_mark_on(&marked, 200, 0));
    fummidrake_sheet undone = withdrawn;
    accepted(fummidrake_undo_on(&undone));
    ring.spaces[2].kind = 5;
    ring.spaces[2].within = 9;
    fummidrake_sheet sheets[ROOMS] = {full, full, fewer, withdrawn, undone, marked, ring, closed, numbered};
    for (size_t i = 0; i < ROOMS; i++) {
        inputs[i] = entering_space(sheets[i], 200);
        inputs[i].id = i % 2 ? 200 : 1;
    }
    set_up_under_decks(full);
    for (form = 1; form <= 2; form++)
        accepted(fummidrake_write_on(&full, 1, form, days[form - 1], DAY, last()).number);
}

/* The most that a call takes on any of the inputs in a form, of which it must accept one. */
static size_t most(size_t which) {
    size_t greatest = 0;
    bool once = false;
    for (size_t i = 0; i < INPUTS; i++)
        for (int in_place = 0; in_place < 2; in_place++) {
            given = inputs[i];
            size_t taken = taken_by(in_place ? calls[which].in_place : calls[which].by_value);
            greatest = taken > greatest ? taken : greatest;
            once = once || number == 0;
        }
    if (!once)
        printf("tools/stack.c: no %s is accepted in form %d\n", calls[which].name, form);
    return once ? greatest : sizeof stack;
}

static size_t most_in_any_form(size_t which) {
    size_t greatest = 0;
    for (form = 1; form <= 2; form++) {
        size_t taken = most(which);
        greatest = taken > greatest ? taken : greatest;
    }
    return greatest;
}

int main(int words, char **word) {
    int faults = 0;
    set_up();
    for (size_t i = 0; i < sizeof calls / sizeof calls[0]; i++) {
        size_t taken = most_in_any_form(i);
        if (words > 1 && strcmp(word[1], "-v") == 0)
            printf("%-20s %6zu of %6zu bytes\n", calls[i].name, taken, calls[i].stated);
        if (taken > calls[i].stated) {
            printf("fummidrake_%s takes %zu bytes of stack, and the header says %zu\n", calls[i].name, taken, calls[i].stated);
            faults = 1;
        }
    }
    return faults;
}
