/* The tank of ../tank.txt in C: an under-deck part with curved sides, and a tank in it that follows them. A line for each call: its
 * name and its answer. */
#include "fummidrake.h"

#include <stdio.h>

enum { LENGTH = 3600, TANK_LENGTH = 1200, TANK_FORE = 800, STATIONS = 7, SECTIONS = 4, BREADTHS = 5 };
/* An end where bow or stern is upright, as this barge's are: its section counts with the area it has. */
enum { UPRIGHT = 2 };

/* Prints the answer to a change: its number. */
static void answered(const char *call, uint8_t number) {
    printf("%s %d\n", call, number);
}

/* Prints the answer to an entry: beside the number what the rounding of the length did, of a U that of the depth at each station, and how
 * many enclosing spaces were visited. */
static void entered(fummidrake_entering_on answer) {
    size_t stations = answer.number == 0 ? STATIONS : 0;
    printf("enter %d %d ", answer.number, answer.roundings.length);
    for (size_t i = 0; i < stations; i++)
        printf("%s%d", i ? "," : "", answer.roundings.depths[i]);
    printf("%s %d\n", stations ? "" : "-", answer.visited);
}

/* Prints where a tank is measured: the number, its parts, and for each section the under-deck station. */
static void print_zones(uint32_t length, uint32_t fore) {
    fummidrake_laid_out laid_out = fummidrake_lay_out(LENGTH, LENGTH, length, fore);
    printf("zones %d %zu ", laid_out.number, laid_out.parts);
    for (size_t i = 0; i < laid_out.sections; i++)
        printf("%s%zu", i ? "," : "", fummidrake_section_station(LENGTH, LENGTH, length, fore, i));
    printf("%s\n", laid_out.sections ? "" : "-");
}

/* Prints what stands: open or not, the tonnage length, how many, the vessel number, and each space. */
static void print_spaces(const fummidrake_sheet *sheet) {
    size_t count = fummidrake_standing_count(*sheet);
    printf("spaces 0 %d %u %zu", fummidrake_is_open(*sheet), fummidrake_tonnage_length(*sheet), count);
    printf(" %u", fummidrake_vessel(*sheet));
    for (size_t place = 0; place < count; place++) {
        fummidrake_space x = fummidrake_space_at(*sheet, place);
        printf(" %d:%d:%d:%d:%u:%u:%d:%d", x.id, x.within, x.kind, x.standing, x.tonnage, x.length, x.m, x.deck);
    }
    printf("\n");
}

static void print_report(fummidrake_reported_on answer) {
    printf("report %d %llu %llu\n", answer.number, (unsigned long long)answer.gross, (unsigned long long)answer.net);
}

/* Enters the under-deck part: a depth and 5 breadths a station, from the bow, at each from above. */
static void enter_under_deck(fummidrake_sheet *sheet) {
    fummidrake_entry under_deck = {.id = 1, .kind = 1, .fore_end = UPRIGHT, .aft_end = UPRIGHT, .length = LENGTH};
    uint32_t depths[STATIONS] = {1200, 1200, 1200, 1200, 1200, 1200, 1200};
    uint32_t breadths[STATIONS * BREADTHS] = {
        400,  300,  200,  100,  0,   /* station 1 */
        1400, 1200, 1000, 600,  200, /* 2 */
        1800, 1600, 1400, 1000, 400, /* 3 */
        2000, 2000, 1800, 1400, 600, /* 4 */
        2000, 1800, 1600, 1200, 400, /* 5 */
        1600, 1400, 1200, 800,  200, /* 6 */
        1000, 800,  600,  300,  0,   /* 7 */
    };
    entered(fummidrake_enter_on(sheet, under_deck, depths, STATIONS, breadths, STATIONS * BREADTHS));
}

/* Enters a tank with so many breadths: a depth and 5 breadths a section are asked. Prints the number, and how many enclosing spaces were
 * visited. */
static void enter_tank(fummidrake_sheet *sheet, uint16_t id, size_t breadths_count) {
    fummidrake_tank tank = {.id = id, .within = 1, .standing = 2, .length = TANK_LENGTH, .fore = TANK_FORE};
    uint32_t depths[SECTIONS] = {600, 600, 600, 600};
    uint32_t breadths[SECTIONS * BREADTHS] = {
        1000, 800,  600,  400,  200, /* at 8 ft, inside station 2 */
        1400, 1200, 1000, 700,  400, /* at 14 ft, inside 3 */
        1800, 1600, 1400, 1000, 600, /* at 14 ft, inside 4 */
        1800, 1600, 1400, 1000, 600, /* at 20 ft, inside 4 */
    };
    fummidrake_tank_entering_on answer = fummidrake_enter_tank_on(sheet, tank, depths, SECTIONS, breadths, breadths_count);
    printf("tank %d %d\n", answer.number, answer.visited);
}

/* The tank is measured, entered and reported; another with a breadth missing, and one too long, are refused. */
static void measure(fummidrake_sheet *sheet) {
    enter_under_deck(sheet);
    print_zones(TANK_LENGTH, TANK_FORE);
    enter_tank(sheet, 2, SECTIONS * BREADTHS);
    enter_tank(sheet, 3, SECTIONS * BREADTHS - 1);
    print_zones(3000, TANK_FORE);
    print_spaces(sheet);
    print_report(fummidrake_report_on(sheet, 0));
}

/* On a sheet that came from a file the tank is struck out and entered again, which takes the under-deck part entered anew. */
static void measure_again(fummidrake_sheet *sheet) {
    print_spaces(sheet);
    answered("withdraw", fummidrake_withdraw_on(sheet, 2));
    enter_tank(sheet, 2, SECTIONS * BREADTHS);
    answered("withdraw", fummidrake_withdraw_on(sheet, 1));
    enter_under_deck(sheet);
    enter_tank(sheet, 2, SECTIONS * BREADTHS);
    print_spaces(sheet);
    print_report(fummidrake_report_on(sheet, 0));
}

int main(void) {
    fummidrake_changed opened = fummidrake_open(LENGTH, 0);
    answered("open", opened.number);
    fummidrake_sheet sheet = opened.sheet;
    measure(&sheet);

    uint8_t file[60] = {0};
    fummidrake_written_on written = fummidrake_write_on(&sheet, 0, 1, file, sizeof file, 0);
    printf("write %d %zu ", written.number, written.bytes);
    for (size_t i = 0; i < sizeof file; i++)
        printf("%02x", file[i]);
    printf("\n");
    fummidrake_reading reading = fummidrake_read(file, sizeof file);
    printf("read %d %zu %d %zu %d\n", reading.number, reading.position, reading.justified, reading.start, reading.form);
    measure_again(&reading.sheet);
    return 0;
}
