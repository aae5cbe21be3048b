/* The barge's morning of ../barge.txt in C: the whole sheet of the paper is made, reported, written, read back, moved to form 2 and back
 * and listed, and another with a deck and a vessel number is written. A line for each call: its name and its answer. */
#include "fummidrake.h"

#include <stdio.h>

/* An end where bow or stern is upright, as this barge's are: its section counts with the area it has. */
enum { UPRIGHT = 2 };

/* Prints the answer to a change, an undo or a redo: its number. */
static void answered(const char *call, uint8_t number) {
    printf("%s %d\n", call, number);
}

/* Prints the answer to an entry: beside the number what the rounding of the length did, of a U that of the depth at each station, and how
 * many enclosing spaces were visited. */
static void entered(fummidrake_entering_on answer, size_t stations_of_u) {
    size_t depths = answer.number == 0 ? stations_of_u : 0;
    printf("enter %d %d ", answer.number, answer.roundings.length);
    for (size_t i = 0; i < depths; i++)
        printf("%s%d", i ? "," : "", answer.roundings.depths[i]);
    printf("%s %d\n", depths ? "" : "-", answer.visited);
}

/* Prints what stands: open or not, the tonnage length, how many, the vessel number, and each space. */
static void print_spaces(const fummidrake_sheet *sheet) {
    size_t count = fummidrake_standing_count(*sheet);
    printf("spaces 0 %d %u %zu", fummidrake_is_open(*sheet), fummidrake_tonnage_length(*sheet), count);
    printf(" %u", fummidrake_vessel(*sheet));
    for (size_t place = 0; place < count; place++) {
        fummidrake_space x = fummidrake_space_at(*sheet, place);
        printf(" %d:%d:%d:%d:%u:%u:%d:%d", x.id, x.within, x.kind, x.standing, x.tonnage, x.length, x.m, x.deck);
    }
    printf("\n");
}

static void print_report(fummidrake_reported_on answer) {
    printf("report %d %llu %llu\n", answer.number, (unsigned long long)answer.gross, (unsigned long long)answer.net);
}

/* Prints all bytes of a buffer, and ends the line. */
static void print_bytes(const uint8_t *buffer, size_t size) {
    for (size_t i = 0; i < size; i++)
        printf("%02x", buffer[i]);
    printf("\n");
}

/* Writes the sheet in a form into a buffer, from its beginning on. */
static void write_into(uint8_t *buffer, size_t size, uint8_t form, fummidrake_sheet *sheet) {
    fummidrake_written_on answer = fummidrake_write_on(sheet, 0, form, buffer, size, 0);
    printf("write %d %zu ", answer.number, answer.bytes);
    print_bytes(buffer, size);
}

static fummidrake_reading read_from(const uint8_t *file, size_t size) {
    fummidrake_reading answer = fummidrake_read(file, size);
    printf("read %d %zu %d %zu %d\n", answer.number, answer.position, answer.justified, answer.start, answer.form);
    return answer;
}

/* Moves the last sheet of a file into a buffer, from its beginning on, in a form. */
static void move_into(uint8_t *to, size_t to_size, uint8_t form, const uint8_t *from, size_t from_size) {
    fummidrake_moved answer = fummidrake_move_last(from, from_size, form, to, to_size, 0);
    printf("move %d %zu %zu ", answer.number, answer.bytes, answer.position);
    print_bytes(to, to_size);
}

static fummidrake_sheet open_sheet(uint32_t vessel) {
    fummidrake_changed opened = fummidrake_open(4800, vessel);
    answered("open", opened.number);
    return opened.sheet;
}

/* Enters the under-deck part: as many depths and breadths as the rules ask, at the most 17 stations with 7 breadths each. */
static void enter_under_deck(fummidrake_sheet *sheet, uint8_t deck) {
    fummidrake_entry under_deck = {
        .id = 1, .kind = 1, .fore_end = UPRIGHT, .aft_end = UPRIGHT, .deck = deck, .length = 4800,
    };
    uint32_t depths[17], breadths[17 * 7];
    size_t stations = fummidrake_stations(1, 4800, 4800);
    size_t all_breadths = stations * fummidrake_breadths_at_station(1, 1200);
    for (size_t i = 0; i < stations; i++)
        depths[i] = 1200;
    for (size_t i = 0; i < all_breadths; i++)
        breadths[i] = 2000;
    entered(fummidrake_enter_on(sheet, under_deck, depths, stations, breadths, all_breadths), stations);
}

/* Enters a hatchway or a room: one height, one breadth. */
static void enter_box(fummidrake_sheet *sheet, fummidrake_entry entry, uint32_t height, uint32_t breadth) {
    entered(fummidrake_enter_on(sheet, entry, &height, 1, &breadth, 1), 0);
}

/* Enters the five spaces of the sheet. */
static void enter_all(fummidrake_sheet *sheet) {
    enter_under_deck(sheet, 0);
    fummidrake_entry superstructure = {.id = 2, .kind = 3, .length = 1600};
    uint32_t heights[] = {800, 800, 800}, breadths[] = {1000, 1000, 1000};
    entered(fummidrake_enter_on(sheet, superstructure, heights, 3, breadths, 3), 0);
    fummidrake_entry ballast = {.id = 3, .within = 1, .kind = 5, .standing = 2, .length = 1000};
    enter_box(sheet, ballast, 400, 1000);
    fummidrake_entry deducted = {.id = 4, .within = 2, .kind = 5, .standing = 3, .length = 800};
    enter_box(sheet, deducted, 800, 500);
    fummidrake_entry hatchway = {.id = 5, .kind = 4, .length = 500};
    enter_box(sheet, hatchway, 500, 400);
}

/* The room 4 is struck out and put back, twice; two changes are refused. */
static void change_and_undo(fummidrake_sheet *sheet) {
    answered("withdraw", fummidrake_withdraw_on(sheet, 4));
    answered("undo", fummidrake_undo_on(sheet));
    answered("redo", fummidrake_redo_on(sheet));
    answered("undo", fummidrake_undo_on(sheet));
    answered("withdraw", fummidrake_withdraw_on(sheet, 2));
    answered("mark", fummidrake_mark_on(sheet, 5, 1));
}

/* Moves the file of 108 bytes up to form 2, and back; read in form 2 it is the same sheet. */
static void move_up_and_back(const uint8_t *file) {
    uint8_t up[132] = {0}, back[108] = {0};
    move_into(up, sizeof up, 2, file, sizeof back);
    move_into(back, sizeof back, 1, up, sizeof up);
    read_from(up, sizeof up);
}

/* A sheet with a deck and a vessel number: form 1 would lose them, and form 2 has them. */
static void write_with_numbers(void) {
    fummidrake_sheet sheet = open_sheet(1042);
    enter_under_deck(&sheet, 1);
    print_spaces(&sheet);
    uint8_t form_1[44] = {0}, form_2[52] = {0};
    write_into(form_1, sizeof form_1, 1, &sheet);
    write_into(form_2, sizeof form_2, 2, &sheet);
}

int main(void) {
    fummidrake_sheet sheet = open_sheet(0);
    enter_all(&sheet);
    change_and_undo(&sheet);
    print_spaces(&sheet);
    fummidrake_counted_on counted = fummidrake_counts_on(&sheet);
    printf("counts 0 %zu %zu\n", counted.undoable, counted.redoable);
    print_report(fummidrake_report_on(&sheet, 0));

    uint8_t file[108] = {0};
    write_into(file, sizeof file, 1, &sheet);
    fummidrake_reading reading = read_from(file, sizeof file);
    print_spaces(&reading.sheet);
    answered("undo", fummidrake_undo_on(&reading.sheet));
    print_report(fummidrake_report_on(&reading.sheet, reading.justified));
    move_up_and_back(file);
    write_with_numbers();

    fummidrake_listing listing = fummidrake_list(file, sizeof file);
    fwrite(listing.text, 1, listing.size, stdout);
    return 0;
}
