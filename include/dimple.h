/* The doors of the crate capi, for C, Rust and Python. Link libcapi.a (rt staticlib capi, x86-64 Linux) or target/libdimple.so,
 * which `make` builds of it. Lengths count doubles, or bytes for a sheet, an input, a page, marks and a name. Buffers must not overlap. No door keeps a pointer.
 * Answers: 0, or a number of document 01 or 02 (README.md has the table). 100 and up are the doors' own. */
#ifndef DIMPLE_H
#define DIMPLE_H

#include <stddef.h>
#include <stdint.h>

#ifdef __cplusplus
extern "C" {
#endif

/* Settles a landing. input: 240 bytes, then the sheet, as the program settle reads them: dt, stop_speed, roll_threshold, min_hop_height,
 * max_time, max_impacts (0 to 64) and step_limit (u64), the ball (12), density, the landing (time, pos, vel, spin), 8 bytes a field, little-endian.
 * contacts: 20 doubles a record (time, pos, normal, surface number, vel_in, vel_out, spin_in, spin_out).
 * points: 12 doubles a record (time, pos, vel, spin, phase: 0 hop, 1 slide, 2 roll, clearance: y less the course height at its x and z).
 * result, where it has room for 20, gets: answer; termination (0 none, 1 rest, 2 time, 3 impacts); contacts, points, steps; the final state
 * (time, pos, vel, spin); the rectangle (least x, greatest x, least z, greatest z); how many evaluations the root searches of its hops and slides made.
 * A longer result keeps its tail, a shorter one is untouched.
 * Answers: 0, 12, 8, 1 to 7, 20 to 23. */
uint32_t dimple_settle(const uint8_t *input, size_t input_len, double *contacts, size_t contacts_len,
                       double *points, size_t points_len, double *result, size_t result_len);

/* The second settle: as dimple_settle, but the spin fades in the air. After each hop step of length h it becomes the old spin times exp(-(0.04 * h)),
 * each component by the factor, before the step's state is tested; a step flies with the spin that it began with, and an arrival keeps that spin. */
uint32_t dimple_settle_fading(const uint8_t *input, size_t input_len, double *contacts, size_t contacts_len,
                              double *points, size_t points_len, double *result, size_t result_len);

/* Settles a landing as dimple_settle does, and prints a run that finished on the page (bytes in ASCII), in lines of exactly 60 bytes, the last a
 * line feed: a heading, the termination's word (rest, time, impacts) and spaces, then a line a contact: its number, from 1 (4 wide), time in
 * milliseconds (11), x, y, z in centimetres (14 each), right-aligned with spaces, then two spaces. Each value is the whole number nearest the
 * exact one, halves away from zero; a zero has no sign. Bytes past the last line stay.
 * Answers: those of dimple_settle, with the page untouched on each but 0, and 30: the page is shorter than 60 * (1 + contacts); it is untouched,
 * the result's first number is 30, and the lists and the rest of the result are the run's. */
uint32_t dimple_card(const uint8_t *input, size_t input_len, double *contacts, size_t contacts_len,
                     double *points, size_t points_len, double *result, size_t result_len, uint8_t *page, size_t page_len);

/* Where a ball must land so that it comes to rest near a spot. The landing of the input is tried with the velocities (i, -j, +0), i from 1 to
 * forward and, for each i, j from 1 to downward, in whole metres a second; all else stays as given. The first try counts whose settle has answer 0,
 * ends at rest and lies within the distance of the spot: dx * dx + dz * dz <= distance * distance in doubles. landing (10) gets that landing (time,
 * pos, vel, spin); result, contacts and points are those of its own settle, as dimple_settle gives them. Where none fits, the answer is 0 and the
 * landing, the result (as far as it is written) and both lists are all +0.
 * 100: landing is not 10 doubles, and nothing is touched. Then 12, 8, 1 to 7 as in dimple_settle (7 for the landing as it is given), then 35: forward or
 * downward is 0 or above 32, the distance is not from 0 to 10, or spot_x or spot_z is beyond 100,000. On these the lists are untouched, the landing
 * is ten +0 and the result the number and +0. A grid is at most 1024 settles: a large one takes seconds. */
uint32_t dimple_aim(const uint8_t *input, size_t input_len, double *contacts, size_t contacts_len, double *points, size_t points_len,
                    double spot_x, double spot_z, double distance, uint64_t forward, uint64_t downward,
                    double *result, size_t result_len, double *landing, size_t landing_len);

/* Holds the times that a bay heard (doubles, at most 256) against the times of the first count contacts of a contact list (20 doubles a record, the time
 * first; what follows them is not read). Both are walked from the front: fronts of which |heard - contact|, in doubles, is at most the tolerance are
 * paired, otherwise the earlier one is marked; a list left over is marked. marks (a byte each: 0 paired, 1 heard only, 2 computed only): those of the
 * heard times, then those of the contacts; bytes past these stay. The k-th heard time marked 0 goes with the k-th contact marked 0. totals (3): pairs,
 * heard only, computed only.
 * 100: totals is not 3 doubles, and nothing is touched. Then 8: the contact list is not whole records, or shorter than its count. 39: a heard or contact
 * time that is no number from 0 to 1,000,000 or lower than the one before in its list, or more than 256 heard. 40: the tolerance is not from 0 to 0.1.
 * 41: marks is shorter than heard times and contacts together. Tested in this order; on a number the marks are untouched and the totals three +0. */
uint32_t dimple_listen(const double *heard, size_t heard_len, const double *contacts, size_t contacts_len, uint64_t count, double tolerance,
                       uint8_t *marks, size_t marks_len, double *totals, size_t totals_len);

/* One ground step. physics: dt, stop_speed, roll_threshold (3). ball: 12. state: time, pos, vel, spin, phase (11).
 * The state is changed on answer 0 alone; the phase is written always, 0 on a number. 100: a length is not the one named, nothing is touched. */
uint32_t dimple_step(const uint8_t *sheet, size_t sheet_len, const double *physics, size_t physics_len,
                     const double *ball, size_t ball_len, double *state, size_t state_len);

/* One impact on the ground under the state. ball: 12. state: 10. Changed on answer 0 alone. 100 as above. */
uint32_t dimple_impact(const uint8_t *sheet, size_t sheet_len, const double *ball, size_t ball_len,
                       double *state, size_t state_len);

/* The height at a spot into height (1), or +0 with the number. 100 as above. */
uint32_t dimple_height(const uint8_t *sheet, size_t sheet_len, double x, double z, double *height, size_t height_len);

/* A board, 1539 doubles that the caller keeps: the pin's x and z, the count of entries, then 256 times shot number, bay, termination, contacts, x,
 * z. The doors alone write it.
 * 100: a length is not the one named. 101: the doubles are no board (the pin is not within 100,000, the count is no whole number from 0 to 256, a
 * shot number or a count of contacts is no whole number below 2^32, a bay is none of 0 to 7, a termination is none of 1 to 3, or of 0 to 3 past
 * the count, an x or z is not within 1,000,000; a NaN is none of these). On 100 and 101 nothing is touched. */

/* An empty board with this pin. 9: the pin is beyond 100,000; the board is then empty, with pin 0. */
uint32_t dimple_board_new(double pin_x, double pin_z, double *board, size_t board_len);

/* One entry more, for a bay from 0 to 7. termination: 1 rest, 2 time, 3 impacts, as in a result; contacts: the count of a result. Those at rest are
 * listed first, then by distance, then by fewer contacts, then by the shot number.
 * 102: no such termination. 31: the bay is above 7. 10: x or z is beyond 1,000,000. 25: the shot number is on the board. 24: this bay has used its
 * 32 entries, whatever the others have. They are tested in this order, after 100 and 101, and on each the board is unchanged. */
uint32_t dimple_board_enter(double *board, size_t board_len, uint32_t bay, uint32_t shot, uint32_t termination, uint32_t contacts,
                            double x, double z);

/* The shot number at a place, from 0, into shot (1). 26: past the last entry, with shot number 0. */
uint32_t dimple_board_place(const double *board, size_t board_len, uint64_t place, double *shot, size_t shot_len);

/* A shelf, 368 doubles that the caller keeps: 16 places of 23, each a name's length (0: a free place), 12 doubles for its bytes (those past its length
 * +0), then a state (10: time, pos, vel, spin). The doors alone write it. name: 1 to 12 bytes, each A to Z; its length counts bytes.
 * 100: a length is not the one named. 101: the doubles are no shelf (a length is no whole number from 0 to 12, a byte within it no whole number from 65
 * to 90 or one past it not 0, a kept state fails 22, a name is kept twice; what the state of a free place holds is not tested). On 100 and 101 nothing is
 * touched. Tested in the order 100, 101, 32, 22, 33 or 34. On a number the shelf is unchanged. */

/* An empty shelf. */
uint32_t dimple_shelf_new(double *shelf, size_t shelf_len);

/* Keeps the state (10) under the name, in place of one kept there before. 32: bad name. 22: a number of the state is not finite or is beyond 1,000,000.
 * 33: a new name with 16 kept. */
uint32_t dimple_shelf_save(double *shelf, size_t shelf_len, const uint8_t *name, size_t name_len, const double *state, size_t state_len);

/* The state last saved under the name and not dropped since into state (10). 32: bad name. 34: no such name. With 32 and 34 the state is ten +0. */
uint32_t dimple_shelf_return(const double *shelf, size_t shelf_len, const uint8_t *name, size_t name_len, double *state, size_t state_len);

/* Drops the name; its place is free again. 32: bad name. 34: no such name. */
uint32_t dimple_shelf_drop(double *shelf, size_t shelf_len, const uint8_t *name, size_t name_len);

#ifdef __cplusplus
}
#endif

#endif
