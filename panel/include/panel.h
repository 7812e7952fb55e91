/* The AP-101S floating desk for the bench panel: link with libpanel.a (`panel/library`).
 *
 * Every function takes any content and any lengths that its types allow, and answers 0 or one of the numbers of
 * docs/HANDBOOK.md, 'When it stops'. A refused step, back step, text or piece of the chart leaves the state and every
 * buffer as they were; a run that is stopped keeps the steps that it took before. panel_stretch leaves state and buffers as
 * they were whatever it answers, but for journal words past the used count, which may differ after a 21, too. What a call
 * answers comes back by value. A pointer with length 0 may be anything that is aligned; no two lent buffers overlap. Nothing
 * is kept between calls.
 */
#ifndef PANEL_H
#define PANEL_H

#include <stddef.h>
#include <stdint.h>

typedef struct {
    uint32_t condition; /* condition code: 0, 1 or 3 */
    uint32_t mask;      /* underflow mask: 0 or 1 */
    uint16_t pointer;   /* the order that comes next */
    uint16_t selector;  /* the set of general registers in use: 0 or 1 */
} panel_status;

/* What one user's orders see. A fresh one is all zero. */
typedef struct {
    uint32_t floats[8]; /* float registers */
    panel_status status;
    uint32_t generals[2][8]; /* general registers: two sets of eight */
} panel_registers;

/* Two seats at one memory, deck, protect list and journal. */
typedef struct {
    panel_registers seats[2];
    uint32_t used; /* records of the journal in use, of both seats */
} panel_state;

/* What a run, a back step or a reading answers. */
typedef struct {
    uint32_t number; /* 0, or the number of the stop or refusal */
    uint32_t value;  /* a run's steps taken; the seat whose step a back step took back, 0 on its refusal; a reading's order
                        count, or the line of its refusal */
} panel_answer;

/* What panel_why answers. Values past the count are 0. */
typedef struct {
    uint32_t number;    /* the stop that panel_step would answer if it is 1 to 11 or 20, else 18 */
    uint32_t count;     /* how many values it names */
    uint32_t values[4]; /* 5: the cell, 0 code, 1 r1, 2 r2, 3 at; 6, 7: the address; 8 to 11: the operands' words */
} panel_cause;

/* What panel_chart answers. On a refusal both counts are 0. */
typedef struct {
    uint32_t number;  /* 0, or 19 */
    uint32_t total;   /* how many orders the chart has */
    uint32_t written; /* how many of them were written */
} panel_piece;

/* What panel_unset answers. Where nothing is found, order, kind and reg are 0. */
typedef struct {
    uint32_t number; /* 0, 1 or 5 */
    uint32_t found;  /* 1 if some order reads a register that may not be set, else 0 */
    uint32_t order;  /* the lowest such order, counted from 0 */
    uint32_t kind;   /* of the register: 0 float, 1 general of set 0, 2 general of set 1 */
    uint32_t reg;    /* its number, 0 to 7 */
} panel_finding;

/* What panel_stretch answers. On a refusal first, last and stop are 0. */
typedef struct {
    uint32_t number; /* 0, 1, 2, 3, 20 or 21 */
    uint32_t first;  /* the order that the stretch begins with, counted from 0 */
    uint32_t last;   /* the order that it ends with, which is stopped */
    uint32_t stop;   /* by what: 6 to 11 */
} panel_interval;

/* Makes the state fresh. Returns nothing. */
void panel_fresh(panel_state *state);

/* Takes one step of a seat, 0 or 1; any other is a 20, before all other checks. Returns 0, or the number of the stop (1 to
 * 13, 20); a stop leaves everything as it was. A step changes no register, selector, condition code, mask or pointer of the
 * other seat, but check 3 looks at both, whichever steps.
 * deck: four cells an order (code, r1, r2, at), deck_cells of them. Every general register that an order names, an index
 * too, is of the seat's selected set, and the other set keeps its contents; SET (code 35) selects set r2, 0 or 1. The storage
 * operand of an order that has one is at `at`, and r2 from 1 to 7 adds the lower halfword of that general register to it;
 * the sum is not wrapped, so 65,536 and more are past memory's end (6). protect: one bit a halfword of memory, set if the
 * halfword is protected: address a is bit a % 8 of byte a / 8, the lowest bit being bit 0. protect_bytes is
 * memory_halfwords / 8 rounded up, and nothing else (2); bits past memory's end may be anything and change no answer.
 * journal: four words a record; a record names the seat that stepped. */
uint8_t panel_step(panel_state *state, uint32_t seat, const uint16_t *deck, size_t deck_cells, uint16_t *memory,
                   size_t memory_halfwords, const uint8_t *protect, size_t protect_bytes, uint32_t *journal,
                   size_t journal_words);

/* Steps of a seat until `limit` steps are taken or one is stopped. The number is 0, or the stop's (1 to 13, 20); the value is
 * the steps taken. The stopped step leaves everything, earlier steps stand. A limit of 0 still makes checks 20 and 1 to 3. */
panel_answer panel_run(panel_state *state, uint32_t seat, const uint16_t *deck, size_t deck_cells, uint16_t *memory,
                       size_t memory_halfwords, const uint8_t *protect, size_t protect_bytes, uint32_t *journal,
                       size_t journal_words, uint32_t limit);

/* Takes the last step back, whichever seat's it was: the value is that seat, whose registers are put back. The set that the
 * record names is selected again, and a general register in it is of that set. The number is 0, or 2, 3, 14 or 15; a refusal
 * leaves everything as it was, and its value is 0. */
panel_answer panel_back(panel_state *state, uint16_t *memory, size_t memory_halfwords, const uint8_t *protect,
                        size_t protect_bytes, uint32_t *journal, size_t journal_words);

/* Why panel_step would be stopped; it takes what a step takes, and writes nothing. The number is 1 to 11 or 20 as for a step:
 * 5 with the first of code, r1, r2 and at that breaks the check, 6 with the lowest absent address of the storage operand,
 * 7 with its lowest protected one, 8 to 11 with the words of the operands that the order reads, the first operand's before
 * the second's: two for a short order, four for a long one, R r2's alone for CVFX. It is 18 where none of these stops the
 * step: it would be taken, or is a HALT (12), or the journal is full (13). */
panel_cause panel_why(const panel_state *state, uint32_t seat, const uint16_t *deck, size_t deck_cells,
                      const uint16_t *memory, size_t memory_halfwords, const uint8_t *protect, size_t protect_bytes,
                      const uint32_t *journal, size_t journal_words);

/* Reads a deck text into cells, memory and protect list. The number is 0 and the value the order count, or the number is
 * 16 or 17 and the value the line; a refused text writes nothing. A memory line sets or clears the bit of its address
 * and leaves the other bits of the byte; it is a 17 where that byte is not there. */
panel_answer panel_read(const uint8_t *text, size_t text_bytes, uint16_t *cells, size_t cells_count, uint16_t *memory,
                        size_t memory_halfwords, uint8_t *protect, size_t protect_bytes);

/* Writes a piece of the chart of legal orders into cells, from the front, four cells an order (code, r1, r2, at): every
 * order that passes check 5 with `at` below bound where it is in use, each once, rising by code, then r1, r2, at. The piece
 * begins at rank, counted from 0, and ends with the chart or where the cells are full; from the total on it is empty. Cells
 * past it stay. The number is 0, or 19 where cells_count is no multiple of 4; then nothing is written. The time is that of
 * the orders written, wherever the piece begins. */
panel_piece panel_chart(uint16_t bound, uint32_t rank, uint16_t *cells, size_t cells_count);

/* Finds the lowest order of a deck that reads a float or general register which some path from order 0 reaches without
 * having written it, and names the register: floats first, then set 0, then set 1, lowest number first. A path takes each JC
 * and JN either way, whatever JC's mask, and goes on past orders that would be stopped by 6 to 11; HALT and the deck's end
 * end it. The selector is 0 at order 0 and follows each SET on the path. Pairs count both members, index registers count, and
 * JN reads its register before it writes it. The number is 0, or 1 for a deck of the wrong size, or 5 where some order is not
 * legal, reached or not; then nothing is found. It writes nothing, and needs more stack than the others: docs/PANEL.md. */
panel_finding panel_unset(const uint16_t *deck, size_t deck_cells);

/* Finds the shortest stretch of orders that still stops. It takes what a step takes. The run of the seat from the given state
 * is stopped at some order by 6 to 11: a stretch is the orders from a first one, no earlier than the seat's pointer, to that
 * one, if a run from the same state and memory with only the seat's pointer moved to the first takes all of them before the
 * last and is stopped there by the same number. The one with the highest first order is answered; the whole run is always
 * one of them. The number is 0, or 20, 1, 2 or 3 as for a step, or after these 21: an order of the deck has the code of JC or
 * JN, reached or not and whatever its other cells are, or the run ends by anything but 6 to 11, which is 4, 5, 12 or 13.
 * The trials are made on the lent memory and journal and taken back: the state is only read, and memory and the journal's
 * words below four times the used count are as they were. The journal's words from there on are free: they may hold anything
 * after a 0 or a 21. On 20, 1, 2 and 3 nothing is written. */
panel_interval panel_stretch(const panel_state *state, uint32_t seat, const uint16_t *deck, size_t deck_cells,
                             uint16_t *memory, size_t memory_halfwords, const uint8_t *protect, size_t protect_bytes,
                             uint32_t *journal, size_t journal_words);

#endif
