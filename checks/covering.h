/* What the files of covering.c share: the script that is run, choices that depend on it, and what must hold. */
#ifndef COVERING_H
#define COVERING_H

#include "engines.h"

enum { CHOICES = 5, LONGEST = 1 << 16, LINES = 1 << 16 };

/* The bytes of choices, and the script behind them. */
extern uint8_t script[LONGEST];

/* What both engines fill. */
extern uint8_t lines[2][LINES];

/* Ends the program, and says in what the engines differ, if they do. */
void must(int holds, const char *what);

/* A number below `most`, which the script chooses. */
uint32_t chosen(uint32_t most);

/* What a later choose_again makes `chosen` give once more. */
uint32_t choices_so_far(void);
void choose_again(uint32_t from);

/* The code of a gap: with a small ordinal, a great one, or one that is too great. */
uint32_t chosen_gap(void);

/* Runs the script in ample room, and then in rooms and with allowances that are just too small. Gives its peak. */
uint32_t tight_both(size_t count);

/* Runs strings that call many forms in the cells that they need, and in fewer and more. */
void exact_both(size_t count);

/* Gives trac_check and trac_trace_step too little memory for the script, in many places. */
void memories_both(size_t count);

/* Shows steps that wait for input, for room for output and for answers. */
void waiting_traces_both(size_t count, size_t cells);

/* Shows steps behind a million others. */
void late_steps_both(void);

/* Shows steps and ends of runs with memory that just doesn't suffice for their lines. */
void tight_traces_both(void);

/* Runs calls where an index of forms stands in the cells that they need. */
void indexed_rooms_both(void);

/* Saves the forms of both machines, and loads the image, changed or whole, into other machines and into these. */
void save_both(trac_machine *of_proved, trac_machine *of_c);

/* Calls arithmetic and functions of bit strings with numbers and strings of all lengths. */
void numbers_both(void);

/* Calls each function of trac.h with pointers, machines and numbers that it refuses. */
void refused_both(void);

#endif
