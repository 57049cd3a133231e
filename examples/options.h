/* What stands on a command line: numbers in their range and names of a list, or a refusal in words. Each function says what is wrong on
 * standard error and gives -1, or gives 0. */
#ifndef OPTIONS_H
#define OPTIONS_H

/* A decimal number from least to most, and nothing else. `what` begins the refusal: "-s 1x: a station is a number from 1 to 99". */
int take_number(const char *option, const char *text, const char *what, long least, long most, long *number);

/* A line's speed, one of those that serial devices have. */
int take_baud(const char *text, long *baud);

/* A line's parity: N, E or O. */
int take_parity(const char *text, char *parity);

#endif
