/* Words for a person: on a board by semihosting, elsewhere by the C library. */
#ifndef SAY_H
#define SAY_H

void say(const char *text);
void say_number(unsigned long number);

#endif
