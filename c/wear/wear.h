/* The program wear as a function. */
#ifndef WEAR_WEAR_H
#define WEAR_WEAR_H

/* The words of a command line, its name first; the status. Wrong options end the program. */
int wear_main(int count, char **words);

#endif
