#include <stdio.h>

#include "say.h"

void say(const char *text)
{
    fputs(text, stdout);
}

void say_number(unsigned long number)
{
    printf("%lu", number);
}
