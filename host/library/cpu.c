/* Prints the build of the library that a program on this machine uses. */
#include <stdio.h>

#include "thamrunlek.h"

int main(void) { return puts(tl_cpu()) < 0; }
