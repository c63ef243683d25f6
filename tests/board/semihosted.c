/*
 * The main of a program that is run on an emulated board. The program itself has an ordinary main, compiled with -Dmain=program_main; what it
 * prints and the status that it ends with go to the emulator by semihosting, newlib's own.
 */
#include <stdlib.h>

void initialise_monitor_handles(void);
int program_main(void);

/* Without it a fault would loop for ever. */
void fault(void)
{
    _Exit(2);
}

int main(void)
{
    initialise_monitor_handles();
    exit(program_main());
}
