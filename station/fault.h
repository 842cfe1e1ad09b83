/* What goes wrong, told on standard error, and the exit statuses beside the refusal numbers. */
#ifndef PEATLANTERN_FAULT_H
#define PEATLANTERN_FAULT_H

enum status {
    STATUS_DONE = 0,
    STATUS_WRONG_CALL = 64,
    STATUS_FILE = 74 /* a file cannot be read or written, or held in memory */
};

/* Says what is wrong in one line, after the program's name, and gives the status back. */
int fault(int status, const char *form, ...);

/* Says that there is not memory enough, and gives STATUS_FILE. */
int no_memory(void);

#endif
