/* What is said to the person at the command line. */
#ifndef GLASS_REPORT_H
#define GLASS_REPORT_H

enum { STATUS_GOOD = 0, STATUS_FAILED = 1, STATUS_USAGE = 2 };

/* One line on standard error, after "glass: ". */
__attribute__((format(printf, 1, 2))) void complain(const char *format, ...);

#endif
