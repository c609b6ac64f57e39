/* What became of what was given; the worst of all is the exit status. */
#ifndef STATUS_H
#define STATUS_H

enum status { ACCEPTED = 0, REFUSED = 1, NOT_READ = 2 };

static inline enum status worse(enum status a, enum status b) { return a > b ? a : b; }

#endif
