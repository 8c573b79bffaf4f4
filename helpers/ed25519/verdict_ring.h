/* Questions for verdicts, which several threads answer, in the order in which they were read. One thread reads, and calls
   these functions. */
#ifndef VERDICT_RING_H
#define VERDICT_RING_H

#include "question.h"

/* How many threads are to verify besides the one that reads, in decimal; NULL says one for each processor but one. They
   are started once they are of use. Another text ends the program with WORDS. */
void set_threads(const char *count);

/* Room for the next question, once there is some. */
struct question *room_for_question(void);

/* Has the question verified that was read there: by this thread where no other one waits, else by any. */
void give_out(void);

/* Waits until all that were given out are answered. */
void answer_all(void);

#endif
