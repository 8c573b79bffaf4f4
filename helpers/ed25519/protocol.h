/* The protocol that keri and its helper speak: verdicts on signatures, and signatures. */
#ifndef PROTOCOL_H
#define PROTOCOL_H

/* Answers the questions on standard input, in their order, until the input ends between two. Signs with the keys of the
   folder; without one, with none. So many threads verify besides (set_threads). What goes wrong ends the program, once
   the questions before it are answered. */
void serve(const char *folder, const char *threads);

#endif
