/* questions.h: random questions, damage of every kind, and a report of the refusals that came. */
#ifndef QUESTIONS_H
#define QUESTIONS_H

#include "trial.h"

/*
 * A random question of one call that is accepted, or whose layout touches or is not best, or whose
 * squares leave no layout. Its table, or the text to be read, stands until the next question.
 */
void sound_question(struct question *q, enum call call);

/*
 * First on an accepted job of n pads, or one whose squares leave no layout, by weights, by a table,
 * which stands until the next job, or on n to `most` slots; one of these, on p slots.
 */
void sound_job(struct question *q, size_t n, size_t most);
void sound_job_of(struct question *q, enum call call, size_t n, size_t p);

/* Changes one thing; the question may then deserve a refusal, or another. */
void damage(struct question *q);

/* How many entries a page has: room for none, or for some, exactly or with a remainder; n pads. */
size_t any_room(size_t n);

/* How many bytes are lent for a text: just enough for that of the question, or some more. */
size_t any_text_room(const struct question *q);

/* Gives the question, of Count or Place, a job with too many sheets. */
void plentiful_job(struct question *q);

/* A place, often one that there is: the first ones, the last, any; often one just past the last. */
uint64_t likely_place(const struct question *q);

/* Prints how often each refusal of a call came; each must have, 9 in both forms. By outcome. */
void report_refusals(const char *title, enum call call, const long *came);

#endif
