/* The groups of tests, in the order in which they run; the samples lie in `folder`. */
#ifndef GROUPS_H
#define GROUPS_H

void test_loads(const char *folder);
void test_samples(const char *folder);
void test_guide(void);
void test_notes(void);
void test_unseen(const char *folder);

#endif
