/* The groups of tests, in the order in which they run; the samples lie in `folder`. */
#ifndef GROUPS_H
#define GROUPS_H

#include "common.h"

void test_load(const char *folder);
void test_queries(const char *folder);
void test_walks(const char *folder);
void test_names(void);
void test_writes(const char *folder);
void test_depths(const char *folder);
void test_index(void);
void test_lists(const char *folder);
void test_header(const char *folder);
void test_pages(const char *folder);
void test_targets(void);
void test_counts(const char *folder);
void test_texts(void);
void test_structs(const char *folder);

#endif
