/* What the C tests share. Lent memory has exactly its length, so that a memory checker sees any access beyond it. */
#ifndef EXPECT_H
#define EXPECT_H

#include <shaftglimmer.h>

#include <stdlib.h>
#include <string.h>

void expect(const char *name, int holds);

/* Memory for this many values, with these values in it. */
uint32_t *lend(const uint32_t *values, size_t count);

/* The same with one value everywhere. */
uint32_t *lend_all(uint32_t value, size_t count);

/* The same with nothing set. */
uint32_t *lend_unset(size_t count);

/* Whether the memory holds these values, and it is given back. */
int holds(uint32_t *lent, const uint32_t *values, size_t count);

/* Whether it holds this value everywhere, and it is given back. */
int holds_all(uint32_t *lent, uint32_t value, size_t count);

/* The answer of a refusal, by its number. */
uint32_t refused(uint32_t number);

/* A shape with the standard slopes. */
shaftglimmer_shape standard(uint32_t q, uint32_t n, uint32_t b);

/* The groups. */
void lines(void);
void words(void);
void cells(void);
void pages(void);
void sessions(void);
void reports(void);

#endif
