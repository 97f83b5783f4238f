/* What the tests in C share: expectations, and memory for large models. */
#ifndef EXPECT_H
#define EXPECT_H

#include <stdint.h>
#include <stdio.h>
#include <sys/mman.h>

static int passed, failed;

static void expect(int holds, const char *what, size_t which)
{
    if (holds) {
        passed++;
        return;
    }
    failed++;
    printf("failed: %s %lu\n", what, (unsigned long)which);
}

/* The exit status. */
static int told(void)
{
    printf("%d passed, %d failed\n", passed, failed);
    return failed != 0;
}

/* The system gives memory for a page of these only when something is written there. NULL where there are none. */
static uint8_t *zeros(size_t length)
{
    void *at = mmap(NULL, length, PROT_READ | PROT_WRITE, MAP_PRIVATE | MAP_ANONYMOUS | MAP_NORESERVE, -1, 0);
    return at == MAP_FAILED ? NULL : (uint8_t *)at;
}

#endif
