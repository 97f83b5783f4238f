/* Writes an operator list to standard output: operators DOMAIN LOWEST HIGHEST ...   The empty domain is ai.onnx. */
#include "onnx_gate.h"

#include <stdio.h>
#include <stdlib.h>
#include <string.h>

static uint8_t list[65536] = {0, 0, 0, 1, 1};

/* so many bytes of a number, the highest first; returns where the next ones go */
static uint8_t *put(uint8_t *at, size_t bytes, size_t number)
{
    while (bytes-- > 0)
        *at++ = (uint8_t)(number >> 8 * bytes);
    return at;
}

/* puts an entry behind the `length` bytes that the list has; returns how many it has then */
static size_t add(size_t length, const char *domain, uint32_t lowest, uint32_t highest)
{
    uint8_t *at = put(list + length, 2, strlen(domain) + 8);
    memcpy(at, domain, strlen(domain));
    at = put(at + strlen(domain), 4, lowest);
    at = put(at, 4, highest);
    put(list, 4, (size_t)(at - list) - 4);
    return (size_t)(at - list);
}

/* what is no version is 0, which makes the list unsound */
static uint32_t version(const char *word)
{
    char *end;
    unsigned long long number = strtoull(word, &end, 10);
    return *end == 0 && number <= UINT32_MAX ? (uint32_t)number : 0;
}

int main(int argc, char **argv)
{
    size_t length = 5;
    int i;
    for (i = 1; i + 2 < argc && strlen(argv[i]) + 10 <= sizeof list - length; i += 3)
        length = add(length, argv[i], version(argv[i + 1]), version(argv[i + 2]));
    if (i != argc || onnx_gate_check(NULL, 0, list, length, NULL, 0).refusal == ONNX_GATE_LIST_UNSOUND) {
        fprintf(stderr, "usage: operators DOMAIN LOWEST HIGHEST ...   each domain once, 1 <= LOWEST <= HIGHEST\n");
        return 2;
    }
    return fwrite(list, 1, length, stdout) != length || fflush(stdout) != 0;
}
