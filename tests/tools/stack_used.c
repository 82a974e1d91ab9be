/* How much stack daa_read takes: it reads a text in a thread whose stack was filled with a pattern, and the answer and the bytes
 * that were written over are printed.
 *
 *     stack_used TEXT KILOBYTES
 */
#include "daidalus.h"

#include <pthread.h>
#include <stdio.h>
#include <stdlib.h>
#include <string.h>

enum { PATTERN = 0xC5 };

static uint8_t text[65537];
static size_t size;
static int32_t answer;
static struct daa_config config;

static void *run(void *unused) {
    answer = daa_read(text, size, &config);
    return unused;
}

int main(int words, char **word) {
    if (words != 3) return 2;
    FILE *file = fopen(word[1], "rb");
    if (!file) return 1;
    size = fread(text, 1, sizeof text, file);
    size_t room = (size_t)atol(word[2]) * 1024, clean = 0;
    uint8_t *stack = aligned_alloc(4096, room);
    pthread_attr_t how;
    pthread_t thread;
    if (!stack || pthread_attr_init(&how) || pthread_attr_setstack(&how, stack, room)) return 1;
    memset(stack, PATTERN, room);
    if (pthread_create(&thread, &how, run, NULL) || pthread_join(thread, NULL)) return 1;
    while (clean < room && stack[clean] == PATTERN) clean++;
    printf("%d %zu\n", (int)answer, room - clean);
    return 0;
}
