/*
 * How much stack a call takes: it is made in a thread whose stack was painted, and then the paint that is left is counted.
 *
 *     stack FILE..    prints the bytes for each file, and the most
 */
#define _GNU_SOURCE
#include "vividlawn.h"

#include <pthread.h>
#include <stdio.h>
#include <stdlib.h>
#include <string.h>
#include <sys/mman.h>

#define STACK (1024 * 1024)
#define PAINT 0xA5

struct call {
    uint8_t model[65536];
    size_t len;
    uint8_t output[VIVIDLAWN_LONGEST_REPORT];
    int64_t answer;
    uint8_t *caller;
};

/* No inlining, so that what is counted begins at the call. */
static __attribute__((noinline)) void make(struct call *call)
{
    call->caller = __builtin_frame_address(0);
    call->answer = vividlawn_analyse(call->model, call->len, call->output, sizeof call->output);
}

static void *in_thread(void *call)
{
    make(call);
    return NULL;
}

static size_t taken(struct call *call)
{
    uint8_t *stack = mmap(NULL, STACK, PROT_READ | PROT_WRITE, MAP_PRIVATE | MAP_ANONYMOUS, -1, 0);
    pthread_attr_t attr;
    pthread_t thread;
    size_t left = 0;
    size_t used;

    if (stack == MAP_FAILED)
        exit(2);
    memset(stack, PAINT, STACK);
    if (pthread_attr_init(&attr) != 0 || pthread_attr_setstack(&attr, stack, STACK) != 0 || pthread_create(&thread, &attr, in_thread, call) != 0)
        exit(2);
    pthread_join(thread, NULL);
    pthread_attr_destroy(&attr);
    while (stack[left] == PAINT)
        left++;
    used = (size_t)(call->caller - (stack + left));
    munmap(stack, STACK);
    return used;
}

int main(int argc, char **argv)
{
    static struct call call;
    size_t most = 0;

    for (int i = 1; i < argc; i++) {
        FILE *file = fopen(argv[i], "rb");
        size_t used;

        if (file == NULL)
            return 2;
        call.len = fread(call.model, 1, sizeof call.model, file);
        fclose(file);
        used = taken(&call);
        printf("%zu bytes: %s, answer %lld\n", used, argv[i], (long long)call.answer);
        if (used > most)
            most = used;
    }
    printf("%zu bytes at most\n", most);
    return 0;
}
