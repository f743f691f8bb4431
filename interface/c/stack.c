/* Measures how much stack each question takes: usage stack FILE.., which are instrument files.
 *
 * Each call runs on a thread whose stack is fresh memory, all 0, and the lowest byte that is not 0 afterwards tells how deep it went. Then
 * the deepest call of each question is made again and again in a process of its own, on threads with less and less stack, down to the least
 * multiple of STEP from which it comes back. */
#define _GNU_SOURCE
#include <pthread.h>
#include <stdio.h>
#include <stdlib.h>
#include <sys/mman.h>
#include <sys/wait.h>
#include <unistd.h>

#include "../pinthar.h"

#define ROOM ((size_t)32 << 20)
#define STEP ((size_t)64 << 10)
#define QUESTIONS 8
#define FILE_BYTES 49153 /* which the programs read of a file */

static const char *const names[QUESTIONS] = {"full_words", "mark_words", "class_names", "merged_words", "listing", "lookup", "verdict", "component"};

struct call {
    int question;
    const uint8_t *file;
    size_t size;
    uint32_t *words; /* 4,096 entries, not on the stack */
    uint64_t *marks; /* PINTHAR_MOST_MARKS entries, likewise */
    uint64_t result;
    uintptr_t top;
};

static void ask(struct call *c)
{
    switch (c->question) {
    case 0: c->result = pinthar_full_words(c->file, c->size, c->words, 4096); break;
    case 1: c->result = pinthar_mark_words(c->file, c->size, c->marks, PINTHAR_MOST_MARKS); break;
    case 2: c->result = pinthar_class_names(c->file, c->size, (uint8_t *)c->words, 4096); break;
    case 3: c->result = pinthar_merged_words(c->file, c->size, c->words, 4096); break;
    case 4: c->result = pinthar_listing(c->file, c->size, (uint8_t *)c->words, 4096); break;
    case 5: c->result = pinthar_lookup(c->file, c->size, 0, 0, 0, 0); break;
    case 6: c->result = pinthar_verdict(c->file, c->size); break;
    case 7: c->result = pinthar_component(c->file, c->size, 0); break;
    }
}

static void *on_thread(void *arg)
{
    struct call *c = arg;
    char here;
    c->top = (uintptr_t)&here;
    ask(c);
    return NULL;
}

static void run(struct call *c, pthread_attr_t *attr)
{
    pthread_t thread;
    if (pthread_create(&thread, attr, on_thread, c) != 0 || pthread_join(thread, NULL) != 0) {
        perror("thread");
        exit(1);
    }
}

/* How many bytes below the caller the call went. */
static size_t depth(struct call *c)
{
    char *stack = mmap(NULL, ROOM, PROT_READ | PROT_WRITE, MAP_PRIVATE | MAP_ANONYMOUS, -1, 0);
    pthread_attr_t attr;
    pthread_attr_init(&attr);
    if (stack == MAP_FAILED || pthread_attr_setstack(&attr, stack, ROOM) != 0) {
        perror("stack");
        exit(1);
    }
    run(c, &attr);
    uint64_t *low = (uint64_t *)stack;
    while (*low == 0)
        low++;
    size_t deep = c->top - (uintptr_t)low;
    pthread_attr_destroy(&attr);
    munmap(stack, ROOM);
    return deep;
}

/* Whether the call comes back from a thread with so many bytes. */
static int returns(struct call *c, size_t bytes)
{
    pid_t child = fork();
    if (child == 0) {
        pthread_attr_t attr;
        pthread_attr_init(&attr);
        pthread_attr_setstacksize(&attr, bytes);
        run(c, &attr);
        _exit(0);
    }
    int status = 1;
    waitpid(child, &status, 0);
    return status == 0;
}

/* The least multiple of STEP with which the call comes back, from PINTHAR_STACK down; 0 if that is not enough. */
static size_t least(struct call *c)
{
    size_t bytes = PINTHAR_STACK;
    if (!returns(c, bytes))
        return 0;
    while (bytes > STEP && returns(c, bytes - STEP))
        bytes -= STEP;
    return bytes;
}

static size_t load(const char *path, uint8_t file[FILE_BYTES])
{
    FILE *f = fopen(path, "rb");
    if (f == NULL) {
        perror(path);
        exit(1);
    }
    size_t size = fread(file, 1, FILE_BYTES, f);
    fclose(f);
    return size;
}

int main(int argc, char **argv)
{
    static uint8_t file[FILE_BYTES];
    uint32_t *words = calloc(4096, sizeof *words);
    uint64_t *marks = calloc(PINTHAR_MOST_MARKS, sizeof *marks);
    size_t deepest[QUESTIONS] = {0};
    int where[QUESTIONS] = {0};
    int accepted = 0, lost = 0;
    for (int i = 1; i < argc; i++) {
        struct call c = {.file = file, .size = load(argv[i], file), .words = words, .marks = marks};
        for (c.question = 0; c.question < QUESTIONS; c.question++) {
            size_t d = depth(&c);
            if (d > deepest[c.question]) {
                deepest[c.question] = d;
                where[c.question] = i;
            }
        }
        accepted += PINTHAR_REFUSAL(c.result) == 0;
    }
    for (int q = 0; q < QUESTIONS && argc > 1; q++) {
        struct call c = {.question = q, .file = file, .size = load(argv[where[q]], file), .words = words, .marks = marks};
        size_t bytes = least(&c);
        lost += bytes == 0;
        printf("%-12s %9zu bytes; least stack %9zu\n", names[q], deepest[q], bytes);
    }
    printf("%d files, %d accepted, %d questions lost with %zu bytes\n", argc - 1, accepted, lost, PINTHAR_STACK);
    return lost != 0;
}
