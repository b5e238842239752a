/*
 * How much stack leastplan_search and leastplan_ties take on the sheet with the deepest walk, leastplan_answer and leastplan_cnf_answer on
 * the same sheet as text and as a file, and leastplan_wcnf_write on it: 200 devices, the rule 1, then for each i from 1 to 199 a rule of
 * thirty-one times -i and then i + 1, so that every level is reached through the last entry of its rule.
 *
 * The call runs in a thread on a stack that was filled with a pattern; what is no longer the pattern was used. A thread that
 * calls nothing is measured too, and taken off. Then the search is run on stacks of falling size until one is too small.
 */
#define _GNU_SOURCE
#include "../include/leastplan.h"

#include <pthread.h>
#include <stdio.h>
#include <stdlib.h>
#include <string.h>
#include <sys/mman.h>
#include <sys/resource.h>
#include <sys/wait.h>
#include <unistd.h>

enum { MOST = 2 * 1024 * 1024, PATTERN = 0xa5 };

static int32_t words[16384];
static size_t count;
static uint8_t room[200];
static uint64_t numbers[4];
static char text[60000], file[60000];
static size_t length, file_length;
static uint8_t out[1024], wcnf[98741], plans[51200];
static uint64_t list_numbers[5];

static void deepest_sheet(void)
{
    words[count++] = 200;
    for (int v = 0; v < 200; v++)
        words[count++] = 1;
    words[count++] = 200;
    words[count++] = 1;
    words[count++] = 1;
    for (int i = 1; i < 200; i++) {
        words[count++] = 32;
        for (int j = 0; j < 31; j++)
            words[count++] = -i;
        words[count++] = i + 1;
    }
    for (size_t i = 0; i < count; i++)
        length += (size_t)sprintf(text + length, "%ld ", (long)words[i]);
}

/* The same rules, behind the counts of a file: the sheet's words from its first rule on, each width left out. */
static void deepest_file(void)
{
    file_length = (size_t)sprintf(file, "p cnf 200 200\n");
    for (size_t rule = 202; rule < count; rule += 1 + (size_t)words[rule]) {
        for (int j = 1; j <= words[rule]; j++)
            file_length += (size_t)sprintf(file + file_length, "%ld ", (long)words[rule + (size_t)j]);
        file_length += (size_t)sprintf(file + file_length, "0\n");
    }
}

static void *nothing(void *unused)
{
    return unused;
}

static void *call(void *unused)
{
    leastplan_search(words, count, 1000000, room, sizeof room, numbers);
    return unused;
}

static void *call_with_text(void *unused)
{
    leastplan_answer((const uint8_t *)text, length, out);
    return unused;
}

static void *call_with_file(void *unused)
{
    leastplan_cnf_answer((const uint8_t *)file, file_length, out);
    return unused;
}

static void *call_to_write(void *unused)
{
    leastplan_wcnf_write(words, count, 1, wcnf, sizeof wcnf, numbers);
    return unused;
}

static void *call_to_list(void *unused)
{
    leastplan_ties(words, count, 1000000, plans, sizeof plans, list_numbers);
    return unused;
}

static void stop(const char *why)
{
    puts(why);
    exit(1);
}

/* A stack of so many bytes, with a page below it that cannot be touched. */
static unsigned char *new_stack(size_t size)
{
    size_t page = (size_t)sysconf(_SC_PAGESIZE);
    unsigned char *at = mmap(NULL, page + size, PROT_READ | PROT_WRITE, MAP_PRIVATE | MAP_ANONYMOUS, -1, 0);
    if (at == MAP_FAILED || mprotect(at, page, PROT_NONE) != 0)
        stop("no memory for a stack");
    memset(at + page, PATTERN, size);
    return at + page;
}

static void run_on(unsigned char *stack, size_t size, void *(*f)(void *))
{
    pthread_attr_t how;
    pthread_t thread;
    if (pthread_attr_init(&how) != 0 || pthread_attr_setstack(&how, stack, size) != 0 || pthread_create(&thread, &how, f, NULL) != 0 ||
        pthread_join(thread, NULL) != 0)
        stop("no thread");
}

static size_t used(void *(*f)(void *))
{
    unsigned char *stack = new_stack(MOST);
    size_t untouched = 0;
    run_on(stack, MOST, f);
    while (untouched < MOST && stack[untouched] == PATTERN)
        untouched++;
    return MOST - untouched;
}

/* Whether the call ends on a stack of so many bytes. A process that runs out of stack says nothing and leaves no file. */
static int fits(size_t size)
{
    pid_t child = fork();
    int status;
    if (child < 0)
        stop("no process");
    if (child == 0) {
        const struct rlimit none = {0, 0};
        setrlimit(RLIMIT_CORE, &none);
        close(STDERR_FILENO);
        run_on(new_stack(size), size, call);
        _exit(0);
    }
    if (waitpid(child, &status, 0) != child)
        stop("no process");
    return WIFEXITED(status) && WEXITSTATUS(status) == 0;
}

int main(void)
{
    deepest_sheet();
    deepest_file();
    size_t thread = used(nothing), all = used(call);
    if (numbers[0] != 0 || numbers[1] != 200 || numbers[2] != 200 || numbers[3] != 201)
        stop("the deepest sheet has another answer");
    printf("the deepest walk, of %llu nodes: %zu bytes of stack (%zu with the thread's own %zu)\n", (unsigned long long)numbers[3], all - thread,
           all, thread);
    static const char reply[] = "least 200 200 201\nhold 1 2 3 ";
    size_t from_text = used(call_with_text);
    if (memcmp(out, reply, sizeof reply - 1) != 0)
        stop("the deepest sheet as text has another answer");
    memset(out, 0, sizeof out);
    size_t from_file = used(call_with_file);
    if (memcmp(out, reply, sizeof reply - 1) != 0)
        stop("the deepest sheet as a file has another answer");
    printf("from text to printed bytes: %zu bytes of stack, from a file: %zu\n", from_text - thread, from_file - thread);
    static const char start[] = "p wcnf 400 800 401\n401 1 0\n401 2 2 ";
    size_t to_write = used(call_to_write);
    if (numbers[0] != 0 || memcmp(wcnf, start, sizeof start - 1) != 0)
        stop("the deepest sheet has another WCNF text");
    printf("to WCNF text: %zu bytes of stack\n", to_write - thread);
    size_t to_list = used(call_to_list);
    if (list_numbers[0] != 0 || list_numbers[1] != 200 || list_numbers[2] != 200 || list_numbers[3] != 1 || list_numbers[4] != 201)
        stop("the deepest sheet has other ties");
    printf("to the list of ties: %zu bytes of stack\n", to_list - thread);
    fflush(stdout);
    size_t size = MOST;
    while (size > 16384 && fits(size / 2))
        size /= 2;
    printf("it ends on a stack of %zu bytes, thread included%s\n", size, size > 16384 ? ", and not on half of that" : "");
    return 0;
}
