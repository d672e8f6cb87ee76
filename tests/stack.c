/* Measures the stack of the library's calls. Calls each function on a stack of its own that is filled with a5, looks how far down it was
 * altered, and prints the most bytes that a call took. The words are names of junction files; each is planned, its plan judged, its figures
 * and a delay asked for, and its plan shifted; and portable signals are worked out. Ends with status 1 where a call took GIVENDRA_STACK bytes or
 * more. */
#define _XOPEN_SOURCE 700
#include "givendra.h"
#include <stdio.h>
#include <string.h>
#include <ucontext.h>

static uint8_t junction[16385], plan[GIVENDRA_PLAN_LENGTH(16)], stack[4 * GIVENDRA_STACK];
static size_t length, plan_length;
static const struct givendra_approach approach = {600, 1800, 999};
static const struct givendra_count_record list[] = {{1, 9000, 0, 600, 1}, {2, 9000, 0, 600, 1}};

static void judge(void) { givendra_judge(junction, length, plan, plan_length); }
static void work_out(void) { plan_length = givendra_work_out(junction, length, plan, sizeof plan).size; }
static void read_junction(void) { givendra_read_junction(junction, length); }
static void intergreen(void) { givendra_intergreen(junction, length, 1, 2); }
static void need(void) { givendra_need(junction, length, 1, 100); }
static void saturation_flow(void) { givendra_saturation_flow(junction, length, 1); }
static void flow_ratio(void) { givendra_flow_ratio(junction, length, 1); }
static void delay(void) { givendra_delay(junction, length, plan, plan_length, 1); }
static void shift(void) { givendra_shift(junction, length, plan, plan_length, 1); }
static void newest_count(void) { givendra_newest_count(list, 2, 1, 9000, 1); }
static void portable(void) { givendra_portable(10, 40, approach, approach); }
static void release(void) { givendra_release(); }

/* The plan is worked out before it is judged. */
static void (*const calls[])(void) = {work_out, judge, read_junction, intergreen, need, saturation_flow, flow_ratio, delay, shift, newest_count,
                                      portable, release};

static ucontext_t here, there;
static void (*called)(void);
static const uint8_t *top;

/* What stands above this function's own local is not the call's. */
static void begin(void)
{
    uint8_t local = 0;
    top = &local;
    called();
}

/* The bytes of stack that a call takes, with what it takes to call it. */
static size_t taken(void (*call)(void))
{
    size_t untouched = 0;
    memset(stack, 0xa5, sizeof stack);
    getcontext(&there);
    there.uc_stack.ss_sp = stack;
    there.uc_stack.ss_size = sizeof stack;
    there.uc_link = &here;
    called = call;
    makecontext(&there, begin, 0);
    swapcontext(&here, &there);
    while (stack[untouched] == 0xa5)
        untouched++;
    return (size_t)(top - stack) - untouched;
}

int main(int argc, char **argv)
{
    size_t most = 0;
    for (int i = 1; i < argc; i++) {
        FILE *file = fopen(argv[i], "rb");
        if (!file)
            return perror(argv[i]), 2;
        length = fread(junction, 1, sizeof junction, file);
        fclose(file);
        for (size_t n = 0; n < sizeof calls / sizeof calls[0]; n++) {
            size_t bytes = taken(calls[n]);
            most = bytes > most ? bytes : most;
        }
    }
    printf("%zu\n", most);
    return most == 0 || most >= GIVENDRA_STACK;
}
