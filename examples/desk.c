/* Works out a plan for a junction file, prints it as the program plan does, judges it, and asks for an intergreen time and a level of service.
 * Where a second name is given, it saves the plan file in a new file of that name. Ends with status 1 where a plan is refused, and with 2 where
 * something fails. */
#include "givendra.h"
#include <stdio.h>

/* The status, where standard output took all that was printed. */
static int written(int status)
{
    return fflush(stdout) || ferror(stdout) ? (perror("standard output"), 2) : status;
}

static int refused(unsigned number, size_t place)
{
    printf("refused %u %zu: %s\n", number, place, givendra_refusal_text(number));
    return written(1);
}

/* The mode x leaves a file that is there as it is, so the junction file too. */
static int saved(const char *name, const uint8_t *plan, size_t size)
{
    FILE *file = fopen(name, "wbx");
    if (!file)
        return 0;
    size_t put = fwrite(plan, 1, size, file);
    return fclose(file) == 0 && put == size;
}

int main(int argc, char **argv)
{
    static uint8_t junction[16385], plan[GIVENDRA_PLAN_LENGTH(16)];
    if (givendra_release() != GIVENDRA_RELEASE)
        return fprintf(stderr, "desk: the library is of release %u, and the header of %u\n", givendra_release(), GIVENDRA_RELEASE), 2;
    if (argc != 2 && argc != 3)
        return fprintf(stderr, "usage: desk JUNCTION-FILE [NEW-PLAN-FILE]\n"), 2;
    FILE *file = fopen(argv[1], "rb");
    size_t length = file ? fread(junction, 1, sizeof junction, file) : 0;
    if (!file || ferror(file))
        return perror(argv[1]), 2;
    fclose(file);

    struct givendra_plan_answer worked = givendra_work_out(junction, length, plan, sizeof plan);
    if (worked.refusal)
        return refused(worked.refusal, worked.place);
    printf("cycle %u\n", worked.cycle);
    for (size_t stream = 1; GIVENDRA_PLAN_LENGTH(stream) <= worked.size; stream++) {
        struct givendra_green_times green = givendra_green(plan, worked.size, stream);
        printf("%zu %u %u\n", stream, green.start, green.length);
    }
    if (argc == 3 && !saved(argv[2], plan, worked.size))
        return perror(argv[2]), 2;

    struct givendra_judge_answer judged = givendra_judge(junction, length, plan, worked.size);
    if (judged.refusal)
        return refused(judged.refusal, judged.place);
    printf("accepted\n");
    printf("intergreen from 1 to 2: %u s\n", givendra_intergreen(junction, length, 1, 2).value);
    struct givendra_delay_answer delay = givendra_delay(junction, length, plan, worked.size, 1);
    if (delay.refusal)
        return refused(delay.refusal, delay.place);
    printf("level of service of stream 1: %c\n", delay.level);
    return written(0);
}
