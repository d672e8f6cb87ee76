/* Calls every function of include/givendra.h and prints every member of its answers. tests/library.sh compiles it as C and as C++ and compares
 * what each prints with tests/header.txt, whose lines are worked out by hand from documents 01 and 02 and the annex's tables. It also runs each under
 * valgrind. */
#include "givendra.h"
#include <stdio.h>
#include <stdlib.h>
#include <string.h>

struct file {
    const char *name;
    const uint8_t *bytes;
    size_t length;
};

#define LENGTH(array) (sizeof(array) / sizeof((array)[0]))

/* Document 01's whole case on the design day 9000, field by field: each with its offset. Its heading and its count are of period 1. */
#define HEADING(period) 0x01, 0x00, 0x05, 0x00, 0x07, 0x23, 0x28, period                                     /* 0 */
#define CAR 0x02, 0x00, 0x0d, 0x01, 0x01, 0x03, 0x00, 0x00, 0x00, 0x01, 0x5e, 0x01, 0x0a, 0x02, 0x00, 0x00   /* 8, phase 1 */
#define PEDESTRIAN 0x02, 0x00, 0x09, 0x03, 0x02, 0x0c, 0x00, 0x46, 0x00, 0xc8, 0x00, 0x00                    /* 24, phase 2 */
#define ZONE 0x03, 0x00, 0x0a, 0x01, 0x02, 0x00, 0x8c, 0x00, 0x4b, 0x00, 0x46, 0x00, 0x00                    /* 36 */
#define COUNT(high, low, period) 0x04, 0x00, 0x08, 0x01, 0x23, 0x28, 0x00, 0x00, high, low, period           /* 49, up to 60 */
/* A running tram in phase 2, 300 dm long, 18 an hour. It shares no zone. */
#define TRAM 0x02, 0x00, 0x06, 0x02, 0x02, 0x00, 0x01, 0x2c, 0x12

static const uint8_t whole_bytes[] = {HEADING(1), CAR, PEDESTRIAN, ZONE, COUNT(0x02, 0x58, 1)}; /* 600 E/h */
static const uint8_t tram_bytes[] = {HEADING(1), CAR, PEDESTRIAN, TRAM, ZONE, COUNT(0x02, 0x58, 1)};
static const uint8_t full_bytes[] = {HEADING(1), CAR, PEDESTRIAN, ZONE, COUNT(0x07, 0x85, 1)}; /* 1,925 E/h */
static const uint8_t busy_bytes[] = {HEADING(1), CAR, PEDESTRIAN, ZONE, COUNT(0x07, 0x22, 1)}; /* 1,826 E/h */
static const uint8_t first_bytes[] = {HEADING(1), CAR, PEDESTRIAN, ZONE, COUNT(0x02, 0x58, 1), COUNT(0x03, 0x84, 2)}; /* and 900 E/h in period 2 */
static const uint8_t second_bytes[] = {HEADING(2), CAR, PEDESTRIAN, ZONE, COUNT(0x02, 0x58, 1), COUNT(0x03, 0x84, 2)};
static const uint8_t third_bytes[] = {HEADING(3), CAR, PEDESTRIAN, ZONE, COUNT(0x02, 0x58, 1), COUNT(0x03, 0x84, 2)};
static const uint8_t heavy_bytes[] = {HEADING(2), CAR, PEDESTRIAN, ZONE, COUNT(0x02, 0x58, 1), COUNT(0x05, 0x78, 2)}; /* 1,400 E/h in period 2 */
static const uint8_t fifth_bytes[] = {HEADING(5), CAR, PEDESTRIAN, ZONE, COUNT(0x02, 0x58, 5)};
static const uint8_t capacity_bytes[] = {HEADING(1), CAR, PEDESTRIAN, ZONE, COUNT(0x05, 0x6a, 1)}; /* 1,386 E/h */
static const uint8_t apart_bytes[] = {HEADING(1), CAR, PEDESTRIAN, COUNT(0x02, 0x58, 1)};
static const uint8_t old_bytes[] = {0x01, 0x00, 0x04, 0x00, 0x07, 0x23, 0x28, CAR, PEDESTRIAN, ZONE, COUNT(0x02, 0x58, 1)};

static struct file whole = {"the whole case", whole_bytes, sizeof whole_bytes};
static struct file with_tram = {"with a tram", tram_bytes, sizeof tram_bytes};
static struct file full = {"flow 1,925", full_bytes, sizeof full_bytes};
static struct file busy = {"flow 1,826", busy_bytes, sizeof busy_bytes};
static struct file first = {"two periods in the first", first_bytes, sizeof first_bytes};
static struct file second = {"two periods in the second", second_bytes, sizeof second_bytes};
static struct file heavy = {"1,400 E/h in the second", heavy_bytes, sizeof heavy_bytes};

static struct file capacity = {"flow 1,386", capacity_bytes, sizeof capacity_bytes};
static struct file apart = {"no zone", apart_bytes, sizeof apart_bytes};

/* Files that are refused, whatever else is asked: the empty one, also at NULL, by 8 at its length; without its last byte the count does not fit, 2 at 49;
 * without its count, or with counts of other periods alone, the car has none in the period, 9 at stream 1; there is no period 5, 5 at 0; a heading
 * had 4 bytes in earlier releases, 4 at 0. */
static struct file refused[] = {
    {"no byte", whole_bytes, 0},
    {"no byte at NULL", NULL, 0},
    {"the last byte cut off", whole_bytes, 59},
    {"no count", whole_bytes, 49},
    {"two periods in the third", third_bytes, sizeof third_bytes},
    {"period 5", fifth_bytes, sizeof fifth_bytes},
    {"a heading of 4 bytes", old_bytes, sizeof old_bytes},
};

/* Numbers that no stream of the whole case has; the last two are 2 where they are cut to 8 or to 32 bits. */
static const size_t absent[] = {0, 3, 258, 4294967298};

/* The whole case's plan: cycle 50, then the streams' starts and lengths, 0 and 35, 40 and 6. */
static const uint8_t plan[] = {
    0x11, 0x00, 0x02, 0x00, 0x32,                   /* 0 */
    0x12, 0x00, 0x05, 0x01, 0x00, 0x00, 0x00, 0x23, /* 5 */
    0x12, 0x00, 0x05, 0x02, 0x00, 0x28, 0x00, 0x06, /* 13 */
};

/* The archive is of the header's release. */
static void release(void)
{
    uint32_t archive = givendra_release();
    printf("release: %u, %s\n", archive, archive == GIVENDRA_RELEASE ? "the header's" : "not the header's");
}

/* The layout on x86-64: each member at a multiple of its own size, the whole a multiple of its largest. */
static void layout(void)
{
    printf("judge_answer: size %zu place %zu refusal %zu\n", sizeof(struct givendra_judge_answer),
           offsetof(struct givendra_judge_answer, place), offsetof(struct givendra_judge_answer, refusal));
    printf("plan_answer: size %zu place %zu refusal %zu cycle %zu tried %zu size %zu\n", sizeof(struct givendra_plan_answer),
           offsetof(struct givendra_plan_answer, place), offsetof(struct givendra_plan_answer, refusal),
           offsetof(struct givendra_plan_answer, cycle), offsetof(struct givendra_plan_answer, tried),
           offsetof(struct givendra_plan_answer, size));
    printf("junction_answer: size %zu place %zu refusal %zu design_day %zu period %zu streams %zu zones %zu counts %zu\n",
           sizeof(struct givendra_junction_answer), offsetof(struct givendra_junction_answer, place),
           offsetof(struct givendra_junction_answer, refusal), offsetof(struct givendra_junction_answer, design_day),
           offsetof(struct givendra_junction_answer, period), offsetof(struct givendra_junction_answer, streams),
           offsetof(struct givendra_junction_answer, zones), offsetof(struct givendra_junction_answer, counts));
    printf("figure: size %zu place %zu refusal %zu value %zu\n", sizeof(struct givendra_figure), offsetof(struct givendra_figure, place),
           offsetof(struct givendra_figure, refusal), offsetof(struct givendra_figure, value));
    printf("delay_answer: size %zu place %zu refusal %zu outcome %zu level %zu value %zu\n", sizeof(struct givendra_delay_answer),
           offsetof(struct givendra_delay_answer, place), offsetof(struct givendra_delay_answer, refusal),
           offsetof(struct givendra_delay_answer, outcome), offsetof(struct givendra_delay_answer, level),
           offsetof(struct givendra_delay_answer, value));
    printf("approach: size %zu flow %zu saturation %zu waiting %zu\n", sizeof(struct givendra_approach), offsetof(struct givendra_approach, flow),
           offsetof(struct givendra_approach, saturation), offsetof(struct givendra_approach, waiting));
    printf("portable_answer: size %zu place %zu refusal %zu clearing_time %zu lost_time %zu cycle %zu first_start %zu first_length %zu "
           "second_start %zu second_length %zu\n",
           sizeof(struct givendra_portable_answer), offsetof(struct givendra_portable_answer, place),
           offsetof(struct givendra_portable_answer, refusal), offsetof(struct givendra_portable_answer, clearing_time), offsetof(struct givendra_portable_answer, lost_time),
           offsetof(struct givendra_portable_answer, cycle), offsetof(struct givendra_portable_answer, first_start),
           offsetof(struct givendra_portable_answer, first_length), offsetof(struct givendra_portable_answer, second_start),
           offsetof(struct givendra_portable_answer, second_length));
    struct after_a_byte {
        uint8_t byte;
        struct givendra_count_record record;
    };
    printf("count_record: size %zu alignment %zu stream %zu count_day %zu file_day %zu flow %zu period %zu\n", sizeof(struct givendra_count_record),
           offsetof(struct after_a_byte, record), offsetof(struct givendra_count_record, stream),
           offsetof(struct givendra_count_record, count_day), offsetof(struct givendra_count_record, file_day),
           offsetof(struct givendra_count_record, flow), offsetof(struct givendra_count_record, period));
}

/* ---- what is lent to be read */

/* A copy in memory of just its length, where valgrind sees a byte that is read behind it; NULL stays NULL. */
static void *alone(const void *bytes, size_t length)
{
    return bytes ? memcpy(malloc(length), bytes, length) : NULL;
}

static void lend(struct file *file)
{
    file->bytes = (const uint8_t *)alone(file->bytes, file->length);
}

/* Once for all calls. */
static void lend_files(void)
{
    lend(&whole);
    lend(&with_tram);
    lend(&full);
    lend(&busy);
    lend(&first);
    lend(&second);
    lend(&heavy);
    lend(&capacity);
    lend(&apart);
    for (size_t i = 0; i < LENGTH(refused); i++)
        lend(&refused[i]);
}

/* ---- one call, printed */

static void read_junction(struct file j)
{
    struct givendra_junction_answer a = givendra_read_junction(j.bytes, j.length);
    printf("read_junction, %s: refusal %u place %zu design_day %u period %u streams %zu zones %zu counts %zu\n", j.name, a.refusal, a.place,
           a.design_day, a.period, a.streams, a.zones, a.counts);
}

static void figure(struct givendra_figure a)
{
    printf("refusal %u place %zu value %u\n", a.refusal, a.place, a.value);
}

static void intergreen(struct file j, size_t from, size_t to)
{
    printf("intergreen, %s, from %zu to %zu: ", j.name, from, to);
    figure(givendra_intergreen(j.bytes, j.length, from, to));
}

static void need(struct file j, size_t stream, uint16_t cycle)
{
    printf("need, %s, stream %zu at cycle %u: ", j.name, stream, cycle);
    figure(givendra_need(j.bytes, j.length, stream, cycle));
}

static void saturation_flow(struct file j, size_t stream)
{
    printf("saturation_flow, %s, stream %zu: ", j.name, stream);
    figure(givendra_saturation_flow(j.bytes, j.length, stream));
}

static void flow_ratio(struct file j, size_t stream)
{
    printf("flow_ratio, %s, stream %zu: ", j.name, stream);
    figure(givendra_flow_ratio(j.bytes, j.length, stream));
}

static void newest_in_period(const char *what, const struct givendra_count_record *list, size_t length, size_t stream, uint16_t design_day,
                             size_t period)
{
    void *lent = alone(list, length * sizeof *list);
    printf("newest_count, %s, stream %zu in period %zu: ", what, stream, period);
    figure(givendra_newest_count((const struct givendra_count_record *)lent, length, stream, design_day, period));
    free(lent);
}

static void newest_count(const char *what, const struct givendra_count_record *list, size_t length, size_t stream, uint16_t design_day)
{
    newest_in_period(what, list, length, stream, design_day, 1);
}

/* Lends the first bytes of a memory that is longer than the plan and filled with a5, and prints all of it. */
static void work_out(struct file j, size_t buffer_length)
{
    uint8_t memory[GIVENDRA_PLAN_LENGTH(2) + 3];
    memset(memory, 0xa5, sizeof memory);
    struct givendra_plan_answer a = givendra_work_out(j.bytes, j.length, memory, buffer_length);
    printf("work_out, %s, %zu bytes: refusal %u place %zu cycle %u tried %u size %zu\n ", j.name, buffer_length, a.refusal, a.place, a.cycle,
           a.tried, a.size);
    for (size_t i = 0; i < sizeof memory; i++)
        printf(" %02x", memory[i]);
    printf("\n");
}

static void judge(const char *what, struct file j, const uint8_t *bytes, size_t length)
{
    void *lent = alone(bytes, length);
    struct givendra_judge_answer a = givendra_judge(j.bytes, j.length, (const uint8_t *)lent, length);
    printf("judge, %s: refusal %u place %zu\n", what, a.refusal, a.place);
    free(lent);
}

/* Puts the whole case's plan there with another byte at a place. */
static const uint8_t *with_byte(uint8_t changed[sizeof plan], size_t place, uint8_t byte)
{
    memcpy(changed, plan, sizeof plan);
    changed[place] = byte;
    return changed;
}

static void judge_changed(const char *what, size_t place, uint8_t byte)
{
    uint8_t changed[sizeof plan];
    judge(what, whole, with_byte(changed, place, byte), sizeof changed);
}

/* Lends a copy of the plan file to be written, and prints all of it. */
static void shift(const char *what, struct file j, const uint8_t *bytes, size_t length, size_t offset)
{
    uint8_t *lent = (uint8_t *)alone(bytes, length);
    struct givendra_judge_answer a = givendra_shift(j.bytes, j.length, lent, length, offset);
    printf("shift, %s, %s, by %zu: refusal %u place %zu\n ", j.name, what, offset, a.refusal, a.place);
    for (size_t i = 0; i < length; i++)
        printf(" %02x", lent[i]);
    printf("\n");
    free(lent);
}

static void shift_changed(const char *what, size_t place, uint8_t byte, size_t offset)
{
    uint8_t changed[sizeof plan];
    shift(what, whole, with_byte(changed, place, byte), sizeof changed, offset);
}

/* The value by its bits. */
static void delay(const char *what, struct file j, const uint8_t *bytes, size_t length, size_t stream)
{
    void *lent = alone(bytes, length);
    struct givendra_delay_answer a = givendra_delay(j.bytes, j.length, (const uint8_t *)lent, length, stream);
    uint64_t bits;
    memcpy(&bits, &a.value, sizeof bits);
    printf("delay, %s, %s, stream %zu: refusal %u place %zu outcome %u level %u value %08x%08x\n", j.name, what, stream, a.refusal, a.place,
           a.outcome, a.level, (unsigned)(bits >> 32), (unsigned)bits);
    free(lent);
}

static void delay_changed(const char *what, struct file j, size_t place, uint8_t byte, size_t stream)
{
    uint8_t changed[sizeof plan];
    delay(what, j, with_byte(changed, place, byte), sizeof changed, stream);
}

static void green(const char *what, const uint8_t *bytes, size_t length, size_t stream)
{
    void *lent = alone(bytes, length);
    struct givendra_green_times a = givendra_green((const uint8_t *)lent, length, stream);
    printf("green, %s, stream %zu: start %u length %u\n", what, stream, a.start, a.length);
    free(lent);
}

static void green_changed(const char *what, size_t place, uint8_t byte)
{
    uint8_t changed[sizeof plan];
    green(what, with_byte(changed, place, byte), sizeof changed, 2);
}

/* ---- the blocks of tests/header.txt */

/* What a file holds, and the refused files. */
static void reading(void)
{
    read_junction(whole);
    read_junction(with_tram);
    read_junction(first);
    read_junction(second);
    for (size_t i = 0; i < LENGTH(refused); i++)
        read_junction(refused[i]);
}

/* Entries 5 and 4; 0 where nothing is shared, and from a stream to itself. 7 for a stream that is not there, the one that leaves first. The
 * junction's questions come before 7. */
static void intergreens(void)
{
    intergreen(whole, 1, 2);
    intergreen(whole, 2, 1);
    intergreen(whole, 1, 1);
    intergreen(with_tram, 1, 3);
    for (size_t i = 0; i < LENGTH(absent); i++)
        intergreen(whole, absent[i], 2);
    for (size_t i = 0; i < LENGTH(absent); i++)
        intergreen(whole, 1, absent[i]);
    intergreen(whole, 3, 0);
    intergreen(whole, 0, 3);
    for (size_t i = 0; i < LENGTH(refused); i++)
        intergreen(refused[i], 0, 0);
}

/* A car's 8 s; the pedestrian's 70/12 rounded up; the tram's by Table 3, 18 an hour: 10 s up to a cycle of 100 s, then 20 s. 13 for a cycle not
 * from 1 to 180, after 7, which comes after the junction's questions. */
static void needs(void)
{
    need(whole, 1, 50);
    need(whole, 2, 50);
    need(with_tram, 3, 100);
    need(with_tram, 3, 101);
    need(whole, 1, 1);
    need(whole, 1, 180);
    need(whole, 1, 0);
    need(whole, 1, 181);
    need(whole, 2, 65535);
    for (size_t i = 0; i < LENGTH(absent); i++)
        need(whole, absent[i], 50);
    need(whole, 3, 0);
    need(whole, 3, 181);
    for (size_t i = 0; i < LENGTH(refused); i++)
        need(refused[i], 0, 0);
}

/* Table 1 at 350 cm, 1,925 E/h; 10,000 x 600/1,925 is 3,116.9, so y is 3,117, with 900 E/h 4,676, and with 1,925 E/h 10,000. 7 for a stream that
 * is no car or is not there, after the junction's questions. */
static void flows(void)
{
    saturation_flow(whole, 1);
    saturation_flow(whole, 2);
    saturation_flow(with_tram, 3);
    for (size_t i = 0; i < LENGTH(absent); i++)
        saturation_flow(whole, absent[i]);
    for (size_t i = 0; i < LENGTH(refused); i++)
        saturation_flow(refused[i], 0);
    flow_ratio(whole, 1);
    flow_ratio(full, 1);
    flow_ratio(first, 1);
    flow_ratio(second, 1);
    flow_ratio(whole, 2);
    flow_ratio(with_tram, 3);
    for (size_t i = 0; i < LENGTH(absent); i++)
        flow_ratio(whole, absent[i]);
    for (size_t i = 0; i < LENGTH(refused); i++)
        flow_ratio(refused[i], 0);
}

/* Records are stream, count day, file day, flow, period. Unless said, a list is asked for on the design day 9000 and in period 1. */
static void counts(void)
{
    /* the latest day up to the design day, wherever it stands; the later record is passed over */
    static const struct givendra_count_record days[] = {{1, 8999, 0, 500, 1}, {1, 9000, 0, 600, 1}, {1, 8000, 0, 900, 1}, {1, 9001, 0, 700, 1}};
    newest_count("days", days, 4, 1, 9000);
    newest_count("the first of the days", days, 1, 1, 9000);
    newest_count("the last three of the days", days + 1, 3, 1, 9000);
    newest_count("a design day later", days, 4, 1, 9001);
    newest_count("the design day 8998", days, 4, 1, 8998);
    newest_count("the design day 7999", days, 4, 1, 7999);
    /* of equal days the larger flow, first or last */
    static const struct givendra_count_record equals[] = {{1, 9000, 0, 600, 1}, {1, 9000, 0, 610, 1}, {1, 9000, 0, 605, 1}};
    newest_count("equal days", equals, 3, 1, 9000);
    newest_count("the last two of the equal days", equals + 1, 2, 1, 9000);
    /* the same days and flows with file days that would choose another one, or lie after the design day */
    static const struct givendra_count_record file_days[] = {{1, 8999, 9000, 500, 1}, {1, 9000, 8000, 600, 1}, {1, 8000, 65535, 900, 1}, {1, 9001, 9000, 700, 1}};
    newest_count("other file days", file_days, 4, 1, 9000);
    /* other streams, and flows not from 1 to 9,999, are passed over */
    static const struct givendra_count_record others[] = {{1, 8000, 0, 400, 1}, {2, 9000, 0, 800, 1}, {1, 9000, 0, 0, 1}, {1, 9000, 0, 10000, 1}, {1, 9000, 0, 65535, 1}};
    newest_count("others", others, 5, 1, 9000);
    newest_count("others", others, 5, 2, 9000);
    static const struct givendra_count_record least[] = {{1, 9000, 0, 1, 1}}, most[] = {{1, 9000, 0, 9999, 1}};
    newest_count("the least flow", least, 1, 1, 9000);
    newest_count("the greatest flow", most, 1, 1, 9000);
    /* any stream number of a record and any day */
    static const struct givendra_count_record any[] = {{0, 0, 0, 321, 1}, {255, 65535, 0, 432, 1}};
    newest_count("day 0", any, 2, 0, 0);
    newest_count("day 65,535", any, 2, 255, 65535);
    /* none usable: an empty list, other streams, flows out of range; the last two streams are 1 where they are cut to 8 or to 32 bits */
    newest_count("an empty list", days, 0, 1, 9000);
    newest_count("an empty list at NULL", NULL, 0, 1, 9000);
    newest_count("days", days, 4, 2, 9000);
    newest_count("flows out of range", others + 2, 3, 1, 9000);
    newest_count("days", days, 4, 257, 9000);
    newest_count("days", days, 4, 4294967297, 9000);
    /* of each period its own; a period out of range matches no record, though one has its number; the last three are 1 where they are cut to
     * 8, 16 or 32 bits */
    static const struct givendra_count_record periods[] = {{1, 9000, 0, 600, 1}, {1, 9000, 0, 700, 2}, {1, 8999, 0, 9999, 5}, {1, 9000, 0, 800, 0}};
    static const size_t asked[] = {1, 2, 3, 4, 0, 5, 257, 65537, 4294967297};
    for (size_t i = 0; i < LENGTH(asked); i++)
        newest_in_period("periods", periods, 4, 1, 9000, asked[i]);
}

/* The whole case in a long buffer, whose later bytes stay, in one that just holds the plan, and in one a byte short, which stays. One length is
 * tried, since T0 is 50: 50 x 50 x 6,883 is at least 1,200,000 x 14, and 49 x 49 x 6,883 is not. With 1,925 E/h Y is 10,000: 21. With
 * 1,826 E/h Y is 9,486, and 180 x 180 x 514 is below 1,200,000 x 14: 22. Both come before 23, and the junction's questions before all. With
 * 900 E/h, in the second period, Y is 4,676 and T0 57: 57 x 57 x 5,324 is at least 1,200,000 x 14, and 56 x 56 x 5,324 is not. */
static void working_out(void)
{
    printf("plan length: 0 streams %zu, 2 streams %zu, 1 + 1 streams %zu, 16 streams %zu\n", GIVENDRA_PLAN_LENGTH(0), GIVENDRA_PLAN_LENGTH(2),
           GIVENDRA_PLAN_LENGTH(1 + 1), GIVENDRA_PLAN_LENGTH(16));
    work_out(whole, 24);
    work_out(whole, 21);
    work_out(whole, 20);
    work_out(whole, 0);
    work_out(first, 24);
    work_out(second, 24);
    work_out(full, 24);
    work_out(full, 20);
    work_out(busy, 24);
    work_out(busy, 20);
    for (size_t i = 0; i < LENGTH(refused); i++)
        work_out(refused[i], 20);
    struct givendra_plan_answer a = givendra_work_out(whole.bytes, whole.length, NULL, 0);
    printf("work_out, the whole case, no buffer: refusal %u place %zu\n", a.refusal, a.place);
}

/* The plan, then one change at a time. Pedestrians a second earlier, before the last car has cleared the zone, and a second later, so that
 * they have not cleared it for the next cycle's first car. 5 s for the pedestrians, who need 6. 14 s for the car, for which 600 x 50 is
 * above 1,925 x 15, and 15 s, for which it is not above 1,925 x 16. By the flow of the second period, 1,400 x 50 is above 1,925 x 36.
 * Questions 11 to 13. The junction's questions come before all. */
static void judging(void)
{
    judge("the plan", whole, plan, sizeof plan);
    judge_changed("a start of 39", 18, 39);
    judge_changed("a start of 41", 18, 41);
    judge_changed("a length of 5", 20, 5);
    judge_changed("a length of 14", 12, 14);
    judge_changed("a length of 15", 12, 15);
    judge(heavy.name, heavy, plan, sizeof plan);
    judge_changed("cycle 0", 4, 0);
    judge("six bytes of the plan", whole, plan, 6);
    judge("five bytes of the plan", whole, plan, 5);
    judge("no byte of a plan", whole, plan, 0);
    judge("no byte of a plan at NULL", whole, NULL, 0);
    for (size_t i = 0; i < LENGTH(refused); i++)
        judge(refused[i].name, refused[i], plan, 6);
}

/* The starts 0 and 40 of cycle 50: by 10 they are 10 and 0, since 40 + 10 is the cycle, and by 49 they are 49 and 39. From 50 on 24; the last three are
 * below 50 where they are cut to 16 or 32 bits, or taken as -1. Plans that the judge refuses by 17 and 15 are shifted too. 13 for a cycle of 0 and a
 * start of 50, 11, and 12 come before 24, and the junction's questions before all. */
static void shifting(void)
{
    static const size_t offsets[] = {0, 1, 10, 49, 50, 51, 65546, 4294967306, (size_t)-1};
    for (size_t i = 0; i < LENGTH(offsets); i++)
        shift("the plan", whole, plan, sizeof plan, offsets[i]);
    shift_changed("a start of 39", 18, 39, 11);
    shift_changed("a length of 5", 20, 5, 10);
    shift_changed("cycle 0", 4, 0, 0);
    shift_changed("a start of 50", 10, 50, 99);
    shift("six bytes of the plan", whole, plan, 6, 60);
    shift("the last byte cut off", whole, plan, sizeof plan - 1, 60);
    shift("no byte of a plan", whole, plan, 0, 60);
    shift("no byte of a plan at NULL", whole, NULL, 0, 60);
    for (size_t i = 0; i < LENGTH(refused); i++)
        shift("six bytes of the plan", refused[i], plan, 6, 60);
}

/* By request 2026-05's formulas in double: 36 of 50 s with 600 E/h, and with 900 E/h in the second period; 16 of 50 s. At exact capacity, 1,386 x 50
 * = 1,925 x 36, g x S is 1,386 and u is 1. Without a zone the car's green can be 49 of 50 s, and g is 1. The pedestrian and numbers of no stream
 * get 9, after all that the judge refuses. */
static void delays(void)
{
    delay("the plan", whole, plan, sizeof plan, 1);
    delay("the plan", second, plan, sizeof plan, 1);
    delay_changed("a length of 15", whole, 12, 15, 1);
    delay("the plan", capacity, plan, sizeof plan, 1);
    delay_changed("a length of 49", apart, 12, 49, 1);
    delay_changed("a length of 48", apart, 12, 48, 1);
    delay("the plan", whole, plan, sizeof plan, 2);
    for (size_t i = 0; i < LENGTH(absent); i++)
        delay("the plan", whole, plan, sizeof plan, absent[i]);
    delay_changed("a start of 39", whole, 18, 39, 3);
    delay_changed("a length of 5", whole, 20, 5, 1);
    delay_changed("a length of 14", whole, 12, 14, 0);
    delay_changed("cycle 0", whole, 4, 0, 258);
    delay("six bytes of the plan", whole, plan, 6, 1);
    delay("no byte of a plan at NULL", whole, NULL, 0, 1);
    for (size_t i = 0; i < LENGTH(refused); i++)
        delay("six bytes of the plan", refused[i], plan, 6, 0);
}

/* Both streams; streams that are not there, also where a number is cut to 8 or 32 bits; a plan cut off in the last field; no byte; a field 2
 * with another tag, length or stream. The numbers are read high byte first. */
static void greens(void)
{
    green("the plan", plan, sizeof plan, 1);
    green("the plan", plan, sizeof plan, 2);
    for (size_t i = 0; i < LENGTH(absent); i++)
        green("the plan", plan, sizeof plan, absent[i]);
    green("the plan", plan, sizeof plan, 16);
    green("the plan", plan, sizeof plan, 17);
    green("the plan", plan, sizeof plan, (size_t)-1);
    green("the last byte cut off", plan, sizeof plan - 1, 1);
    green("the last byte cut off", plan, sizeof plan - 1, 2);
    green("no byte of a plan", plan, 0, 1);
    green("no byte of a plan at NULL", NULL, 0, 1);
    green_changed("tag 0x11", 13, 0x11);
    green_changed("a body of 261 bytes", 14, 1);
    green_changed("a body of 6 bytes", 15, 6);
    green_changed("of stream 1", 16, 1);
    green_changed("a start of 296", 17, 1);
    green_changed("a length of 262", 19, 1);
}

static void portable(const char *name, size_t stretch, size_t speed, struct givendra_approach first, struct givendra_approach second)
{
    struct givendra_portable_answer a = givendra_portable(stretch, speed, first, second);
    printf("portable, %s: refusal %u place %zu clearing_time %u lost_time %u cycle %u first_start %u first_length %u second_start %u "
           "second_length %u\n", name, a.refusal, a.place, a.clearing_time, a.lost_time, a.cycle, a.first_start, a.first_length, a.second_start, a.second_length);
}

/* 100 m at 30 km/h: t is 3.6 x 120/30 = 14.4 s, L 32.8 s, M 18. y is 2,223 and 2,112, Y 4,335; T0 is 99, since 99 x 5,665 is at least
 * 15,000 x 34 + 50,000 = 560,000, and 98 x 5,665 is not. Of 65 s 33 and 31 are effective, and one is left over, for the first: 34 and 31, so the
 * greens are 33 and 30, and 33 + 18 + 30 + 18 = 99. 400 x 99/600 is 66 m, 380 x 99/600 62.7 m. With 400 twice Y is 4,446 and T0 101; of 67 s each
 * has 33, and one is left over. 140 m at 25 km/h: t is 23.04 s, so M is 27. At 300 m and 25 km/h M is 50 and L 98: with Y 1,551 T0 is 180, with Y
 * 1,556 it is 181: 22. With 900 of 1,800 twice Y is 10,000: 21. Three of the numbers refused by 25 or 26 are in range where they are cut to 16 or
 * 32 bits. 25 comes before 26, and 21 and 22 before 27. */
static void road_works(void)
{
    struct givendra_approach one = {400, 1800, 67}, two = {380, 1800, 63}, equal = {400, 1800, 66}, less = {380, 1800, 62};
    struct givendra_approach far = {400, 1800, (size_t)-1}, quiet = {200, 1800, 100}, half = {900, 1800, 0}, none = {0, 1800, 100};
    struct givendra_approach much = {400, 10000, 100}, cut = {65536 + 400, 1800, 67}, cut_more = {400, 4294967296 + 1800, 67};
    struct givendra_approach long_one = {140, 1800, 100}, long_two = {139, 1800, 100}, long_none = {140, 1800, 0};
    portable("100 m at 30 km/h", 100, 30, one, two);
    portable("a very long way to wait", 100, 30, far, far);
    portable("140 m at 25 km/h", 140, 25, quiet, quiet);
    portable("300 m at 25 km/h", 300, 25, long_one, long_two);
    portable("a stretch of 95 m", 95, 30, none, two);
    portable("a stretch of 310 m", 310, 30, one, two);
    portable("a stretch of 65,636 m", 65636, 30, one, two);
    portable("a speed of 45 km/h", 100, 45, one, two);
    portable("no speed", 100, 0, one, two);
    portable("no flow in the second", 100, 30, one, none);
    portable("a saturation flow of 10,000", 100, 30, much, two);
    portable("a flow of 65,936", 100, 30, cut, two);
    portable("a saturation flow of 2 to the 32 and 1,800", 100, 30, one, cut_more);
    portable("900 of 1,800 twice", 100, 30, half, half);
    portable("140 twice at 300 m", 300, 25, long_none, long_none);
    portable("66 m in the first", 100, 30, equal, two);
    portable("62 m in the second", 100, 30, one, less);
}

/* Every number in use, those between them, and others. */
static void texts(void)
{
    for (unsigned number = 0; number <= 28; number++)
        printf("text %u: %s\n", number, givendra_refusal_text(number));
    printf("text 256: %s\n", givendra_refusal_text(256));
    printf("text 4294967295: %s\n", givendra_refusal_text(4294967295));
}

int main(void)
{
    lend_files();
    release();
    layout();
    reading();
    intergreens();
    needs();
    flows();
    counts();
    working_out();
    judging();
    shifting();
    delays();
    greens();
    road_works();
    texts();
    return 0;
}
