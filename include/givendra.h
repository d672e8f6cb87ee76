/* Traffic-signal timing by the annex of Ordinance RD-02-21-2: judge a plan, work out a plan, shift a plan, ask for the annex's figures and for
 * delays, and work out portable signals for road works.
 *
 * For x86-64 Linux. `tools/make givendra` makes the archive target/staticlib/libgivendra.a; `tools/install PREFIX` installs header, archive and
 * shared library, so that `pkg-config --cflags --libs givendra` says how to compile and link.
 *
 * Nothing is allocated, and nothing is kept between calls: any number of threads may call at once. A call takes less than GIVENDRA_STACK bytes
 * of stack. A function reads the bytes that it is lent and writes only into givendra_work_out's buffer and into givendra_shift's plan file. Files
 * and lists may hold anything. What is lent must be readable for its whole length, that buffer and that plan file writable too; a pointer may be
 * NULL where its length is 0. Files and the buffer may stand at any address; a list stands at an even one, as its struct asks. Neither that buffer
 * nor that plan file overlaps the junction file. During a call nothing else reads or writes them, and nothing else writes other lent memory.
 *
 * Every answer but givendra_release's has a refusal's number and its place. Number 0: nothing is refused, and the place is 0. Any other
 * number: every other member is 0, givendra_refusal_text (below) says what is wrong, and the place says where. Unless a function says another
 * place, it is:
 *
 *   1 to 8    the offset in the junction file of the field's tag; but 0 for 1, and the file's length for 8
 *   9         the stream
 *   11 to 13  an offset in the plan file: where the field is due, or, of 12, where the file should end
 *   15, 16    the stream
 *   17        the conflict zone, from 1
 *   21 to 27  0
 *
 * A plan file is fields one after another, first the cycle, then a green for each stream of the junction, in the order of the streams. Numbers
 * of two bytes have the high byte first:
 *
 *   0x11 0x00 0x02, the cycle in s (two bytes)
 *   0x12 0x00 0x05, the stream (one byte), where in the cycle its green starts and how long it lasts, in s (two bytes each)
 *
 * So the field of stream n, from 1, begins at GIVENDRA_PLAN_LENGTH(n - 1); givendra_green (below) reads it.
 */
#ifndef GIVENDRA_H
#define GIVENDRA_H

#include <stddef.h>
#include <stdint.h>

#ifdef __cplusplus
extern "C" {
#endif

/* The release of this header, raised by every release that changes a struct or what a function takes. Header and library belong together
 * where givendra_release() == GIVENDRA_RELEASE: a program looks once, before any other call. */
#define GIVENDRA_RELEASE 2
uint32_t givendra_release(void);

/* More bytes of stack than any call takes. */
#define GIVENDRA_STACK 32768

/* The answer of givendra_judge and of givendra_shift. */
struct givendra_judge_answer {
    size_t place;
    uint8_t refusal;
};

struct givendra_plan_answer {
    size_t place;
    uint8_t refusal;
    uint16_t cycle; /* s */
    uint16_t tried; /* lengths tried, from the first up to the cycle */
    size_t size;    /* bytes of the plan file */
};

struct givendra_junction_answer {
    size_t place;
    uint8_t refusal;
    uint16_t design_day; /* days from 1 January 2000 as 0 */
    uint8_t period;      /* the period that is planned, 1 to 4 */
    size_t streams;
    size_t zones;
    size_t counts;
};

struct givendra_figure {
    size_t place;
    uint8_t refusal;
    uint32_t value;
};

/* What is told of a car stream in a plan. */
struct givendra_delay_answer {
    size_t place;
    uint8_t refusal;
    uint8_t outcome; /* 1 a delay, 2 a saturation of 1 or more, 3 no red */
    uint8_t level;   /* of service, 'A' to 'F' */
    double value;    /* the delay in s, or the saturation; 0 where there is no red */
};

/* One traffic count: the stream's number, the day of the count, the day of its file (of no effect), the flow in E/h, and the period of the day,
 * 1 to 4. */
struct givendra_count_record {
    uint8_t stream;
    uint16_t count_day;
    uint16_t file_day;
    uint16_t flow;
    uint8_t period;
};

/* An approach to a narrowed stretch. */
struct givendra_approach {
    size_t flow;       /* E/h */
    size_t saturation; /* saturation flow, E/h */
    size_t waiting;    /* available waiting length, m */
};

/* Portable signals. */
struct givendra_portable_answer {
    size_t place;
    uint8_t refusal;
    uint16_t clearing_time; /* t of the annex's table, in tenths of a s */
    uint16_t lost_time;     /* L of the annex's table, in tenths of a s */
    uint16_t cycle;         /* s */
    uint16_t first_start;   /* of each approach's green, s */
    uint16_t first_length;
    uint16_t second_start;
    uint16_t second_length;
};

/* Judges a plan file for a junction file: refusal 0 where the plan is accepted. */
struct givendra_judge_answer givendra_judge(const uint8_t *junction, size_t junction_length, const uint8_t *plan, size_t plan_length);

/* The length of a plan file for so many streams: what givendra_work_out's buffer has to hold. */
#define GIVENDRA_PLAN_LENGTH(streams) (5 + 8 * (size_t)(streams))

/* Works out a plan for a junction file and writes its plan file into the buffer, from the first byte. Later bytes are untouched; a refusal
 * alters no byte. The junction's questions come first, then 21, 22 and 23. */
struct givendra_plan_answer givendra_work_out(const uint8_t *junction, size_t junction_length, uint8_t *buffer, size_t buffer_length);

/* Adds an offset in s to every start of a plan file, modulo the plan's cycle, in the lent file itself: the two bytes of each start are written, and
 * no other; a refusal alters no byte. plan_length is the file's own length, as givendra_work_out answers it in size: bytes behind the file are 12. The
 * junction's questions come first, then 11 to 13, then 24, where the offset is not below the cycle. The plan need not be accepted: givendra_judge
 * answers the same before and after, refusal and place. */
struct givendra_judge_answer givendra_shift(const uint8_t *junction, size_t junction_length, uint8_t *plan, size_t plan_length, size_t offset);

/* Reads a junction file: its design day, the period that it plans, and how many streams, zones and counts, of all periods, it has. */
struct givendra_junction_answer givendra_read_junction(const uint8_t *junction, size_t junction_length);

/* Figures of a junction file's streams, which are numbered from 1. The junction's questions come first; then 7, place the number asked
 * for, where the file has no such stream or, for the last two, where the stream is no car. So where givendra_read_junction refuses
 * nothing, 7 is about the number asked for. */

/* Intergreen time from one stream to another, in s; 0 also where the two share no conflict zone. The stream that leaves is asked first. */
struct givendra_figure givendra_intergreen(const uint8_t *junction, size_t junction_length, size_t from, size_t to);

/* Needed green of a stream at a cycle, in s. After 7: 13, place 0, where the cycle is not from 1 to 180 s. */
struct givendra_figure givendra_need(const uint8_t *junction, size_t junction_length, size_t stream, uint16_t cycle);

/* Saturation flow of a car stream, in E/h. */
struct givendra_figure givendra_saturation_flow(const uint8_t *junction, size_t junction_length, size_t stream);

/* Flow ratio of a car stream, in ten-thousandths, rounded up. */
struct givendra_figure givendra_flow_ratio(const uint8_t *junction, size_t junction_length, size_t stream);

/* Delay and level of service of a car stream in an accepted plan: Webster's delay by the annex's (51) to (56), with the factor 0.9 in place of (54),
 * in double, each operation rounded once in the order of document 02's formulas. No red, where green and one second fill the cycle, is tested
 * first, then the saturation. The level is that of the unrounded delay: A up to 25 s, B up to 35, C up to 50, D up to 70, E up to 100, else F; of a
 * saturation F, without red A. givendra_judge's refusals come first; then 9, place the number asked for, where the junction has no such stream
 * or the stream is no car. */
struct givendra_delay_answer givendra_delay(const uint8_t *junction, size_t junction_length, const uint8_t *plan, size_t plan_length, size_t stream);

/* The flow of a stream in a period by a list of so many counts, in E/h: that of the latest count day not after the design day, of equal days the
 * larger flow. Records of other streams or periods, after the design day, or with a flow not from 1 to 9,999 are passed over; 9, place the
 * stream, where none is left, so always where the period is not from 1 to 4. */
struct givendra_figure givendra_newest_count(const struct givendra_count_record *list, size_t list_length, size_t stream, uint16_t design_day, size_t period);

/* Portable signals for road works: a narrowed stretch in m with one lane for both directions, a speed in km/h, and the approaches at its two ends
 * (annex, part B). The speed is the mean speed of clearing cars, measured on the site; where it is not measured, the annex lets it be assumed by the
 * local conditions and the state of the surface. A saturation flow is the annex's for this stretch: part B asks for a Ky of 1 at most and Kturn 1,
 * while givendra_saturation_flow goes by a junction file's conditions and turning shares.
 *
 * t = 3.6 x (stretch + 20) / speed. M = 3 + t, unrounded, rounded up, follows each green; the first approach starts at 0. The cycle is by (32) with
 * L = 2 x (M - 1): the table's L, lost_time, is less, and the same only where t is whole. Refused, in this order: 25, where the annex's table does not
 * list stretch and speed (10 to 300 m by tens; 25, 30, 35 and 40 km/h); 26, where a flow or a saturation flow is not from 1 to 9,999; 21; 22; 27,
 * where an available waiting length is not above flow x cycle / 600 m. No shorter cycle is sought for 27; with 3,000 m for both it never comes, so
 * that the cycle is answered. */
struct givendra_portable_answer givendra_portable(size_t stretch, size_t speed, struct givendra_approach first, struct givendra_approach second);

#ifdef __cplusplus
}
#endif

/* What follows is compiled with the caller's code, and no part of the library. */

/* A refusal in words. */
static inline const char *givendra_refusal_text(unsigned number)
{
    switch (number) {
    case 0: return "nothing is refused";
    case 1: return "the junction file is longer than 16,384 bytes";
    case 2: return "a field of the junction file does not fit";
    case 3: return "a tag of the junction file is not known or not in its order";
    case 4: return "the length of a field of the junction file is wrong";
    case 5: return "a number of the junction file is out of range";
    case 6: return "more than 16 streams, 64 conflict zones or 128 counts";
    case 7: return "a stream does not exist or does not suit";
    case 8: return "no heading, no car, or the phases used are not exactly 1 to some number, 2 or more";
    case 9: return "the stream is no car, or has no usable count in the period";
    case 11: return "a field of the plan file does not fit";
    case 12: return "not the field of the plan file that is due, or bytes after the last";
    case 13: return "a cycle, or a green's start or length, is out of range";
    case 15: return "the stream has less than its needed green";
    case 16: return "the car stream's capacity is below its flow";
    case 17: return "an intergreen time at the conflict zone is not kept";
    case 21: return "the phases' flow ratios, each rounded up, sum to 1 or more";
    case 22: return "no cycle length from the annex's optimum to 180 s works";
    case 23: return "the buffer is too short";
    case 24: return "the offset is not below the cycle";
    case 25: return "the annex's table does not list the stretch or the speed";
    case 26: return "a flow or a saturation flow is not from 1 to 9,999";
    case 27: return "an available waiting length is not above the needed one";
    default: return "unknown refusal";
    }
}

/* A stream's green in a plan file, in s. */
struct givendra_green_times {
    unsigned start;
    unsigned length;
};

/* Reads the green of a stream, from 1, out of a plan file; both numbers are 0 where the file has none for it. */
static inline struct givendra_green_times givendra_green(const uint8_t *plan, size_t plan_length, size_t stream)
{
    struct givendra_green_times green = {0, 0};
    if (1 <= stream && stream <= 16 && GIVENDRA_PLAN_LENGTH(stream) <= plan_length) {
        const uint8_t *field = plan + GIVENDRA_PLAN_LENGTH(stream - 1);
        if (field[0] == 0x12 && field[1] == 0 && field[2] == 5 && field[3] == stream) {
            green.start = 256u * field[4] + field[5];
            green.length = 256u * field[6] + field[7];
        }
    }
    return green;
}

#endif
