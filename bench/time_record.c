// time_record CALLS [NUMBER]: nanoseconds of a whole record call on the job of standard input, as bytes, which is answered by this number, 0 where none is given.
#include "timed.h"
#include "wagonplan.h"

static uint8_t bytes[WAGONPLAN_JOB_MOST], workspace[WAGONPLAN_WORKSPACE], answer[WAGONPLAN_ANSWER];

int main(int argc, char **argv) {
    size_t calls = argc > 1 ? (size_t)atoi(argv[1]) : 0;
    uint8_t number = argc > 2 ? (uint8_t)atoi(argv[2]) : 0, others = 0;
    wagonplan_u8 job = {bytes, fread(bytes, 1, sizeof bytes, stdin)};
    wagonplan_u8_mut room = {workspace, sizeof workspace}, written = {answer, sizeof answer};
    if (calls < 1 || wagonplan_answer(job, room, written) != number) return 2;
    TIMED(calls, others |= wagonplan_answer(job, room, written) != number);
    return others;
}
