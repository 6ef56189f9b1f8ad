/* Plays the same as the recorder did and holds each reply and hash to what it wrote. */
#include "replay.h"
#include "say.h"

static const struct {
    uint8_t call, code;
    uint64_t figure;
    uint32_t size;
    uint64_t hash;
} recorded[] = {
#include "recorded.h"
};

enum { RECORDED = sizeof recorded / sizeof recorded[0] };

static unsigned long played, wrong;

static void differ(enum call call, const char *what)
{
    if (wrong++ > 0)
        return;
    say("call ");
    say_number(played);
    say(", ");
    say(call_names[call]);
    say(": another ");
    say(what);
    say(" than on the host\n");
}

void observe(enum call call, struct kagutin_reply reply, uint64_t hash)
{
    if (played >= RECORDED || recorded[played].call != call)
        differ(call, "call");
    else if (recorded[played].code != reply.code)
        differ(call, "answer");
    else if (recorded[played].figure != reply.figure)
        differ(call, "figure");
    else if (recorded[played].size != reply.size)
        differ(call, "size");
    else if (recorded[played].hash != hash)
        differ(call, "byte");
    played++;
}

void complain(const char *what)
{
    say(what);
    say(": not the paper's figure\n");
    wrong++;
}

int main(void)
{
    play_trials();
    play_histories(CALLS_PLAYED);
    if (played != RECORDED)
        complain("the count of calls");
    say_number(played);
    say(" calls, ");
    say_number(cuts);
    say(wrong ? " cuts: NOT as on the host\n" : " cuts: every reply and every lent byte as on the host\n");
    return wrong != 0;
}
