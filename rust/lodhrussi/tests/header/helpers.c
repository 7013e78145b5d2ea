/* What the header has beside the calls: constants, words needed, sentences. For C and C++. */
#include "lodhrussi.h"

#include <stdio.h>

#define VALUE(constant) printf("%s %d\n", #constant, (int)constant)

static void refusals(void)
{
    VALUE(LODHRUSSI_DONE);
    VALUE(LODHRUSSI_UNKNOWN_KIND);
    VALUE(LODHRUSSI_BODY_CUT_OFF);
    VALUE(LODHRUSSI_TOO_MANY_RECORDS);
    VALUE(LODHRUSSI_NUMBER_TOO_LARGE);
    VALUE(LODHRUSSI_NOT_EARLIER);
    VALUE(LODHRUSSI_LINK_FOR_CLASS);
    VALUE(LODHRUSSI_NAMED_AGAIN);
    VALUE(LODHRUSSI_LINK_ON_EMPTY);
    VALUE(LODHRUSSI_TOO_MANY_MARKS);
    VALUE(LODHRUSSI_SET_TOO_SHORT);
    VALUE(LODHRUSSI_NO_SUCH_PAIRING);
    VALUE(LODHRUSSI_LIST_TOO_SHORT);
    VALUE(LODHRUSSI_SLOT_TOO_LONG);
    VALUE(LODHRUSSI_QUEUE_BROKEN);
    VALUE(LODHRUSSI_CLASS_FOR_LINK);
    VALUE(LODHRUSSI_RULE_NAMED);
    VALUE(LODHRUSSI_UNKNOWN_WORD);
    VALUE(LODHRUSSI_CANNOT_STAND);
    VALUE(LODHRUSSI_COMPOSED_LINK);
    VALUE(LODHRUSSI_OUTPUT_TOO_SHORT);
    VALUE(LODHRUSSI_PLANT_BROKEN);
    VALUE(LODHRUSSI_TOO_MANY_ITEMS);
    VALUE(LODHRUSSI_NOT_THERE);
    VALUE(LODHRUSSI_NO_ITEMS);
    VALUE(LODHRUSSI_NO_SURVIVORS);
    VALUE(LODHRUSSI_TOO_MANY_SURVIVORS);
}

static void answers(void)
{
    VALUE(LODHRUSSI_ABSENT);
    VALUE(LODHRUSSI_STRUCK);
    VALUE(LODHRUSSI_KEPT);
    VALUE(LODHRUSSI_HOLDS);
    VALUE(LODHRUSSI_ITEM);
    VALUE(LODHRUSSI_PAIR);
    VALUE(LODHRUSSI_KB);
    VALUE(LODHRUSSI_EX);
    VALUE(LODHRUSSI_UNI);
    VALUE(LODHRUSSI_RBOX);
    VALUE(LODHRUSSI_DELEX);
    VALUE(LODHRUSSI_DELUNI);
    VALUE(LODHRUSSI_SYM);
}

static void words(uint64_t marks, uint64_t links)
{
    printf("%llu %llu %llu\n", (unsigned long long)marks, (unsigned long long)links,
           (unsigned long long)lodhrussi_words_needed(marks, links));
}

/* The length answered, and the sentence in full, cut to ten letters, and in no room at all. */
static void sentence(uint64_t refusal, uint64_t place)
{
    char whole[128], cut[11], none = '!';
    int length = lodhrussi_refusal_text(whole, sizeof whole, refusal, place);
    int of_cut = lodhrussi_refusal_text(cut, sizeof cut, refusal, place);
    int of_none = lodhrussi_refusal_text(&none, 0, refusal, place);
    printf("%d %d %d %s|%s|%c\n", length, of_cut, of_none, whole, cut, none);
}

int main(void)
{
    const uint64_t largest = ~(uint64_t)0;
    refusals();
    answers();

    for (uint64_t marks = 0; marks <= 40; marks++)
        for (uint64_t links = 0; links <= 4; links++)
            words(marks, links);
    words(0, 40);
    words(largest, 0);
    words(0, largest);
    words(largest, 1);
    words(largest, largest);

    for (uint64_t refusal = 0; refusal < 40; refusal++)
        printf("%s\n", lodhrussi_refusal_sentence(refusal));
    printf("%s\n", lodhrussi_refusal_sentence(largest));
    for (uint64_t refusal = 0; refusal < 40; refusal++) {
        sentence(refusal, 5);
        sentence(refusal, largest);
    }
    sentence(LODHRUSSI_TOO_MANY_RECORDS, 0);
    return 0;
}
