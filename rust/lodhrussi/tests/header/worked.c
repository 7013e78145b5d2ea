/* Each call once or more, by the header alone. What a call does not write stays 9. */
#include "lodhrussi.h"

#include <inttypes.h>
#include <stdio.h>
#include <string.h>

static const uint8_t s1[] = {0x01, 0x10, 0x00, 0x03, 0x00, 0x07, 0x01, 0x02, 0x20, 0x00, 0x03};

static void line(const char *call, const uint64_t *numbers, int count)
{
    printf("%s", call);
    for (int i = 0; i < count; i++)
        printf(" %" PRIu64, numbers[i]);
    printf("\n");
}

/* The refusal, place, verdict and condition of one strike. */
static void strike(const uint8_t *sheet, size_t n, uint64_t *set, uint64_t number)
{
    uint64_t out[4] = {9, 9, 9, 9};
    out[0] = lodhrussi_strike(sheet, n, set, 1, number, &out[1], &out[2], &out[3]);
    line("strike", out, 4);
}

/* The refusal and place of a read, and the counts. */
static void read_sheet(const uint8_t *sheet, size_t n)
{
    uint64_t out[7] = {9, 9, 9, 9, 9, 9, 9};
    out[0] = lodhrussi_read(sheet, n, &out[1], &out[2], &out[3], &out[4], &out[5], &out[6]);
    line("read", out, 7);
}

/* S1; a sheet with no trait, whose numbers all differ; and one with a trait, which has all kinds of marks. */
static void counts(void)
{
    static const uint8_t no_trait[] = {
        0x01, 0x02, 0x10, 0x00, 0x11, 0x00, 0x07, 0x02, 0x00, 0x20, 0x00, 0x04, 0x07, 0x03, 0x00, 0x20, 0x00, 0x06,
        0x05, 0x00, 0x00, 0x07, 0x02, 0x08, 0x20, 0x00, 0x09, 0x08, 0x02, 0x01, 0x20, 0x00, 0x0B, 0x08, 0x03, 0x01,
        0x20, 0x00, 0x0D, 0x08, 0x02, 0x00, 0x20, 0x00, 0x0F, 0x05, 0x00, 0x00, 0x08, 0x02, 0x11, 0x20, 0x00, 0x12};
    static const uint8_t one_trait[] = {
        0x03, 0x00, 0x10, 0x00, 0x10, 0x01, 0x01, 0x02, 0x07, 0x01, 0x00, 0x20, 0x03, 0x05, 0x07, 0x02, 0x00,
        0x20, 0x03, 0x07, 0x04, 0x00, 0x07, 0x01, 0x09, 0x20, 0x03, 0x0A, 0x08, 0x01, 0x00, 0x20, 0x03, 0x0C,
        0x08, 0x02, 0x00, 0x20, 0x03, 0x0E, 0x08, 0x01, 0x04, 0x20, 0x03, 0x10, 0x04, 0x00, 0x08, 0x02, 0x12,
        0x20, 0x03, 0x13};
    read_sheet(s1, sizeof s1);
    read_sheet(no_trait, sizeof no_trait);
    read_sheet(one_trait, sizeof one_trait);
}

/* The refusal and place of an import or export, the length written, and the bytes of the output. */
static void written(const char *call, const uint64_t *numbers, const uint8_t *out, size_t len)
{
    line(call, numbers, 3);
    for (size_t i = 0; i < len; i++)
        printf("%02X%c", out[i], i + 1 < len ? ' ' : '\n');
}

static void import(const char *text, size_t len)
{
    uint64_t numbers[3] = {9, 9, 9};
    uint8_t out[10] = {9, 9, 9, 9, 9, 9, 9, 9, 9, 9};
    numbers[0] = lodhrussi_import((const uint8_t *)text, strlen(text), out, len, &numbers[1], &numbers[2]);
    written("import", numbers, out, sizeof out);
}

static void export_sheet(const uint8_t *sheet, size_t n, size_t len)
{
    uint64_t numbers[3] = {9, 9, 9};
    uint8_t out[22] = {9, 9, 9, 9, 9, 9, 9, 9, 9, 9, 9, 9, 9, 9, 9, 9, 9, 9, 9, 9, 9, 9};
    numbers[0] = lodhrussi_export(sheet, n, out, len, &numbers[1], &numbers[2]);
    written("export", numbers, out, sizeof out);
}

/* Texts and sheets, in enough room and in too little. */
static void texts(void)
{
    static const uint8_t sheet[] = {0x03, 0x00, 0x03, 0x01, 0x20, 0x00, 0x01};
    static const uint8_t composed[] = {0x01, 0x10, 0x00, 0x13, 0x01, 0x01, 0x07, 0x02, 0x00, 0x20, 0x00, 0x03};
    import("SubClassOf(:t0 :t1)", 10);
    import("SubClassOf(:t0 :t1)", 7);
    import("SubClassOf(:t0 :t1)", 6);
    import("SubClassOf(:t0 :t12)", 10);
    import("SubClassOf(:t0 :k0)", 10);
    import("SubClassOf ", 10);
    import("", 0);
    export_sheet(sheet, sizeof sheet, 22);
    export_sheet(sheet, sizeof sheet, 20);
    export_sheet(sheet, sizeof sheet, 19);
    export_sheet(composed, sizeof composed, 22);
    export_sheet(composed, 11, 22);
}

/* k0 within k1: opened, struck where only k0 joins, then its mirror image, kept where both join, judged; and refusals. */
static void link_rules(void)
{
    static const uint8_t sheet[] = {0x10, 0x00, 0x10, 0x01, 0x21, 0x00, 0x01};
    static const uint8_t on_empty[] = {0x10, 0x00, 0x12, 0x00, 0x21, 0x01, 0x00};
    static const uint8_t named[] = {0x10, 0x00, 0x21, 0x00, 0x00, 0x12, 0x01};
    uint64_t set[1] = {9}, full[1] = {~(uint64_t)0};

    uint64_t opened[3] = {9, 9, 9};
    opened[0] = lodhrussi_open(sheet, sizeof sheet, set, 1, &opened[1], &opened[2]);
    line("open", opened, 3);

    strike(sheet, sizeof sheet, full, 1);
    strike(sheet, sizeof sheet, full, 2);
    strike(sheet, sizeof sheet, full, 5);

    uint64_t judged[5] = {9, 9, 9, 9, 9};
    judged[0] = lodhrussi_judge(sheet, sizeof sheet, set, 1, &judged[1], &judged[2], &judged[3], &judged[4]);
    line("judge", judged, 5);

    read_sheet(on_empty, sizeof on_empty);
    read_sheet(named, sizeof named);
    export_sheet(sheet, sizeof sheet, 22);
}

/* The refusal and place of a check of a plant, what was found, and the set, which has more words than are needed. */
static void check(const uint8_t *sheet, size_t n, const uint8_t *plant, size_t m, size_t words)
{
    uint64_t out[5] = {9, 9, 9, 9, 9}, set[5] = {9, 9, 9, 9, 9};
    out[0] = lodhrussi_check_plant(sheet, n, plant, m, set, words, &out[1], &out[2], &out[3], &out[4]);
    line("check", out, 5);
    for (int i = 0; i < 5; i++)
        printf("%" PRIX64 "%c", set[i], i + 1 < 5 ? ' ' : '\n');
}

/* Plants that hold, that an item breaks, that a pair breaks; each refusal of a plant, and two that come before. */
static void plants(void)
{
    static const uint8_t s6[] = {0x03, 0x00, 0x10, 0x00, 0x04, 0x00, 0x07, 0x01, 0x02, 0x20, 0x00, 0x03};
    static const uint8_t within[] = {0x10, 0x00, 0x10, 0x01, 0x21, 0x00, 0x01};
    static const uint8_t joined[] = {0x40, 0x01, 0x00, 0x41, 0x00, 0x00, 0x00, 0x00, 0x00};
    static const uint8_t second_alone[] = {0x40, 0x01, 0x00, 0x41, 0x00, 0x00, 0x00, 0x00, 0x00, 0x40, 0x00, 0x00};
    static const uint8_t fresh[] = {0x40, 0x01, 0x00, 0x40, 0x04, 0x00, 0x41, 0x00, 0x00, 0x01, 0x00, 0x00};
    static const uint8_t not_fresh[] = {0x40, 0x01, 0x00, 0x40, 0x00, 0x00, 0x41, 0x00, 0x00, 0x01, 0x00, 0x00};
    static const uint8_t two[] = {0x40, 0x00, 0x00, 0x40, 0x00, 0x00, 0x41, 0x00, 0x00, 0x01, 0x00, 0x00};
    static const uint8_t three[] = {0x40, 0x00, 0x00, 0x40, 0x00, 0x00, 0x40, 0x00, 0x00, 0x41, 0x02, 0x00, 0x01, 0x00, 0x00};
    static const uint8_t a_some_drawn[] = {0x40, 0x02, 0x00};
    static uint8_t items[3 * 1025];
    for (size_t i = 0; i < sizeof items; i += 3)
        items[i] = 0x40;

    check(s1, sizeof s1, joined, sizeof joined, 5);
    check(s6, sizeof s6, fresh, sizeof fresh, 5);
    check(s1, sizeof s1, joined, 3, 5);
    check(s1, sizeof s1, second_alone, sizeof second_alone, 5);
    check(s6, sizeof s6, not_fresh, sizeof not_fresh, 5);
    check(within, sizeof within, two, sizeof two, 5);
    check(within, sizeof within, three, sizeof three, 5);

    check(s1, 7, joined, sizeof joined, 5);
    check(s1, sizeof s1, joined, 1, 0);
    check(s1, sizeof s1, joined, 8, 5);
    check(within, sizeof within, items, sizeof items, 5);
    check(s1, sizeof s1, a_some_drawn, sizeof a_some_drawn, 5);
    check(s1, sizeof s1, joined, 0, 5);
}

/* The refusal and place of a drawing and the length written; the output up to its last bytes that are 9, and their number; the
   first and the last word of the set, whose words are 7 before. */
static void draw(const uint8_t *sheet, size_t n, size_t words, size_t len)
{
    uint64_t numbers[3] = {9, 9, 9}, set[17];
    uint8_t out[91];
    int end = sizeof out;
    for (int i = 0; i < 17; i++)
        set[i] = 7;
    memset(out, 9, sizeof out);
    numbers[0] = lodhrussi_draw_plant(sheet, n, set, words, out, len, &numbers[1], &numbers[2]);
    line("draw", numbers, 3);
    while (end > 0 && out[end - 1] == 9)
        end--;
    for (int i = 0; i < end; i++)
        printf("%02X ", out[i]);
    printf("kept %d\n%" PRIX64 " %" PRIX64 "\n", (int)sizeof out - end, set[0], set[16]);
}

/* The length of the plant that is drawn, what the check of it finds, and the sets that the two leave. */
static void draw_and_check(const uint8_t *sheet, size_t n)
{
    static uint8_t plant[25569];
    uint64_t out[4] = {9, 9, 9, 9}, survivors[5] = {9, 9, 9, 9, 9}, drawn[5] = {9, 9, 9, 9, 9}, length = 9;
    lodhrussi_draw_plant(sheet, n, survivors, 5, plant, sizeof plant, &out[0], &length);
    lodhrussi_check_plant(sheet, n, plant, (size_t)length, drawn, 5, &out[0], &out[1], &out[2], &out[3]);
    printf("%" PRIu64, length);
    line(" checked", out, 4);
    for (int i = 0; i < 5; i++)
        printf("%" PRIX64 " %" PRIX64 "%c", survivors[i], drawn[i], i + 1 < 5 ? ' ' : '\n');
}

/* A plant with and one without connections, in enough room, in just enough and in too little; each other refusal. */
static void drawings(void)
{
    static const uint8_t s6[] = {0x03, 0x00, 0x10, 0x00, 0x04, 0x00, 0x07, 0x01, 0x02, 0x20, 0x00, 0x03};
    static const uint8_t both_ways[] = {0x10, 0x00, 0x11, 0x00, 0x21, 0x01, 0x00};
    static const uint8_t cannot[] = {0x01, 0x02, 0x20, 0x00, 0x01};
    static const uint8_t five_traits[] = {0x03, 0x04};

    draw(s1, 0, 17, 91);
    draw(both_ways, sizeof both_ways, 1, 91);
    draw(both_ways, sizeof both_ways, 1, 90);
    draw(both_ways, sizeof both_ways, 1, 89);
    draw(cannot, sizeof cannot, 1, 0);
    draw(five_traits, sizeof five_traits, 16, 0);
    draw(s1, 7, 17, 91);
    draw(s1, sizeof s1, 0, 91);
    draw_and_check(s1, sizeof s1);
    draw_and_check(s6, sizeof s6);
}

int main(void)
{
    static const uint8_t not_earlier[] = {0x04, 0x00};
    static const uint8_t link_for_class[] = {0x10, 0x00, 0x07, 0x00, 0x00};
    static const uint8_t class_for_link[] = {0x01, 0x10, 0x00, 0x07, 0x00, 0x01};
    static const uint8_t rule_named[] = {0x01, 0x20, 0x00, 0x00, 0x10, 0x00, 0x07, 0x02, 0x01};
    static const uint8_t named_twice[] = {0x03, 0x00, 0x04, 0x00, 0x05, 0x01, 0x01};
    uint8_t list[7] = {9, 9, 9, 9, 9, 9, 9};
    uint64_t set[1] = {9};

    counts();

    uint64_t listed[2] = {9, 9};
    listed[0] = lodhrussi_list_marks(s1, sizeof s1, list, sizeof list, &listed[1]);
    line("list", listed, 2);
    for (size_t i = 0; i < sizeof list; i++)
        printf("%d%c", list[i], i + 1 < sizeof list ? ' ' : '\n');

    uint64_t opened[3] = {9, 9, 9};
    opened[0] = lodhrussi_open(s1, sizeof s1, set, 1, &opened[1], &opened[2]);
    line("open", opened, 3);

    strike(s1, sizeof s1, set, 32);
    strike(s1, sizeof s1, set, 2);
    strike(s1, sizeof s1, set, 34);
    strike(s1, sizeof s1, set, 64);

    uint64_t settled[3] = {9, 9, 9};
    settled[0] = lodhrussi_settle(s1, sizeof s1, set, 1, &settled[1], &settled[2]);
    line("settle", settled, 3);

    uint64_t judged[5] = {9, 9, 9, 9, 9};
    judged[0] = lodhrussi_judge(s1, sizeof s1, set, 1, &judged[1], &judged[2], &judged[3], &judged[4]);
    line("judge", judged, 5);

    uint64_t refused[5] = {9, 9, 9, 9, 9};
    refused[0] = lodhrussi_judge(s1, 7, set, 1, &refused[1], &refused[2], &refused[3], &refused[4]);
    line("judge", refused, 5);

    read_sheet(not_earlier, sizeof not_earlier);
    read_sheet(link_for_class, sizeof link_for_class);
    read_sheet(class_for_link, sizeof class_for_link);
    read_sheet(rule_named, sizeof rule_named);
    read_sheet(named_twice, sizeof named_twice);

    texts();
    link_rules();
    plants();
    drawings();
    return 0;
}
