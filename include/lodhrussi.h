/*
 * Lodhrussi: sheets of rules, and whether some finite plant of at least one item keeps them; drawn plants, and whether they keep
 * a sheet; a plant drawn for a sheet, which keeps it; sheets to and from OWL 2 functional-style syntax. For C99 and later, and for
 * C++.
 *
 * To link: `rt lib` in crates/capi writes crates/capi/out/libcapi.a (x86-64), then
 *
 *     cc -I include program.c crates/capi/out/libcapi.a
 *
 * docs/FORMAT.md has the formats of a sheet and of a plant, what a sheet means, and each call at length. In description logic a
 * sheet is a knowledge base, a rule an axiom, a link rule a role inclusion, a trait a concept name, a link a role, a mark a part of
 * the flattened knowledge base, a mark set a label, a pairing a domino, loose is defective, a plant is a finite interpretation and
 * an item an individual of it, and a plant that keeps the sheet is a model.
 *
 * Results. Every call returns the number of its refusal (enum lodhrussi_refusal), 0 for done.
 *   *place is written on a refusal and only then: the byte of the offending reference for 5, 6, 7, 16 and 17, the byte where the
 *   offending record starts for 1 to 4, 8 and 20, the byte in the text for 18 and 19, and 0 otherwise. Refused by import, 3 has
 *   place 0 too.
 *   The other numbers (*traits, *size, *verdict, ..) are written when done and only then; *condition only when struck, *first only
 *   when an item or a pair breaks a rule, *second only when a pair does.
 *   A refusal writes nothing to a list, a set or an output; but 21, 26 and 27 of draw plant leave the set as judging does.
 *
 * Order of refusals. A sheet is read record by record and the first fault is reported; inside a record 3, 1, 2, 4, then for each
 * reference in turn 5, then 6, 16 or 17, then 7, and last 8; after the last record 9. Then come 10 to 12 and 20 to 27, for the
 * calls that name them, in the order named there.
 *
 * Sets. Pairing number A * 2^(2L+c) + R * 2^c + B has left mark set A, link set R and right mark set B. A set of pairings is a list
 * of 64-bit words; pairing n is bit n mod 64 of word n / 64. Words needed: 2^(2c+2L) / 64, but at least 1: 1 for c + L up to 3,
 * 4,096 for 9, 262,144 for 12. With fewer than 64 pairings the spare bits of word 0 are cleared by open, settle, judge, check plant
 * and draw plant, and are ignored and kept by strike. Words beyond those needed are never touched.
 *
 * Pointers. None may be null, also where a length is 0; each must be aligned for its type and point to as many bytes or words as
 * the length beside it says, or to one number. All of it holds a value before the call, also where the call only writes. What is
 * written (list, set, output, numbers) overlaps nothing else that is handed over. Nothing is kept after the call. Calls on separate
 * memory do not meet: there is no state of the library's own.
 */
#ifndef LODHRUSSI_H
#define LODHRUSSI_H

#include <limits.h>
#include <stddef.h>
#include <stdint.h>
#include <stdio.h>

#ifdef __cplusplus
extern "C" {
#endif

/* What a call returns. 13 is withdrawn. */
enum lodhrussi_refusal {
    LODHRUSSI_DONE = 0,
    LODHRUSSI_UNKNOWN_KIND = 1,
    LODHRUSSI_BODY_CUT_OFF = 2,
    LODHRUSSI_TOO_MANY_RECORDS = 3,   /* a 256th record begins */
    LODHRUSSI_NUMBER_TOO_LARGE = 4,   /* of a trait or link: traits go up to 11, links up to 3 */
    LODHRUSSI_NOT_EARLIER = 5,        /* a reference that names no earlier record */
    LODHRUSSI_LINK_FOR_CLASS = 6,     /* a link where a class is wanted */
    LODHRUSSI_NAMED_AGAIN = 7,        /* already named once and not allowed again */
    LODHRUSSI_LINK_ON_EMPTY = 8,      /* the link of a some or only, or the first of a link rule, holds on the empty set of links */
    LODHRUSSI_TOO_MANY_MARKS = 9,     /* c + L above 12 */
    LODHRUSSI_SET_TOO_SHORT = 10,     /* fewer words than lodhrussi_words_needed */
    LODHRUSSI_NO_SUCH_PAIRING = 11,   /* number not below 2^(2c+2L) */
    LODHRUSSI_LIST_TOO_SHORT = 12,    /* fewer than 3c bytes */
    LODHRUSSI_SLOT_TOO_LONG = 14,     /* the queue program's; no call returns it */
    LODHRUSSI_QUEUE_BROKEN = 15,      /* the queue program's; no call returns it */
    LODHRUSSI_CLASS_FOR_LINK = 16,    /* a class where a link is wanted */
    LODHRUSSI_RULE_NAMED = 17,        /* rules are never named */
    LODHRUSSI_UNKNOWN_WORD = 18,      /* a word of a text that is not known */
    LODHRUSSI_CANNOT_STAND = 19,      /* a known word or parenthesis that cannot stand there, or a text that ends inside a form */
    LODHRUSSI_COMPOSED_LINK = 20,     /* a rule with a link that has not, and, or; or a link rule */
    LODHRUSSI_OUTPUT_TOO_SHORT = 21,  /* fewer bytes than are to be written */
    LODHRUSSI_PLANT_BROKEN = 22,      /* a plant's record of unknown kind, or cut off */
    LODHRUSSI_TOO_MANY_ITEMS = 23,    /* a plant's 1,025th item */
    LODHRUSSI_NOT_THERE = 24,         /* a plant's bit that is no trait or fresh mark, or an item or link that does not exist */
    LODHRUSSI_NO_ITEMS = 25,          /* a plant without items */
    LODHRUSSI_NO_SURVIVORS = 26,      /* a sheet that cannot be met, and so has no plant to draw */
    LODHRUSSI_TOO_MANY_SURVIVORS = 27 /* more than 341 survivors, which make more items than a plant may have */
};

/* What a strike finds. */
enum lodhrussi_verdict {
    LODHRUSSI_ABSENT = 0, /* not in the set */
    LODHRUSSI_STRUCK = 1, /* in it and loose, and now out */
    LODHRUSSI_KEPT = 2    /* in it and not loose */
};

/* The conditions, in the order in which they are tested, 7 before 4: what is wrong where one fails. */
enum lodhrussi_condition {
    LODHRUSSI_KB = 1,     /* the left side breaks a rule of the sheet */
    LODHRUSSI_EX = 2,     /* the left side lacks a 'some' claim that the right side meets */
    LODHRUSSI_UNI = 3,    /* the right side breaks an 'only' claim of the left side */
    LODHRUSSI_RBOX = 7,   /* the links between the two sides break a link rule of the sheet */
    LODHRUSSI_DELEX = 4,  /* a partner for a 'some' claim is missing */
    LODHRUSSI_DELUNI = 5, /* the left side lacks an 'only' claim, and a partner that would break it is missing */
    LODHRUSSI_SYM = 6     /* its mirror image is missing */
};

/* What the check of a plant finds. */
enum lodhrussi_breach {
    LODHRUSSI_HOLDS = 0, /* no item breaks a rule, and no pair a link rule */
    LODHRUSSI_ITEM = 1,  /* an item breaks a rule */
    LODHRUSSI_PAIR = 2   /* no item breaks a rule, and an ordered pair of items breaks a link rule */
};

/*
 * The words that a set takes for a sheet of so many marks (the sum of read's *traits, *fresh, *some and *only) and links: one bit
 * for each of the 2^(2c+2L) pairings, and at least one word. A sheet that is read needs at most 262,144. Of other counts, those
 * whose words no size_t can tell give the largest size_t.
 */
static inline size_t lodhrussi_words_needed(uint64_t marks, uint64_t links)
{
    uint64_t sum = marks + links < marks ? ~(uint64_t)0 : marks + links;
    uint64_t power = sum < 3 ? 0 : sum - 3; /* 64 pairings to a word, and 64 is 4^3 */
    return power < sizeof(size_t) * CHAR_BIT / 2 ? (size_t)1 << (2 * power) : (size_t)-1;
}

/* What a call's refusal says, without its place. Always a string. */
static inline const char *lodhrussi_refusal_sentence(uint64_t refusal)
{
    switch (refusal) {
    case LODHRUSSI_DONE:
        return "Nothing is refused.";
    case LODHRUSSI_UNKNOWN_KIND:
        return "The record is of no known kind.";
    case LODHRUSSI_BODY_CUT_OFF:
        return "The record is cut off by the end of the sheet.";
    case LODHRUSSI_TOO_MANY_RECORDS:
        return "The record is one too many: a sheet has at most 255.";
    case LODHRUSSI_NUMBER_TOO_LARGE:
        return "The record has a number that is too large: traits go up to 11, links up to 3.";
    case LODHRUSSI_NOT_EARLIER:
        return "The reference names no earlier record.";
    case LODHRUSSI_LINK_FOR_CLASS:
        return "The reference names a link where a class is wanted.";
    case LODHRUSSI_CLASS_FOR_LINK:
        return "The reference names a class where a link is wanted.";
    case LODHRUSSI_RULE_NAMED:
        return "The reference names a rule; rules are never named.";
    case LODHRUSSI_NAMED_AGAIN:
        return "The reference names a record that was named before and may be named only once.";
    case LODHRUSSI_LINK_ON_EMPTY:
        return "The record is a some, only or link rule whose (first) link holds on the empty set of links.";
    case LODHRUSSI_TOO_MANY_MARKS:
        return "The sheet has more than 12 marks and links together.";
    case LODHRUSSI_SET_TOO_SHORT:
        return "The set is too short: the sheet's pairings take more words.";
    case LODHRUSSI_NO_SUCH_PAIRING:
        return "The pairing number is too large: the sheet has no pairing of that number.";
    case LODHRUSSI_LIST_TOO_SHORT:
        return "The list is too short: each of the sheet's marks takes three bytes.";
    case LODHRUSSI_UNKNOWN_WORD:
        return "The word is not known.";
    case LODHRUSSI_CANNOT_STAND:
        return "The text goes on with what cannot stand there, or ends inside a form.";
    case LODHRUSSI_COMPOSED_LINK:
        return "The rule is a link rule or has a link with not, and, or; the OWL text of a sheet has neither.";
    case LODHRUSSI_OUTPUT_TOO_SHORT:
        return "The output is too short for what is to be written.";
    case LODHRUSSI_PLANT_BROKEN:
        return "The plant has a record of no known kind, or one that is cut off by the end of the plant.";
    case LODHRUSSI_TOO_MANY_ITEMS:
        return "The plant has too many items: a plant has at most 1024.";
    case LODHRUSSI_NOT_THERE:
        return "The plant has an item with a bit that is no trait or fresh mark, or a connection that names no earlier item or no "
               "known link.";
    case LODHRUSSI_NO_ITEMS:
        return "The plant has no items.";
    case LODHRUSSI_NO_SURVIVORS:
        return "The sheet cannot be met: it has no survivors.";
    case LODHRUSSI_TOO_MANY_SURVIVORS:
        return "The sheet has too many survivors: a plant is drawn of at most 341.";
    default:
        return "No call refuses with this number.";
    }
}

/*
 * The same with its place, "The record at byte 5 ..", where the refusal has one; 3 at 0 is import's. Writes at most room bytes to
 * text, a zero at the end included, and answers how long the whole sentence is, as snprintf does; 128 bytes are enough.
 */
static inline int lodhrussi_refusal_text(char *text, size_t room, uint64_t refusal, uint64_t place)
{
    const char *sentence = lodhrussi_refusal_sentence(refusal);
    int subject = 0; /* so many letters name what the place is of */
    if (refusal == LODHRUSSI_TOO_MANY_RECORDS && place == 0) /* of a sheet the place is 255 or more */
        return snprintf(text, room, "The text takes too many records: a sheet has at most 255.");
    switch (refusal) {
    case LODHRUSSI_UNKNOWN_KIND:
    case LODHRUSSI_BODY_CUT_OFF:
    case LODHRUSSI_TOO_MANY_RECORDS:
    case LODHRUSSI_NUMBER_TOO_LARGE:
    case LODHRUSSI_LINK_ON_EMPTY:
        subject = (int)sizeof "The record" - 1;
        break;
    case LODHRUSSI_NOT_EARLIER:
    case LODHRUSSI_LINK_FOR_CLASS:
    case LODHRUSSI_CLASS_FOR_LINK:
    case LODHRUSSI_RULE_NAMED:
    case LODHRUSSI_NAMED_AGAIN:
        subject = (int)sizeof "The reference" - 1;
        break;
    case LODHRUSSI_UNKNOWN_WORD:
        subject = (int)sizeof "The word" - 1;
        break;
    case LODHRUSSI_CANNOT_STAND:
        subject = (int)sizeof "The text" - 1;
        break;
    case LODHRUSSI_COMPOSED_LINK:
        subject = (int)sizeof "The rule" - 1;
        break;
    default:
        return snprintf(text, room, "%s", sentence);
    }
    return snprintf(text, room, "%.*s at byte %llu%s", subject, sentence, (unsigned long long)place, sentence + subject);
}

/*
 * Read. Answers how many marks there are of each kind, after normal form: *traits, *fresh, *some and *only are those that list
 * marks writes with kind 0, 1, 2 and 3. Their sum is c. The first is T, one more than the largest trait number in the sheet, or 0;
 * *links is L, the same for links. Occurrences of one claim (a some or only: the same kind after normal form, links written alike,
 * the same filler in normal form, if that is a trait, everything or nothing) share a mark.
 * Refuses: 1 to 8, 16, 17, then 9.
 */
uint64_t lodhrussi_read(const uint8_t *sheet, size_t n, uint64_t *place, uint64_t *traits, uint64_t *fresh, uint64_t *some,
                        uint64_t *only, uint64_t *links);

/*
 * List marks. Writes three bytes for each mark into the list of len bytes: its kind (0 trait, 1 fresh, 2 some, 3 only, after normal
 * form); the trait number, or the record number of the filler (fresh) or of the some or only first met; 1 if that record is read
 * under an odd number of nots, a rule's left side counting as one, else 0, and for a trait always 0. Bytes past 3c are kept.
 * Refuses: as read does, then 12.
 */
uint64_t lodhrussi_list_marks(const uint8_t *sheet, size_t n, uint8_t *list, size_t len, uint64_t *place);

/*
 * Open. Writes the opening set, all pairings that meet kb, ex, uni and rbox, and answers its size.
 * Refuses: as read does, then 10.
 */
uint64_t lodhrussi_open(const uint8_t *sheet, size_t n, uint64_t *set, size_t words, uint64_t *place, uint64_t *size);

/*
 * Strike. Answers a verdict (enum lodhrussi_verdict) on the pairing of this number, in a set of any contents. All other bits of the
 * set stay. When struck, and only then, *condition is the number of the first condition that failed (enum lodhrussi_condition).
 * Refuses: as read does, then 10, then 11.
 */
uint64_t lodhrussi_strike(const uint8_t *sheet, size_t n, uint64_t *set, size_t words, uint64_t number, uint64_t *place,
                          uint64_t *verdict, uint64_t *condition);

/*
 * Settle. Leaves the largest subset of the set that has nothing loose, and answers how many pairings that is.
 * Refuses: as read does, then 10.
 */
uint64_t lodhrussi_settle(const uint8_t *sheet, size_t n, uint64_t *set, size_t words, uint64_t *place, uint64_t *survivors);

/*
 * Judge. Opens and settles: leaves the survivors, whatever the set was before. Answers the opening size, the survivor count, and
 * met (1) or unmet (0): whether there is a survivor. It is met exactly if some finite plant of at least one item keeps the sheet,
 * and every such plant has all its pairings among the survivors.
 * Refuses: as read does, then 10.
 */
uint64_t lodhrussi_judge(const uint8_t *sheet, size_t n, uint64_t *set, size_t words, uint64_t *place, uint64_t *opening,
                         uint64_t *survivors, uint64_t *met);

/*
 * Check plant. The plant is m bytes, records of two kinds, in hex 40, an item, and 41, a connection. An item has two bytes, low
 * first: bit n says that it has mark n, which is a trait or fresh mark. A connection has two bytes for the item that it goes from,
 * two for the item that it goes to, each low first, and one for the number of its link. Items are numbered from 0 as they come, at
 * most 1,024; a connection is of earlier items, and may repeat. The some and only marks of an item are worked out from the
 * connections, their fillers as drawn.
 * Answers *breach (enum lodhrussi_breach): 0 if the mark set of each item keeps the flattened rules, and the links of each ordered
 * pair of items, an item with itself included, keep the link rules. If not, 1 and *first for the first item that breaks a flattened
 * rule, or else 2 and *first and *second for the first pair that breaks a link rule, by the item it goes from, then the one it goes
 * to. Writes the pairings of all these pairs into the set, whatever it was before, and whatever breaks. If nothing does, the plant,
 * its items with their traits and its connections, keeps the sheet, and judging drops none of these pairings. Fresh marks count as
 * drawn, so *breach can be 1 though every rule as written holds of the item.
 * Refuses: as read does, then 10; then by record 22, 23, 24; then 25. A refusal keeps the whole set.
 * Takes at most about 160 KB of stack, whatever the plant, and runs on a stack of 256 KB.
 */
uint64_t lodhrussi_check_plant(const uint8_t *sheet, size_t n, const uint8_t *plant, size_t m, uint64_t *set, size_t words,
                               uint64_t *place, uint64_t *breach, uint64_t *first, uint64_t *second);

/*
 * Draw plant. Judges, and writes a plant that keeps the sheet into the output of len bytes, in the records of check plant, and
 * answers its length. Of m survivors, in rising order of their numbers, it has 3m items in three layers: item g * m + i, where g is
 * 0, 1 or 2, has the traits and fresh marks of the right mark set of survivor i. If that is the left mark set of survivor j, there
 * are connections between this item and item ((g + 1) mod 3) * m + j: forth for each link that j has in its link set, and back for
 * each link that it has there reversed. All items come first, then the connections, by the item that they go from, then the one
 * that they go to, then their link, each once. Bytes past those written are kept. Check plant finds that the plant holds, and
 * writes exactly the survivors.
 * The set ends as judging leaves it, on 26, 27 and 21 too; m is then the number of ones in the words needed. A plant takes at most
 * 9m + 36Lm^2 bytes, which with 341 survivors and 4 links are 16,747,533; most take far fewer, but megabytes are possible.
 * Refuses: as judge does; then 26 if there are no survivors; 27 if there are more than 341; then 21.
 * Takes at most about 80 KB of stack, whatever the sheet, and runs on a stack of 256 KB.
 */
uint64_t lodhrussi_draw_plant(const uint8_t *sheet, size_t n, uint64_t *set, size_t words, uint8_t *out, size_t len,
                              uint64_t *place, uint64_t *written);

/*
 * Import. Writes the sheet of a text of n bytes into the output of len bytes and answers its length, 765 at most. The text is OWL 2
 * functional-style syntax of one part (docs/FORMAT.md): axioms SubClassOf(:t0 ObjectComplementOf(:t1)) in a row, with names :t0 to
 * :t11 and :k0 to :k3; words are parted by spaces or line feeds. Operands come before what uses them, left to right, each use in a
 * record of its own. Bytes past those written are kept. Whether the sheet has too many marks is left to reading it.
 * Refuses: the first in the text of 18, a word that is not known, its byte; 19, a known word or parenthesis that cannot stand
 * there, its byte, or a text that ends inside a form, its length; and 3, over 255 records, 0. Then 21.
 * Calls nest at most 255 forms deep, and run on a stack of 256 KB.
 */
uint64_t lodhrussi_import(const uint8_t *text, size_t n, uint8_t *out, size_t len, uint64_t *place, uint64_t *written);

/*
 * Export. Writes the rules of a sheet as such a text into the output of len bytes, each in a line SubClassOf(:t0 :t1) with a line
 * feed and no other spaces, and answers its length, some 12 KB at most. Bytes past those written are kept. Imported again, unless
 * that is refused 3 or 21, it gives a sheet with the same rules and the same verdict; also the same opening set and survivors if
 * the sheet's trait and link numbers all occur in rules.
 * Refuses: as read does; then 20 at the byte where the first rule starts that reaches a link with not, and, or, or the first link
 * rule, whichever comes first; then 21.
 * Calls nest at most 255 records deep, and run on a stack of 256 KB.
 */
uint64_t lodhrussi_export(const uint8_t *sheet, size_t n, uint8_t *out, size_t len, uint64_t *place, uint64_t *written);

#ifdef __cplusplus
}
#endif

#endif
