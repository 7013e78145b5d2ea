//! Document 02's queue, and its refusals.

use comparison::queues::{slot_telling, slots, worked_slots, END_KIND, SLOT, SLOT_KIND, WORKED};
use comparison::random::Random;
use reference::queue::printed;

/// Document 02's queue of S1 and S2, without its end.
fn two_slots() -> Vec<u8> {
    worked_slots(&mut Random::seeded(30))
}

fn then(mut queue: Vec<u8>, more: &[u8]) -> Vec<u8> {
    queue.extend(more);
    queue
}

#[test]
fn the_worked_queue() {
    for rest in [&[][..], &[SLOT_KIND], &[0, END_KIND]] {
        let queue = then(two_slots(), &[&[END_KIND], rest].concat());
        assert_eq!(printed(&queue), WORKED.concat());
    }
}

#[test]
fn a_queue_of_no_slots() {
    let expected = "sheets 0 met 0 unmet 0 refused 0 survivors 0\n";
    assert_eq!(printed(&[END_KIND]), expected);
    assert_eq!(printed(&[]), "refused 15\n");
}

#[test]
fn a_length_that_is_too_large() {
    let mut queue = slot_telling(766, &[], &mut Random::seeded(31));
    queue.push(END_KIND);
    let expected = "0 refused 14\nsheets 1 met 0 unmet 0 refused 1 survivors 0\n";
    assert_eq!(printed(&queue), expected);
    assert_eq!(printed(&queue[..SLOT - 1]), "refused 15\n");
}

#[test]
fn queues_that_do_not_end() {
    let both = "0 met 16\n1 unmet 0\nrefused 15\n";
    let queue = two_slots();
    assert_eq!(printed(&queue), both);
    assert_eq!(printed(&then(queue.clone(), &[SLOT_KIND])), both);
    assert_eq!(printed(&then(queue.clone(), &[0x32, END_KIND])), both);
    assert_eq!(printed(&queue[..SLOT + 1]), "0 met 16\nrefused 15\n");
    assert_eq!(printed(&queue[..SLOT - 1]), "refused 15\n");
}

#[test]
fn the_4097th_slot() {
    let mut random = Random::seeded(32);
    let most = slots(&[[]; 4_096], &mut random);
    let lines: String = (0..4_096).map(|n| format!("{n} met 1\n")).collect();
    let ended = printed(&then(most.clone(), &[END_KIND]));
    let totals = "sheets 4096 met 4096 unmet 0 refused 0 survivors 4096\n";
    assert_eq!(ended, lines.clone() + totals);
    let more = [slots(&[[]], &mut random), vec![END_KIND]].concat();
    assert_eq!(printed(&then(most, &more)), lines + "refused 15\n");
}
