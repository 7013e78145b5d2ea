//! The check and the drawing of a plant on a small stack.

use comparison::owl::nested;
use comparison::plants::{Connection, Drawing, MOST};
use comparison::worked::{from_hex, S1};
use lodhrussi::{check_plant, draw_plant, judge, words_needed, PlantCheck, Refusal};
use std::thread::{scope, Builder};

/// Threads of so many bytes have room for a call: the least that the header promises,
/// and a small thread.
const FOR_CHECK: [usize; 2] = [160 * 1024, 256 * 1024];
const FOR_DRAWING: [usize; 2] = [80 * 1024, 256 * 1024];

/// What a call does in threads of so many bytes, the same in each.
fn in_threads<T: PartialEq + Send>(stacks: [usize; 2], call: impl Fn() -> T + Sync) -> T {
    let [first, second] = stacks.map(|stack| in_thread(stack, &call));
    assert!(first == second);
    first
}

fn in_thread<T: Send>(stack: usize, call: impl Fn() -> T + Send) -> T {
    scope(|scope| {
        let small = Builder::new().stack_size(stack);
        let thread = small.spawn_scoped(scope, call);
        let done = thread.expect("a thread").join();
        done.expect("room on the stack")
    })
}

/// Checks a plant in small threads, with a set of so many words, all full before.
fn on_a_small_stack(
    sheet: &[u8],
    plant: &[u8],
    words: usize,
) -> (Result<PlantCheck, Refusal>, Vec<u64>) {
    in_threads(FOR_CHECK, || {
        let mut set = vec![u64::MAX; words];
        (check_plant(sheet, plant, &mut set), set)
    })
}

/// Items with these names, and connections of role 0 between these.
fn plant(names: &[u16], joined: &[(usize, usize)]) -> Vec<u8> {
    let connection = |&(from, to): &_| Connection { from, to, role: 0 };
    let drawing = Drawing {
        individuals: names.into(),
        connections: joined.iter().map(connection).collect(),
    };
    drawing.records().concat()
}

/// A set with these dominoes alone.
fn with(dominoes: impl IntoIterator<Item = usize>, words: usize) -> Vec<u64> {
    let mut set = vec![0; words];
    for number in dominoes {
        set[number / 64] |= 1 << (number % 64);
    }
    set
}

#[test]
fn a_tiny_plant() {
    // the sheet without records has one domino
    let found = on_a_small_stack(&[], &plant(&[0], &[]), 1);
    assert_eq!(found, (Ok(PlantCheck::Holds), vec![1]));
    let found = on_a_small_stack(&from_hex(S1), &plant(&[1], &[(0, 0)]), 2);
    assert_eq!(found, (Ok(PlantCheck::Holds), vec![1 << 63, u64::MAX]));
}

/// The most items, each with the name and joined to one.
fn each_joined(to: impl Fn(usize) -> usize) -> Vec<u8> {
    let joined: Vec<_> = (0..MOST).map(|from| (from, to(from))).collect();
    plant(&[1; MOST], &joined)
}

/// Each item has the name and is joined to the next, the last to the first; then
/// the last is not.
#[test]
fn the_most_items() {
    let ring = each_joined(|from| (from + 1) % MOST);
    // left and right with both parts; not joined, joined, and joined back
    let whole = with([51, 55, 59], 1);
    let found = on_a_small_stack(&from_hex(S1), &ring, 1);
    assert_eq!(found, (Ok(PlantCheck::Holds), whole));

    // the last has the name alone: pairs of two others, to it and from it, and itself
    let open = with([51, 55, 59, 49, 53, 19, 27, 17], 1);
    let found = on_a_small_stack(&from_hex(S1), &ring[..ring.len() - 6], 1);
    assert_eq!(found, (Ok(PlantCheck::Item(1_023)), open));

    // two are joined both ways or not at all
    let across = each_joined(|from| MOST - 1 - from);
    let found = on_a_small_stack(&from_hex(S1), &across, 1);
    assert_eq!(found, (Ok(PlantCheck::Holds), with([51, 63], 1)));

    let more = plant(&[1; MOST + 1], &[(0, 0)]);
    let (found, set) = on_a_small_stack(&from_hex(S1), &more, 1);
    assert_eq!(found.map_err(|refusal| refusal.number), Err(23));
    assert_eq!(set, [u64::MAX]);
}

/// The names of an item in a plant of eight names.
fn names(item: usize) -> usize {
    37 * item % 256
}

/// To which item a role goes from an item.
fn next(from: usize, role: usize) -> usize {
    (from + 200 * role + 1) % MOST
}

fn role_set(from: usize, to: usize) -> usize {
    let plain = |role| usize::from(next(from, role) == to);
    let inverse = |role| usize::from(next(to, role) == from);
    let bits = |role| (plain(role) + 2 * inverse(role)) << (2 * role);
    (0..4).map(bits).sum()
}

/// The most items, each with some of eight names and joined by four roles; and the
/// dominoes.
fn eight_names_and_four_roles() -> (Vec<u8>, Vec<usize>) {
    let mut dominoes = vec![];
    for from in 0..MOST {
        for to in 0..MOST {
            let left = names(from) << 8 | role_set(from, to);
            dominoes.push(left << 8 | names(to));
        }
    }
    let of_each = |from| {
        (0..4).map(move |role| Connection {
            from,
            to: next(from, role),
            role,
        })
    };
    let drawing = Drawing {
        individuals: (0..MOST).map(|item| names(item) as u16).collect(),
        connections: (0..MOST).flat_map(of_each).collect(),
    };
    (drawing.records().concat(), dominoes)
}

#[test]
fn the_largest_set() {
    const WORDS: usize = 262_144;
    let (plant, dominoes) = eight_names_and_four_roles();
    let expected = with(dominoes, WORDS);

    let sheet = from_hex("03 07 10 03");
    let found = on_a_small_stack(&sheet, &plant, WORDS);
    assert_eq!(found, (Ok(PlantCheck::Holds), expected.clone()));

    let (refused, set) = on_a_small_stack(&sheet, &plant, WORDS - 1);
    assert_eq!(refused.map_err(|refusal| refusal.number), Err(10));
    assert!(set.iter().all(|&word| word == u64::MAX));

    // role 2 in role 3: of item 0 it goes to item 401 alone
    let sheet = from_hex("03 07 10 02 10 03 21 01 02");
    let found = on_a_small_stack(&sheet, &plant, WORDS);
    assert_eq!(found, (Ok(PlantCheck::Pair(0, 401)), expected));
}

/// The deepest sheets: nots in nots, ands in ands, and nots in nots of a role.
fn deepest_sheets() -> [Vec<u8>; 3] {
    let of_text = |text: &str| lodhrussi::imported(text.as_bytes()).expect("a sheet");
    // every name 0 is name 1
    let nots = of_text(&nested(252));
    // every name 0 and name 0 .. and name 1 is name 2
    let (ands, end) = ("ObjectIntersectionOf(:t0 ".repeat(126), ")".repeat(126));
    let ands = of_text(&format!("SubClassOf({ands}:t1{end} :t2)"));
    // everything is joined by role 0 to something
    let mut of_a_role = vec![0x01, 0x10, 0];
    (1..=250).for_each(|role| of_a_role.extend([0x12, role]));
    of_a_role.extend([0x07, 251, 0, 0x20, 0, 252]);
    [nots, ands, of_a_role]
}

#[test]
fn forms_in_forms() {
    let plants = [
        (plant(&[3, 2], &[]), plant(&[0, 1], &[])),
        (plant(&[5, 7], &[]), plant(&[2, 3], &[])),
        (plant(&[0, 0], &[(0, 1), (1, 1)]), plant(&[0, 0], &[(0, 1)])),
    ];
    for (sheet, (held, broken)) in deepest_sheets().iter().zip(plants) {
        let counts = lodhrussi::read(sheet).expect("a sheet without faults");
        let words = words_needed(counts);
        let (found, _) = on_a_small_stack(sheet, &held, words);
        assert_eq!(found, Ok(PlantCheck::Holds));
        let (found, _) = on_a_small_stack(sheet, &broken, words);
        assert_eq!(found, Ok(PlantCheck::Item(1)));
    }
}

/// Draws a plant in small threads, into an output of so many bytes, with a set that is
/// full before.
fn drawn_on_a_small_stack(sheet: &[u8], room: usize) -> (Result<usize, u64>, Vec<u64>, Vec<u8>) {
    let counts = lodhrussi::read(sheet).expect("a sheet without faults");
    in_threads(FOR_DRAWING, || {
        let (mut set, mut out) = (vec![u64::MAX; words_needed(counts)], vec![7; room]);
        let drawn = draw_plant(sheet, &mut set, &mut out);
        (drawn.map_err(|refusal| refusal.number), set, out)
    })
}

/// The set that judging leaves.
fn judged(sheet: &[u8]) -> Vec<u64> {
    let counts = lodhrussi::read(sheet).expect("a sheet without faults");
    let mut set = vec![0; words_needed(counts)];
    judge(sheet, &mut set).expect("room for the set");
    set
}

/// Draws a plant of that length, and checks it.
fn assert_drawn(sheet: &[u8], length: usize) {
    let expected = judged(sheet);
    let (drawn, set, plant) = drawn_on_a_small_stack(sheet, length);
    assert_eq!(drawn, Ok(length));
    assert!(set == expected);
    let (found, set) = on_a_small_stack(sheet, &plant, expected.len());
    assert_eq!(found, Ok(PlantCheck::Holds));
    assert!(set == expected);

    let (short, set, kept) = drawn_on_a_small_stack(sheet, length - 1);
    assert_eq!(short, Err(21));
    assert!(set == expected && kept == vec![7; length - 1]);
}

#[test]
fn drawn_plants() {
    assert_drawn(&[], 9);
    assert_drawn(&from_hex(S1), 2_448);
    // 341 members: every name 0 is only role 1 some role 1 name 0; role 0 in role 1
    let most = "03 00 10 01 07 01 00 08 01 02 20 00 03 10 00 21 05 01";
    assert_drawn(&from_hex(most), 489_285);
    // 256 members with four roles, with a small set and with the largest
    let four_roles = [0x10, 3];
    assert_drawn(&four_roles, 4_720_896);
    let mut each_name = vec![0x10, 3, 0x01];
    (0..8).for_each(|name| each_name.extend([0x03, name]));
    (2..10).for_each(|name| each_name.extend([0x20, 1, name]));
    assert_drawn(&each_name, 4_720_896);
}

#[test]
fn drawn_plants_of_forms_in_forms() {
    for (sheet, length) in deepest_sheets().iter().zip([81, 441, 324]) {
        assert_drawn(sheet, length);
    }
}

#[test]
fn sheets_without_a_plant_to_draw() {
    // everything is nothing; all dominoes of twelve names
    for (sheet, number) in [("01 02 20 00 01", 26), ("03 0B", 27)] {
        let sheet = from_hex(sheet);
        let (drawn, set, out) = drawn_on_a_small_stack(&sheet, 9);
        assert_eq!(drawn, Err(number));
        assert!(set == judged(&sheet) && out == [7; 9]);
    }
}
