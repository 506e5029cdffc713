//! Stored inputs of the desk program.

use crate::build::{fan, one_leaf, road, Records};
use desk_ref::{calls, record, Call};
use reference::{small_map, Map};
use scenarios::{long_path, map_of_leaves, random_map, star, Dice, Size};

/// An input: a map, then an opening record and calls.
fn run(map: &Map, start: u32, run: &[Call]) -> Vec<u8> {
    let mut input = map.bytes();
    input.extend(calls(start, run));
    input
}

/// All inputs with their names.
pub fn all() -> Vec<(String, Vec<u8>)> {
    let mut inputs: Vec<(String, Vec<u8>)> = Vec::new();
    let mut add = |name: &str, input: Vec<u8>| inputs.push((name.to_string(), input));
    let small = small_map();
    add("transcript", transcript());
    add("empty", vec![]);
    for (place, length) in [(1, 12), (2, 24), (3, 40), (4, 102)] {
        let bytes = small.bytes();
        add(
            &format!("map_cut_before_end_of_record_{place}"),
            bytes[..length - 1].to_vec(),
        );
        add(
            &format!("map_cut_after_record_{place}"),
            bytes[..length].to_vec(),
        );
        add(&format!("map_cut_in_length_of_record_{place}"), {
            let start = [0, 12, 24, 40][place - 1];
            bytes[..start + 3].to_vec()
        });
    }
    openings(&mut add);
    sizes(&mut add);
    bad_calls(&mut add);
    refusals(&mut add);
    random(&mut add);
    windows(&mut add);
    inputs
}

/// The scope's worked run.
fn transcript() -> Vec<u8> {
    run(
        &small_map(),
        100,
        &[
            Call::Add(7, 2, 3, 1),
            Call::Add(2, 3, 4, 2),
            Call::Add(9, 0, 1, 0),
            Call::Question(0, 2),
            Call::Move(9, 1, 0, 4),
            Call::Claim(9, 103, 1),
            Call::Claim(9, 104, 1),
            Call::Question(0, 3),
            Call::Claim(9, 105, 2),
        ],
    )
}

/// Opening records, bad and good, and refused maps.
fn openings(add: &mut dyn FnMut(&str, Vec<u8>)) {
    let small = small_map().bytes();
    let with = |after: &[u8]| [&small[..], after].concat();
    add("opening_of_kind_6", with(&record(6, &[1, 0, 0, 0])));
    add("opening_too_short", with(&record(5, &[1, 0, 0])));
    add("opening_too_long", with(&record(5, &[1, 0, 0, 0, 0])));
    add("opening_cut", with(&record(5, &[1, 0, 0, 0])[..9]));
    add("opening_without_kind", with(&[1, 0, 0, 0, 5]));
    add("opening_of_length_0", with(&[0, 0, 0, 0]));
    add("opening_alone", with(&calls(7, &[])));
    add(
        "opening_twice",
        with(&[calls(7, &[]), calls(8, &[])].concat()),
    );
    let records = Records::of(&small_map());
    for (name, bytes) in [
        ("refused_1", records.clone().with_kind(1, 9).bytes()),
        ("refused_2", records.clone().with_count(0, 0).bytes()),
        ("refused_3", Records::of(&fan(9)).bytes()),
        ("refused_4", {
            let mut map = small_map();
            map.roads[0].weight = 0;
            map.bytes()
        }),
        ("refused_5", long_path(400, 3).bytes()),
    ] {
        add(name, [&bytes[..], &calls(7, &[Call::Remove(0)])].concat());
        add(
            &format!("{name}_and_bad_opening"),
            [&bytes[..], &[9]].concat(),
        );
        add(&format!("{name}_and_nothing_after"), bytes);
    }
    let mut start = calls(u32::MAX, &[Call::Add(0, 0, 1, 0)]);
    start.extend(Call::Question(0, 1).bytes());
    add("last_start_number", with(&start));
    let counts_cut = records.with_count(2, 513).bytes();
    add("counts_refused_though_cut", counts_cut[..20].to_vec());
}

/// What the length fields ask for.
fn sizes(add: &mut dyn FnMut(&str, Vec<u8>)) {
    let first = Records::of(&small_map()).bytes()[..12].to_vec();
    let field = |length: u32| length.to_le_bytes().to_vec();
    add("first_field_asks_65536", field(65_532));
    add("first_field_asks_65537", field(65_533));
    add("first_field_asks_most", field(u32::MAX));
    add("first_field_asks_65537_cut", field(65_533)[..3].to_vec());
    let second = |length| [first.clone(), field(length)].concat();
    add("second_field_asks_65536_in_all", second(65_520));
    add("second_field_asks_65537_in_all", second(65_521));
    let wrong_first = [vec![8, 0, 0, 0, 9, 9, 0, 0, 0, 0, 0, 0], field(65_521)].concat();
    add("too_much_asked_after_a_wrong_record", wrong_first);
    let mut last = small_map().bytes()[..40].to_vec();
    last.extend(field(65_536 - 44 + 1));
    add("last_field_asks_65537_in_all", last.clone());
    last.truncate(40);
    last.extend(field(65_536 - 44));
    add("last_field_asks_65536_in_all", last);
    for need in [16_384, 16_385] {
        let name = format!("need_of_{need}_words");
        add(&name, run(&map_with_need(need), 1, &[]));
    }
}

/// A map of leaves of 32, and one of 1 where the need is odd, with as many roads in its first leaf as the need asks for.
fn map_with_need(need: usize) -> Map {
    let mut sizes = vec![32; 5];
    if need % 2 == 1 {
        sizes.push(1);
    }
    let mut map = map_of_leaves(&sizes);
    let missing = need - reference::need(&map);
    map.roads = (0..32)
        .flat_map(|from| (0..32).map(move |to| road(from, to, 1)))
        .filter(|road| road.from != road.to)
        .take(missing / 4)
        .collect();
    assert_eq!(reference::need(&map), need);
    map
}

/// Bad and cut calls.
fn bad_calls(add: &mut dyn FnMut(&str, Vec<u8>)) {
    let opened = run(&small_map(), 3, &[Call::Add(1, 0, 1, 2)]);
    let good = Call::Question(1, 1).bytes();
    for kind in [0u16, 1, 2, 3, 4, 5, 15, 22, 23, 24, 272, 277, 65_535] {
        let bad = record(kind, &[0, 0]);
        add(
            &format!("call_of_kind_{kind}"),
            [&opened[..], &bad, &good].concat(),
        );
    }
    for (name, call) in [
        ("add", Call::Add(2, 0, 1, 2)),
        ("move", Call::Move(1, 0, 1, 1)),
        ("remove", Call::Remove(1)),
        ("claim", Call::Claim(1, 4, 9)),
        ("release", Call::Release(1, 9)),
        ("question", Call::Question(1, 1)),
    ] {
        let whole = call.bytes();
        let kind = u16::from_le_bytes([whole[4], whole[5]]);
        let body = &whole[6..];
        let longer = [body, &[0]].concat();
        let after = |bad: &[u8]| [&opened[..], bad, &good].concat();
        add(&format!("{name}_longer"), after(&record(kind, &longer)));
        add(
            &format!("{name}_shorter"),
            after(&record(kind, &body[..body.len() - 1])),
        );
        add(
            &format!("{name}_cut"),
            [&opened[..], &whole[..whole.len() - 1]].concat(),
        );
        add(
            &format!("{name}_cut_to_kind"),
            [&opened[..], &whole[..6]].concat(),
        );
        add(&format!("{name}_whole"), after(&whole));
    }
    let cut = [&opened[..], &[12]].concat();
    add("call_cut_in_length", cut);
    add("call_of_length_0", [&opened[..], &[0; 4], &good].concat());
    add(
        "call_of_length_1",
        [&opened[..], &[1, 0, 0, 0, 16], &good].concat(),
    );
    add(
        "call_of_greatest_length",
        [&opened[..], &[255; 4], &good].concat(),
    );
}

/// Every refusal of the calls, and the ends of the ranges.
fn refusals(add: &mut dyn FnMut(&str, Vec<u8>)) {
    let small = small_map();
    add(
        "k_0_32_33",
        run(
            &small,
            9,
            &[
                Call::Add(3, 0, 1, 1),
                Call::Question(0, 0),
                Call::Question(0, 32),
                Call::Question(0, 33),
                Call::Question(0, 65_535),
                Call::Question(4, 1),
                Call::Question(5, 1),
                Call::Question(65_535, 1),
            ],
        ),
    );
    add(
        "claims_of_held_vans",
        run(
            &small,
            50,
            &[
                Call::Add(3, 0, 1, 1),
                Call::Claim(3, 50, 1),
                Call::Claim(3, 51, 0),
                Call::Claim(3, 51, 255),
                Call::Claim(3, 52, 1),
                Call::Claim(3, 51, 1),
                Call::Claim(3, 52, 255),
                Call::Remove(3),
                Call::Release(3, 1),
                Call::Release(3, 0),
                Call::Move(3, 4, 1, 6),
                Call::Question(1, 5),
                Call::Release(3, 255),
                Call::Question(1, 5),
                Call::Release(3, 255),
                Call::Remove(3),
                Call::Claim(3, 55, 1),
            ],
        ),
    );
    add(
        "places",
        run(
            &small,
            0,
            &[
                Call::Add(1_023, 2, 3, 5),
                Call::Add(1_024, 2, 3, 5),
                Call::Add(1, 2, 3, 6),
                Call::Add(1, 0, 2, 0),
                Call::Add(1, 1, 4, 0),
                Call::Add(1, 5, 1, 0),
                Call::Add(1, 1, 5, 0),
                Call::Add(1, 65_535, 0, 0),
                Call::Add(1, 2, 2, 0),
                Call::Add(1_023, 9, 9, 9),
                Call::Move(2, 9, 9, 9),
                Call::Move(1_023, 0, 4, 9),
                Call::Move(1_023, 1, 4, 9),
                Call::Move(1_023, 3, 4, 3),
                Call::Move(1_023, 3, 4, 2),
                Call::Move(1_023, 3, 4, 2),
                Call::Question(4, 32),
            ],
        ),
    );
    add(
        "count_at_its_end",
        run(
            &small,
            u32::MAX - 2,
            &[
                Call::Add(0, 0, 1, 1),
                Call::Add(1, 0, 1, 1),
                Call::Add(2, 0, 1, 1),
                Call::Add(2, 0, 1, 5),
                Call::Move(1, 0, 1, 1),
                Call::Claim(1, u32::MAX, 3),
                Call::Claim(1, 0, 3),
                Call::Release(1, 3),
                Call::Remove(1),
                Call::Remove(2),
                Call::Question(1, 3),
            ],
        ),
    );
    add("neighbouring_refusals", neighbours(&small));
    add(
        "one_vertex",
        run(
            &one_leaf(1),
            5,
            &[
                Call::Question(0, 1),
                Call::Question(0, 32),
                Call::Question(1, 1),
                Call::Add(0, 0, 0, 0),
                Call::Remove(0),
            ],
        ),
    );
    let mut many = Vec::new();
    for van in 0..60 {
        many.push(Call::Add(59 - van, 0, 1, 2));
    }
    many.push(Call::Question(2, 32));
    many.push(Call::Question(2, 31));
    add("sixty_vans_at_one_place", run(&small, 0, &many));
}

/// Calls that two neighbours of their order of refusals fit, the count at its end for the last pairs; the earlier one is given. Van 0 is free, van 1 is
/// held by desk 7, and van 5 is not there.
fn neighbours(map: &Map) -> Vec<u8> {
    let start = u32::MAX - 4;
    let calls = [
        Call::Add(0, 0, 1, 1),
        Call::Add(1, 2, 3, 0),
        Call::Claim(1, start + 2, 7),
        Call::Add(0, 0, 2, 0),
        Call::Add(0, 1, 4, 0),
        Call::Add(5, 0, 2, u32::MAX),
        Call::Add(5, 1, 4, u32::MAX),
        Call::Move(1_024, 0, 1, 0),
        Call::Move(5, 0, 2, 0),
        Call::Move(5, 1, 4, 0),
        Call::Move(0, 0, 2, u32::MAX),
        Call::Move(0, 1, 4, u32::MAX),
        Call::Remove(1_024),
        Call::Claim(1_024, 0, 7),
        Call::Claim(5, 0, 0),
        Call::Claim(1, 0, 9),
        Call::Release(1_024, 7),
        Call::Release(5, 0),
        Call::Release(5, 7),
        Call::Move(0, 0, 1, 2),
        Call::Add(5, 0, 1, 9),
        Call::Add(5, 0, 1, 1),
        Call::Move(0, 0, 1, 9),
        Call::Move(0, 0, 1, 1),
        Call::Remove(1),
        Call::Remove(0),
        Call::Claim(0, 0, 9),
        Call::Claim(0, u32::MAX, 9),
        Call::Release(0, 7),
        Call::Release(1, 8),
        Call::Release(1, 7),
        Call::Question(1, 2),
    ];
    run(map, start, &calls)
}

/// Random calls on random maps.
fn random(add: &mut dyn FnMut(&str, Vec<u8>)) {
    for seed in 0..6 {
        let mut dice = Dice::new(1_000 + seed);
        let map = match seed {
            0 => star(40),
            _ => random_map(&mut dice, Size::SMALL),
        };
        let count = dice.from_to(60, 200);
        let input = scenarios::random_desk_input(&mut dice, &map, count);
        add(&format!("random_{seed}"), input);
    }
}

/// Bytes of the program's window on its input.
const WINDOW: usize = 65_552;

/// What a window does not show whole: a record of 16 bytes of which 15 stand in the first window, and a long map.
fn windows(add: &mut dyn FnMut(&str, Vec<u8>)) {
    let small = small_map();
    let mut long = vec![Call::Release(1, 1); 9];
    long.extend(vec![Call::Add(0, 0, 1, 1); 4_084]);
    assert_eq!(run(&small, 0, &long).len() + 15, WINDOW);
    long.extend([Call::Add(2, 0, 1, 1), Call::Question(1, 2)]);
    add("record_past_the_window", run(&small, 0, &long));
    add(
        "sound_map_of_41392_bytes",
        run(&map_of_bytes(41_392), 1, &[]),
    );
}

/// A map of six leaves of 32 and one of 25, with as many roads within the six as so many bytes have room for.
fn map_of_bytes(bytes: usize) -> Map {
    let mut map = map_of_leaves(&[32, 32, 32, 32, 32, 32, 25]);
    let missing = bytes - map.bytes().len();
    map.roads = (0..6 * 32)
        .flat_map(|from| (0..32).map(move |to| road(from, from / 32 * 32 + to, 1)))
        .filter(|road| road.from != road.to)
        .take(missing / 8)
        .collect();
    assert_eq!(map.bytes().len(), bytes);
    map
}
