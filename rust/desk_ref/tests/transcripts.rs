//! The scope's transcript, and the points of the input that a reader of it could take otherwise.

use desk_ref::{calls, record, transcript, Call};
use reference::{small_map, Map, Road};

fn small_with(rest: &[u8]) -> String {
    let mut input = small_map().bytes();
    input.extend(rest);
    transcript(&input)
}

#[test]
fn the_transcript_of_the_scope() {
    let run = calls(
        100,
        &[
            Call::Add(7, 2, 3, 1),
            Call::Add(2, 3, 4, 2),
            Call::Add(9, 0, 1, 0),
            Call::Question(0, 2),
            Call::Move(9, 1, 0, 4),
            Call::Claim(9, 103, 1),
            Call::Claim(9, 104, 1),
            Call::Question(0, 3),
            Call::Claim(9, 105, 2),
        ],
    );
    assert_eq!(
        small_with(&run),
        "0 open 5 7 3\n1 ok 101\n2 ok 102\n3 ok 103\n4 list 2\n4 van 9 4 103\n4 van 2 12 102\n5 ok 104\n6 no 14\n\
         7 ok 105\n8 list 2\n8 van 2 12 102\n8 van 7 13 101\n9 no 12\nend 9\n"
    );
}

#[test]
fn an_input_that_ends_inside_the_map() {
    assert_eq!(transcript(&[]), "0 no 1\nend 0\n");
    let map = small_map().bytes();
    for length in 0..map.len() {
        assert_eq!(transcript(&map[..length]), "0 no 1\nend 0\n", "{length}");
    }
    assert_eq!(transcript(&map), "0 bad\nend 0\n");
}

#[test]
fn fields_that_ask_for_too_much() {
    let too_much = "0 no 5\nend 0\n";
    assert_eq!(transcript(&65_533u32.to_le_bytes()), too_much);
    assert_eq!(transcript(&65_532u32.to_le_bytes()), "0 no 1\nend 0\n");
    assert_eq!(transcript(&u32::MAX.to_le_bytes()), too_much);
    assert_eq!(transcript(&65_533u32.to_le_bytes()[..3]), "0 no 1\nend 0\n");
    let mut counts = record(1, &[0, 0, 0, 0, 0, 0]);
    assert_eq!(transcript(&counts), "0 no 2\nend 0\n");
    counts.extend(65_521u32.to_le_bytes());
    assert_eq!(transcript(&counts), too_much);
}

#[test]
fn a_map_that_needs_too_many_words() {
    let map = Map {
        parents: vec![65_535, 0, 0, 0, 0, 0, 0, 0, 0],
        leaves: (0..256).map(|v| 1 + v / 32).collect(),
        roads: (0..255)
            .map(|v| Road {
                from: v,
                to: v + 1,
                weight: 1,
            })
            .collect(),
    };
    assert_eq!(transcript(&map.bytes()), "0 no 5\nend 0\n");
}

#[test]
fn bad_opening_records() {
    let bad = "0 bad\nend 0\n";
    assert_eq!(small_with(&record(5, &[0, 0, 0])), bad);
    assert_eq!(small_with(&record(5, &[0, 0, 0, 0, 0])), bad);
    assert_eq!(small_with(&record(6, &[0, 0, 0, 0])), bad);
    assert_eq!(small_with(&record(5, &[0, 0, 0, 0])[..9]), bad);
    assert_eq!(small_with(&[1, 0, 0, 0, 5]), bad);
    assert_eq!(
        small_with(&record(5, &[0, 0, 0, 0])),
        "0 open 5 7 3\nend 0\n"
    );
}

#[test]
fn bad_calls() {
    let mut kinds = vec![0, 1, 4, 5, 6, 15, 22, 23, 255, 256 + 16, 65_535];
    kinds.push(0);
    for kind in kinds {
        let mut run = calls(3, &[Call::Remove(0)]);
        run.extend(record(kind, &[0, 0]));
        run.extend(Call::Remove(0).bytes());
        assert_eq!(
            small_with(&run),
            "0 open 5 7 3\n1 no 8\n2 bad\nend 2\n",
            "{kind}"
        );
    }
    for call in [
        Call::Add(0, 0, 1, 0),
        Call::Move(0, 0, 1, 0),
        Call::Remove(0),
        Call::Claim(0, 0, 1),
        Call::Release(0, 1),
        Call::Question(0, 1),
    ] {
        let whole = call.bytes();
        for length in 1..whole.len() {
            let mut run = calls(3, &[]);
            run.extend(&whole[..length]);
            assert_eq!(small_with(&run), "0 open 5 7 3\n1 bad\nend 1\n");
        }
        let kind = u16::from_le_bytes([whole[4], whole[5]]);
        let mut longer = whole[6..].to_vec();
        longer.push(0);
        for body in [&whole[6..whole.len() - 1], &longer] {
            let mut run = calls(3, &[]);
            run.extend(record(kind, body));
            assert_eq!(small_with(&run), "0 open 5 7 3\n1 bad\nend 1\n");
        }
    }
}

#[test]
fn the_last_call_that_counts() {
    let mut input = small_map().bytes();
    input.extend(calls(0, &[]));
    for _ in 0..1_000_000 {
        input.extend(Call::Remove(0).bytes());
    }
    assert!(transcript(&input).ends_with("\n1000000 no 8\nend 1000000\n"));
    input.push(18);
    assert!(transcript(&input).ends_with("\n1000000 no 8\n1000001 bad\nend 1000001\n"));
    input.pop();
    input.extend(Call::Remove(0).bytes());
    assert!(transcript(&input).ends_with("\n1000000 no 8\n1000001 bad\nend 1000001\n"));
}
