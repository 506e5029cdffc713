//! The example server's own game: three vans are placed, four desks ask, think and claim. Whatever order they come in, each van goes to one
//! desk, the fourth finds nobody free, and a claim that came too late is refused with 12 or 14.

use std::collections::BTreeSet;
use std::process::Command;

#[test]
fn each_van_goes_to_one_desk() {
    let run = Command::new(env!("CARGO"))
        .args(["run", "--quiet", "--release", "--example", "server"])
        .current_dir(env!("CARGO_MANIFEST_DIR"))
        .output()
        .unwrap();
    assert!(run.status.success(), "{run:?}");
    let written = String::from_utf8(run.stdout).unwrap();
    let lines: Vec<&str> = written.lines().collect();
    assert_eq!(
        lines[..3],
        ["gateway: ok 1", "gateway: ok 2", "gateway: ok 3"]
    );

    let (mut served, mut vans, mut idle) = (BTreeSet::new(), BTreeSet::new(), BTreeSet::new());
    for line in &lines[3..] {
        let words: Vec<&str> = line.split([' ', ':']).filter(|w| !w.is_empty()).collect();
        match words[..] {
            ["desk", desk, "nobody", "is", "free"] => assert!(idle.insert(desk), "{written}"),
            ["desk", desk, "van", van, "at", _, "ok", _] => {
                assert!(served.insert(desk) && vans.insert(van), "{written}");
            }
            ["desk", _, "van", _, "at", _, "no", number, ..] => {
                assert!(["12", "14"].contains(&number), "{written}");
            }
            _ => panic!("{line}"),
        }
    }
    assert_eq!(vans, BTreeSet::from(["0", "1", "2"]), "{written}");
    assert_eq!((served.len(), idle.len()), (3, 1), "{written}");
    assert!(served.is_disjoint(&idle), "{written}");
}
