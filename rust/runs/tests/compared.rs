//! The compiled heap agrees with the model, and the calls that say so are of all kinds.

use runs::compare::{compare, report, Archive, Tally};

fn agrees(seed: u64, calls: u64) -> Tally {
    match compare(seed, calls, || Archive, |_| ()) {
        Ok(tally) => tally,
        Err(difference) => {
            let report = report(seed, &difference, || Archive);
            panic!("{}{}", report.words, report.calls.join("\n"))
        }
    }
}

#[test]
fn all_kinds_of_calls_and_answers() {
    let tally = agrees(1, 200_000);
    let [insert, append, take, give_back, resize] = tally.answers;
    for (name, answers, possible) in [
        ("region", insert, [0, 4, 6].as_slice()),
        ("region behind another", append, &[0, 4, 6]),
        ("take", take, &[0, 1, 2, 6]),
        ("return", give_back, &[0, 2, 3, 6]),
        ("resize", resize, &[0, 1, 2, 3, 6]),
    ] {
        for (number, &times) in answers.iter().enumerate() {
            assert_eq!(
                times > 0,
                possible.contains(&number),
                "{name}: {times} times {number}\n{tally}"
            );
        }
    }
    for (name, times) in [
        ("stayed", tally.stayed),
        ("down", tally.down),
        ("elsewhere", tally.elsewhere),
    ] {
        assert!(times > 1_000, "resizes, {name}: {times}\n{tally}");
    }
    assert!(tally.too_short > 10 && tally.heaps > 100, "{tally}");
}

#[test]
fn the_same_seed_makes_the_same_calls() {
    let (one, other) = (agrees(9, 5_000), agrees(9, 5_000));
    assert_eq!(one.answers, other.answers);
    assert_ne!(one.answers, agrees(10, 5_000).answers);
    assert_eq!(one.calls(), 5_000);
}
