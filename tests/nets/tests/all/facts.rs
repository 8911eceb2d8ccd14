//! The facts for the check of the definitions cover what they should.

use nets::facts::lines;
use nets::features::Feature;

#[test]
fn equal_seeds_give_equal_facts() {
    assert_eq!(lines(3, 20), lines(3, 20));
    assert_ne!(lines(3, 20), lines(4, 20));
}

#[test]
fn every_ring_fan_loop_rule_and_refusal_is_met() {
    let lines = lines(1, 200);
    let rings = (3..=8).map(|n| format!("\"ring {n}\""));
    let fans = (1..=6).map(|n| format!("\"fan {n}\""));
    let neighbours = (0..=2).map(|n| format!("\"direction with {n} neighbours\""));
    let refusals = (1..=12).chain([14, 16, 17, 18]);
    let refusals = refusals.map(|n| format!("\"verdict\":[{n},"));
    let tensions = (0..=5).map(|t| format!("\"tension\":{t},"));
    let faces = (3..=8).map(|n| format!("\"face of {n} sides\""));
    let named = [
        "loop without marks",
        "loop with one mark",
        "loop with two marks or more",
        "edge inside a segment",
        "end edge",
        "segment of one edge",
        "inner edge",
        "first direction alone",
        "second direction alone",
        "mean of two directions with four inner edges",
        "mean of two directions without four inner edges",
    ];
    for letter in *b"VABMSCDE" {
        let given = format!(",{letter},");
        let has_it = |line: &&String| {
            line.split("\"letters\":[[")
                .nth(1)
                .is_some_and(|l| l.contains(&given))
        };
        assert!(lines.iter().any(|line| has_it(&line)), "no {letter}");
    }
    for wish in ["\"asked\":true", "\"asked\":false"] {
        assert!(lines.iter().filter(|line| line.contains(wish)).count() > 200);
    }
    let features = Feature::ALL.map(Feature::name);
    let named = named.iter().chain(&features);
    let named = named.map(|name| format!("\"{name}\""));
    let wanted = rings.chain(fans).chain(neighbours).chain(refusals);
    for text in wanted.chain(named).chain(faces).chain(tensions) {
        assert!(lines.iter().any(|line| line.contains(&text)), "no {text}");
    }
}
