//! Profiles: their sums are the job's.

use crate::{all, of_example, printed};

/// The picks of the rows between two heads.
fn picks(table: &str) -> u64 {
    let row = |line: &str| line.split_whitespace().nth(1).unwrap().parse::<u64>();
    table.lines().skip(1).map(|line| row(line).unwrap()).sum()
}

#[test]
fn picks_by_block_and_by_line_are_the_work() {
    for example in all() {
        let profile = of_example("profile", &example, &[]);
        let parts: Vec<&str> = profile.split("\n\n").collect();
        let work = example
            .output
            .lines()
            .find_map(|line| line.strip_prefix("work "));
        let work: u64 = work.unwrap().parse().unwrap();
        assert!(
            parts[0].contains(&format!(", work {}", work)),
            "{}",
            profile
        );
        assert_eq!(picks(parts[1]), work, "{}", example.name);
        assert_eq!(picks(parts[2]), work, "{}", example.name);
    }
}

#[test]
fn counts_are_the_same_in_every_order() {
    for example in all() {
        let count = |order| {
            let profile = of_example("profile", &example, &["--order", order]);
            let lines = profile
                .lines()
                .filter(|line| !line.contains("while another"));
            lines.collect::<Vec<_>>().join("\n")
        };
        assert_eq!(count("passes"), count("last"), "{}", example.name);
        assert_eq!(count("passes"), count("random:4"), "{}", example.name);
    }
}

#[test]
fn forks_and_promotions() {
    let profile = printed(&["profile", "examples/sum/sum.tpal"]);
    assert!(profile.starts_with("end halt, work 157, span 81\nwork / span 1.94: "));
    assert!(profile.contains("forks 3, promotions 3, joins 3, faults 0\n"));
    let serial = printed(&["profile", "examples/sum/sum.tpal", "--interval", "0"]);
    assert!(serial.contains("forks 0, promotions 0, joins 0, faults 0\n"));
    assert!(serial.contains("picks while another task ran: 0, 0.0%\n"));
}
