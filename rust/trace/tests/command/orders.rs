//! Every order comes to the run program's result; lists of slots; budgets.

use crate::{all, of_example, result_of, Folder};
use trace::course::Course;
use trace::effect::Pick;
use trace::order::{Order, Turns};
use trace::player::Player;
use trace::watch::{Observer, Watch};

const ORDERS: [&str; 6] = [
    "passes", "first", "last", "random:1", "random:2", "random:3",
];

#[test]
fn every_order_ends_with_the_run_programs_result() {
    for example in all() {
        for order in ORDERS {
            let trace = of_example("trace", &example, &["--order", order]);
            assert_eq!(
                result_of(&trace),
                example.output,
                "{}, {}",
                example.name,
                order
            );
        }
    }
}

/// The slots that are picked.
#[derive(Default)]
struct Slots(Vec<u8>);

impl Observer for Slots {
    fn picked(&mut self, pick: &Pick, _: &Turns) -> std::io::Result<()> {
        self.0.push(pick.slot as u8);
        Ok(())
    }
}

/// The list that is drawn up for a summary is the one that picks on the engine come to; and a course
/// has the states of these picks.
#[test]
fn lists_are_what_the_engine_picks() {
    for example in all() {
        let player = Player::new(&example.job).unwrap();
        let program = model::Job::parse(&example.job).unwrap().program;
        for order in [Order::First, Order::Last, Order::Random(5), Order::Passes] {
            let watch = Watch {
                player: &player,
                program: &program,
            };
            let mut slots = Slots::default();
            let first = player.first().clone();
            let last = watch
                .until(100, first, &mut Turns::new(&order), &mut slots)
                .unwrap();
            let course = Course::new(&player, &order, 100).unwrap();
            assert!(course.last() == last, "{}, {:?}", example.name, order);
            assert!(player.replay(&slots.0) == last);
            if let Order::Listed(list) = course.order() {
                assert_eq!(*list, slots.0, "{}, {:?}", example.name, order);
            }
        }
    }
}

#[test]
fn a_list_of_slots() {
    let f = include_str!("../../../../examples/f/f.tpal");
    let folder = Folder::with("a_list_of_slots", "f.tpal", f);
    folder.write("order", "0 0 1 // the child first\n1 1 5\n0 0 0 0 0");
    let trace = folder.printed("trace f.tpal --order order");
    let refused: Vec<&str> = trace
        .lines()
        .filter(|line| line.contains("refused"))
        .collect();
    assert_eq!(refused.len(), 2);
    assert!(refused[0].ends_with("refused 23: no task runs there"));
    assert!(refused[1].ends_with("refused 21: there is no such slot"));
    assert!(trace.contains("\nend halt\nwork 9\n"));
    let summary = folder.printed("trace f.tpal --order order --summary");
    assert!(trace.ends_with(&summary));
    let part = folder.printed("trace f.tpal --order order --from 5 --to 6");
    let picks: Vec<&str> = part.lines().take(4).map(str::trim).collect();
    assert!(picks[1].starts_with("-    1") || picks[1].starts_with("5    0"));
    assert!(part.ends_with(&summary));
}

#[test]
fn a_list_that_is_at_its_end() {
    let f = include_str!("../../../../examples/f/f.tpal");
    let folder = Folder::with("a_list_at_its_end", "f.tpal", f);
    folder.write("order", "0 0 1 1 7");
    let expected = "end spent\nwork 4\n\nthe order's 5 picks are done:\n\
                    slot 0 stands at f.tpal:13:3: block main, x := x + 1\n\
                    slot 1 waits for slot 0\n";
    for options in ["", "--summary"] {
        let trace = folder.printed(&format!("trace f.tpal --order order {}", options));
        assert!(trace.ends_with(expected), "{}", trace);
    }
}

#[test]
fn budgets() {
    let f = include_str!("../../../../examples/f/f.tpal");
    let folder = Folder::with("budgets", "f.tpal", f);
    let expected = "end spent\nwork 4\n\nthe budget of 4 picks is spent:\n\
                    slot 0 stands at f.tpal:14:3: block main, join jr\n\
                    slot 1 stands at f.tpal:17:3: block child, join jr\n";
    for options in ["", "--summary", "--from 2 --to 3"] {
        let trace = folder.printed(&format!("trace f.tpal --budget 4 {}", options));
        assert!(trace.ends_with(expected), "{}", trace);
    }
    for budget in ["9", "10"] {
        let trace = folder.printed(&format!("trace f.tpal --summary --budget {}", budget));
        assert!(trace.starts_with("end halt\nwork 9\n"));
    }
    let none = folder.printed("trace f.tpal --budget 0");
    assert!(none.contains("end spent\nwork 0\n"));
    assert!(none.ends_with("slot 0 stands at f.tpal:11:3: block main, jr := jralloc exit\n"));
}
