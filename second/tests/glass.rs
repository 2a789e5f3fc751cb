//! The second plain glass on the examples of docs/, and the format of days.
use second::day::{print_day, print_said, read_day, Line, Thing};
use second::glass::Glass;
use second::known::{Known, CORE, EVERYTHING};
use second::picture::Picture;

/// All that is said on a day, and the picture after it.
fn played(known: Known, day: &str) -> (Vec<String>, String) {
    let mut glass = Glass::new(known);
    let mut said = Vec::new();
    for thing in things(day) {
        said.extend(glass.turn(&thing).iter().map(print_said));
    }
    (said, Picture::of(&glass).written_out())
}

fn things(day: &str) -> Vec<Thing> {
    let lines = read_day(day.as_bytes()).expect("a day that can be read");
    let thing = |line| if let Line::Comes(thing) = line { Some(thing) } else { None };
    lines.into_iter().filter_map(thing).collect()
}

#[test]
fn one_pane() {
    let (said, _) = played(CORE, "look 10 3\nfrom 1 \"hi\\r\\n\\e[6n\"\nkeys \"a\\x01\\x01\\x01c\"\ngone 1\n");
    assert_eq!(said, ["start 1 10 2", "send 1 \"\\x1b[2;1R\"", "send 1 \"a\"", "send 1 \"\\x01\"", "over"]);
    let (_, picture) = played(CORE, "look 10 3\nfrom 1 \"hi\\r\\n\"");
    assert_eq!(picture, "hi\n\n 0*\ncursor 2 1\n");
}

const THREE_PANES: &str = "look 11 4\nkeys \"\\x01|\\x01-\"\nfrom 1 \"a\"\nfrom 2 \"b\"\nfrom 3 \"c\"\n";

#[test]
fn three_panes() {
    let (said, picture) = played(EVERYTHING, THREE_PANES);
    assert_eq!(said, ["start 1 11 3", "start 2 5 3", "size 1 5 3", "start 3 5 1", "size 2 5 1"]);
    assert_eq!(picture, "a    |b\n     |-----\n     |c\n 0*\ncursor 3 8\n");
    let (said, picture) = played(EVERYTHING, &format!("{THREE_PANES}gone 2\n"));
    assert_eq!(said.last().unwrap(), "size 3 5 3");
    assert_eq!(picture, "a    |c\n     |\n     |\n 0*\ncursor 1 8\n");
}

#[test]
fn windows() {
    let keys = "look 12 3\nkeys \"\\x01c\\x01c\\x01p\"\n";
    let (_, picture) = played(EVERYTHING, keys);
    assert_eq!(picture, "\n\n 0  1* 2\ncursor 1 1\n");
    let rest =
        [("gone 2", " 0  1*"), ("gone 1", " 0* 1"), ("gone 3", " 0  1*"), ("gone 2\ngone 3", " 0*"), ("keys \"\\x01n\\x01n\"", " 0* 1  2")];
    for (more, status) in rest {
        let (_, picture) = played(EVERYTHING, &format!("{keys}{more}\n"));
        assert_eq!(picture.lines().nth(2), Some(status), "after {more}");
    }
}

#[test]
fn days_are_read_as_they_are_printed() {
    for seed in 0..50 {
        let day = second::make_day::make_day(seed, EVERYTHING);
        assert_eq!(things(&print_day(&day)), day);
    }
}

#[test]
fn bad_lines_are_named() {
    let bad = [
        "look 0 2",
        "look 1 1",
        "look 1 61",
        "look 201 2",
        "look 1 2 ",
        "look  1 2",
        " show",
        "keys a",
        "keys \"a",
        "keys \"\\q\"",
        "keys \"\\x1\"",
    ];
    let more = ["gone", "gone x", "gone 12345678901", "gone -1", "from 1", "from \"a\"", "show 1", "dance", "keys \"a\"b\"", "keys"];
    for line in bad.iter().chain(&more) {
        let read = read_day(format!("# first\n{line}\n").as_bytes());
        assert!(read.as_ref().is_err_and(|wrong| wrong.starts_with("line 2: ")), "{line}: {read:?}");
    }
}
