//! Blocks, frames, loops and tags; names; and why no value or no item stands there.

use super::*;

#[test]
fn names_are_not_empty() {
    assert_eq!(refused("data_"), (17, 0, 1, 1, 0));
    assert_eq!(refused(" # c\nDATA_ _a 1"), (17, 5, 2, 1, 0));
    assert_eq!(refused("data_x save_"), (17, 7, 1, 8, 0));
    assert_eq!(refused("data_x save_ save_"), (17, 7, 1, 8, 0));
    assert_eq!(refused("data_x _"), (17, 7, 1, 8, 0));
    assert_eq!(refused("data_x _ 'b"), (17, 7, 1, 8, 0));
    assert_eq!(refused("data_x loop_ _"), (17, 13, 1, 14, 0));
    assert_eq!(refused("data_x loop_ _a _ 1"), (17, 16, 1, 17, 0));
    assert_eq!(refused("data_x save_f _"), (17, 14, 1, 15, 0));
    assert_eq!(refused("data_x save_f loop_ _"), (17, 20, 1, 21, 0));
    assert_eq!(refused("data_x data_"), (17, 7, 1, 8, 0));
}

#[test]
fn names_are_not_long() {
    let name = |length: usize| "n".repeat(length);
    let tokens = |length: usize| {
        [
            (format!("data_{}", name(length)), 0),
            (format!("data_x data_{}", name(length)), 7),
            (format!("data_x save_{} save_", name(length)), 7),
            (format!("data_x _{} 1", name(length - 1)), 7),
            (format!("data_x loop_ _{} 1", name(length - 1)), 13),
        ]
    };
    for (text, _) in tokens(75) {
        read(&text);
    }
    for length in [76, 77, 2000] {
        for (text, offset) in tokens(length) {
            assert_eq!(refused(&text), (17, offset, 1, 1 + offset, 0), "{text:?}");
        }
    }
}

#[test]
fn several_blocks_may_follow() {
    assert_eq!(kinds("data_x data_x"), [1, 1]);
    assert_eq!(kinds("data_x _a 1 data_y _a 2"), [1, 4, 14, 1, 4, 14]);
    assert_eq!(kinds("data_x loop_ _a 1 data_y"), [1, 5, 6, 14, 7, 1]);
    assert_eq!(
        kinds("data_x save_f save_ DATA_y save_f save_"),
        [1, 2, 3, 1, 2, 3]
    );
    assert_eq!(refused("data_x loop_ _a _b 1 data_y"), (5, 7, 1, 8, 1));
}

#[test]
fn a_loop_without_values_is_refused_at_its_last_tag() {
    assert_eq!(refused("data_x loop_ _a"), (6, 13, 1, 14, 1));
    assert_eq!(refused("data_x loop_ _a _b"), (6, 16, 1, 17, 1));
    assert_eq!(refused("data_x loop_ _a loop_ _b 1"), (6, 13, 1, 14, 2));
    assert_eq!(refused("data_x loop_ _a data_y"), (6, 13, 1, 14, 2));
    assert_eq!(refused("data_x loop_ _a ["), (6, 13, 1, 14, 3));
    assert_eq!(refused("data_x loop_ _a 'b"), (6, 13, 1, 14, 4));
    assert_eq!(refused("data_x loop_ _a\n;b"), (6, 13, 1, 14, 5));
    assert_eq!(refused("data_x save_f loop_ _a save_"), (6, 20, 1, 21, 2));
    assert_eq!(refused("data_x loop_"), (8, 7, 1, 8, 0));
    assert_eq!(refused("data_x loop_ 1"), (8, 7, 1, 8, 0));
}

#[test]
fn a_frame_left_open() {
    let long = format!("data_x save_f save_{}", "n".repeat(76));
    for text in [
        "data_x save_f",
        "data_x save_f _a 1",
        "data_x save_f # c",
        "data_x save_f data_y",
        "data_x save_f data_",
        "data_x save_f Data_y save_",
        "data_x save_f save_g",
        "data_x save_f _a 1 save_g save_",
        long.as_str(),
    ] {
        assert_eq!(refused(text), (4, 7, 1, 8, 0), "{text:?}");
    }
    assert_eq!(kinds("data_x save_f save_"), [1, 2, 3]);
    assert_eq!(
        kinds("data_x save_f _a 1 SAVE_\nsave_g save_"),
        [1, 2, 4, 14, 3, 2, 3]
    );
}

#[test]
fn failures_inside_a_frame_count() {
    assert_eq!(refused("data_x save_f _a"), (6, 14, 1, 15, 1));
    assert_eq!(refused("data_x save_f _a save_"), (6, 14, 1, 15, 2));
    assert_eq!(refused("data_x save_f _a data_y"), (6, 14, 1, 15, 2));
    assert_eq!(
        refused("data_x save_f loop_ _a _b 1 save_"),
        (5, 14, 1, 15, 1)
    );
    assert_eq!(refused("data_x save_f x save_"), (7, 14, 1, 15, 0));
    assert_eq!(refused("data_x save_f loop_x save_"), (7, 14, 1, 15, 0));
    assert_eq!(refused("data_x save_f stop_ save_"), (7, 14, 1, 15, 0));
    assert_eq!(
        refused("data_x save_f loop_ _a 1 stop_ save_"),
        (7, 25, 1, 26, 0)
    );
    assert_eq!(refused("data_x save_f loop_ save_"), (8, 14, 1, 15, 0));
}

#[test]
fn a_5_comes_before_a_4_or_17_of_the_next_token() {
    assert_eq!(refused("data_x loop_ _a _b 1 data_"), (5, 7, 1, 8, 1));
    assert_eq!(refused("data_x loop_ _a _b 1 save_"), (5, 7, 1, 8, 1));
    assert_eq!(refused("data_x loop_ _a _b 1 _"), (5, 7, 1, 8, 1));
    assert_eq!(
        refused("data_x save_f loop_ _a _b 1 data_y"),
        (5, 14, 1, 15, 1)
    );
    assert_eq!(refused("data_x save_f loop_ _a _b 1"), (5, 14, 1, 15, 1));
    assert_eq!(
        refused("data_x loop_ _a _b _c 1 2 3 4 5 stop_"),
        (5, 7, 1, 8, 2)
    );
}

#[test]
fn no_data() {
    assert_eq!(refused(""), (3, 0, 1, 1, 0));
    assert_eq!(refused(" # c\n x"), (3, 6, 2, 2, 0));
    assert_eq!(refused("_a 1"), (3, 0, 1, 1, 0));
    assert_eq!(refused("#data_x"), (3, 7, 1, 8, 0));
    assert_eq!(refused("dat"), (3, 0, 1, 1, 0));
}

#[test]
fn why_a_tag_has_no_value() {
    for (behind, reason) in [
        ("", 1),
        (" # b", 1),
        (" stop_", 2),
        (" # b\n save_", 2),
        (" _b 1", 3),
        (" _", 3),
        (" $b", 3),
        (" [", 3),
        (" ]", 3),
        (" 'b", 4),
        ("\n;b", 5),
    ] {
        let text = format!("data_x _a{behind}");
        assert_eq!(refused(&text), (6, 7, 1, 8, reason), "{text:?}");
    }
    let long_tag = format!("data_x _a _{}", "n".repeat(75));
    assert_eq!(refused(&long_tag), (6, 7, 1, 8, 3));
}

#[test]
fn why_no_item_stands_directly_behind_a_loop() {
    for (next, reason) in [("'b", 4), ("stop_", 2), ("Global_", 2), ("[", 3), ("$", 3)] {
        let text = format!("data_x loop_ _a 1 {next}");
        assert_eq!(refused(&text), (7, 18, 1, 19, reason), "{text:?}");
    }
    assert_eq!(refused("data_x loop_ _a 1\n;b"), (7, 18, 2, 1, 5));
    assert_eq!(refused("data_x loop_ _a 1 # c\n'b"), (7, 22, 2, 1, 4));
    assert_eq!(refused("data_x data_y loop_ _a 1 stop_"), (7, 25, 1, 26, 2));
}

#[test]
fn elsewhere_a_7_has_no_reason() {
    assert_eq!(
        refused("data_x loop_ _a 1 save_f save_ ["),
        (7, 31, 1, 32, 0)
    );
    assert_eq!(refused("data_x loop_ _a 1 _b 2 ["), (7, 23, 1, 24, 0));
    assert_eq!(refused("data_x loop_ _a 1 data_y ["), (7, 25, 1, 26, 0));
    assert_eq!(refused("data_x save_f loop_ _a 1 ["), (7, 25, 1, 26, 0));
    assert_eq!(refused("data_x ["), (7, 7, 1, 8, 0));
}
