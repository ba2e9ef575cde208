//! Document 01's worked input, byte by byte, and its whole output.

use mizzencord_compare::replica::printout::printout;

use crate::build::*;

#[rustfmt::skip]
pub const INPUT: [u8; 126] = [
    // Three panels, of which this is the last.
    3, 2,
    // Weak 0/1 at clock 10: set 4 to 6.
    18, 0, 1, 0,  0, 1,  10, 0, 0, 0,  2, 4, 0, 0,  6, 0, 0, 0,
    // Weak 1/1 at clock 5: add 3 to 4.
    18, 0, 1, 0,  1, 1,  5, 0, 0, 0,  3, 4, 0, 0,  3, 0, 0, 0,
    // Strong 1/2 at clock 12: claim 0 for 2, with context {1/1}.
    82, 0, 2, 0,  1, 2,  12, 0, 0, 0,  4, 0, 0, 0,  2, 0, 0, 0,
    0, 0, 0, 0, 0, 0, 0, 0,  1, 0, 0, 0, 0, 0, 0, 0,
    0, 0, 0, 0, 0, 0, 0, 0,  0, 0, 0, 0, 0, 0, 0, 0,
    0, 0, 0, 0, 0, 0, 0, 0,  0, 0, 0, 0, 0, 0, 0, 0,
    0, 0, 0, 0, 0, 0, 0, 0,  0, 0, 0, 0, 0, 0, 0, 0,
    // Settlement of 1/2.
    6, 0, 3, 0,  1, 2,
];

const OUTPUT: &str = "\
board 3 2
1 1 0 1 0 0
2 1 1 1 0 1
3 2 1 2 0 0
4 3 1 2 0 2
settled 2 unsettled 1 undone 3 carried 6
register 0 2
register 4 6
";

fn printed(input: &[u8]) -> String {
    String::from_utf8(printout(input)).unwrap()
}

#[test]
fn the_worked_input_prints_its_whole_output() {
    assert_eq!(printed(&INPUT), OUTPUT);
}

#[test]
fn the_order_after_it() {
    let mut panel = panel(3, 2);
    panel.hear(&weak(0, 1, 10, set(4, 6)));
    panel.hear(&weak(1, 1, 5, add(4, 3)));
    panel.hear(&strong(1, 2, 12, claim(0, 2), &[(1, 1)]));
    panel.settle(strong(1, 2, 0, read(0), &[]).number);
    assert_eq!(order(&panel), [(1, 1), (1, 2), (0, 1)]);
}

#[test]
fn too_little_input_and_a_bad_shop() {
    assert_eq!(printed(&[]), "board refused 16\n");
    assert_eq!(printed(&[3]), "board refused 16\n");
    assert_eq!(printed(&[9]), "board refused 16\n");
    assert_eq!(printed(&[3, 3]), "board refused 1\n");
    assert_eq!(printed(&[0, 0, 1]), "board refused 1\n");
    assert_eq!(printed(&[1, 0]), "board 1 0\nsettled 0 unsettled 0 undone 0 carried 0\n");
}

#[test]
fn an_unreadable_message_ends_the_reading() {
    let cut = printed(&INPUT[..125]);
    assert!(
        cut.ends_with("4 - - - 16 0\nsettled 0 unsettled 3 undone 1 carried 4\nregister 0 2\nregister 4 6\n")
    );
    let mut spare = INPUT;
    spare[2 + 13] = 1;
    assert_eq!(printed(&spare), "board 3 2\n1 - - - 19 0\nsettled 0 unsettled 0 undone 0 carried 0\n");
    let mut kind = INPUT;
    kind[2 + 18 + 2] = 4;
    let text = printed(&kind);
    assert_eq!(
        text,
        "board 3 2\n1 1 0 1 0 0\n2 - - - 18 0\nsettled 0 unsettled 1 undone 0 carried 1\nregister 4 6\n"
    );
}

#[test]
fn only_the_first_65536_bytes_count() {
    let mut input = vec![2, 0];
    while input.len() < 65536 + 18 {
        input.extend_from_slice(&INPUT[20..38]);
    }
    let text = printed(&input);
    // 3640 whole messages fit behind the shop bytes, and 14 bytes of another.
    assert!(text.contains("\n3640 1 1 1 7 0\n3641 - - - 16 0\nsettled 0 unsettled 1 undone 0 carried 1\n"));
    assert_eq!(text, printed(&input[..65536]));
    let whole = printed(&input[..2 + 18 * 3640]);
    assert!(whole.contains("\n3640 1 1 1 7 0\nsettled"));
}
