//! Orders of several hundred requests that change: what is undone is what
//! stands behind the common start.

use mizzencord_compare::replica::calls;
use mizzencord_compare::replica::panel::Panel;
use mizzencord_compare::replica::printout::printout;
use mizzencord_compare::replica::request::*;

use crate::build::*;
use crate::examples::{stored_case, CALLS, PRINTOUT};

/// The requests that panel 7 of 8 can hear.
const MOST_HEARD: usize = 448;

/// The number at a place, counted from 1, of those that seven panels make in
/// turn.
fn heard(place: usize) -> (u8, u8) {
    (((place - 1) % 7) as u8, ((place - 1) / 7 + 1) as u8)
}

/// Panel 7 of 8 after these are heard and carried out.
pub fn panel_with(requests: &[Request]) -> Panel {
    let mut panel = panel(8, 7);
    for request in requests {
        assert_eq!(panel.hear(request).refusal, 0);
    }
    assert_eq!(panel.run_due(), requests.len());
    panel
}

/// So many requests in clock order, each ten behind the one before.
pub fn in_clock_order(requests: usize) -> Vec<Request> {
    let request = |place, (panel, event)| weak(panel, event, 10 * place as u32, add(4, 1));
    (1..=requests).map(|place| request(place, heard(place))).collect()
}

/// The undos of a settlement in an order that is carried out. The request at a
/// place comes to stand behind the first so many, which it names: all behind
/// these are undone, but none where it stands there already.
fn undone_by_settling(requests: usize, place: usize, named: usize) -> usize {
    if named + 1 == place {
        0
    } else {
        requests - named
    }
}

#[test]
fn a_late_request_undoes_what_stands_behind_it_at_every_place() {
    let before = panel_with(&in_clock_order(MOST_HEARD - 1));
    for place in 0..MOST_HEARD {
        let mut panel = before.clone();
        panel.hear(&weak(6, 64, 10 * place as u32 + 5, set(4, 0)));
        let behind = MOST_HEARD - 1 - place;
        assert_eq!((panel.executed().len(), panel.owed()), (place, behind + behind + 1));
        panel.run_due();
        assert_eq!((panel.undos_done() as usize, panel.register(4).value as usize), (behind, behind));
    }
}

/// Settles the request at a place of a full order, which names so many of the
/// first.
fn settle_in_full_order(place: usize, named: usize) {
    let mut requests = in_clock_order(MOST_HEARD);
    let (maker, event) = heard(place);
    let context: Vec<_> = (1..=named).map(heard).collect();
    requests[place - 1] = strong(maker, event, 10 * place as u32, set(4, 0), &context);
    let mut panel = panel_with(&requests);
    assert_eq!(panel.settle(Number::new(maker, event)).refusal, 0);
    let undone = undone_by_settling(MOST_HEARD, place, named);
    assert_eq!((panel.executed().len(), panel.owed()), (MOST_HEARD - undone, 2 * undone));
    panel.run_due();
    assert_eq!(panel.undos_done() as usize, undone);
    assert_eq!(panel.register(4).value as usize, MOST_HEARD - 1 - named);
}

#[test]
fn a_settlement_undoes_what_stands_behind_the_common_start_at_every_place() {
    for place in 1..=MOST_HEARD {
        settle_in_full_order(place, place - 1);
        settle_in_full_order(place, place.saturating_sub(5));
        settle_in_full_order(MOST_HEARD, place - 1);
    }
}

/// The lines of a printout up to its last message: kind and number of each
/// message, none of which undoes anything but the last ones.
fn message_lines(messages: &[(u16, (u8, u8))], undone: &[usize]) -> Vec<String> {
    let mut undos = vec![0; messages.len() - undone.len()];
    undos.extend(undone);
    let mut lines = vec!["board 8 7".to_string()];
    for (place, ((kind, (panel, event)), undone)) in (1..).zip(messages.iter().zip(undos)) {
        lines.push(format!("{place} {kind} {panel} {event} 0 {undone}"));
    }
    lines
}

fn printed(name: &str) -> Vec<String> {
    let text = String::from_utf8(printout(&stored_case(PRINTOUT, name))).unwrap();
    text.lines().map(String::from).collect()
}

/// With 444 at 10 to 4,440, the late ones stand at 4,435, 5, 2,225 and 4,425:
/// behind them then stand 1, 444 and the first late one, 222 and the first late
/// one, and the 443rd, the first late one and the 444th.
#[test]
fn the_stored_late_requests() {
    let name = "444 heard in clock order, then one before the last, one before all, one in the middle and \
                one before the last three";
    let messages: Vec<_> = (1..=448).map(|place| (1, heard(place))).collect();
    let mut lines = message_lines(&messages, &[1, 445, 223, 3]);
    lines.push(format!("settled 0 unsettled 448 undone {} carried {}", 672, 672 + 448));
    // The last to set the register is the first late one, to 1,000; the 444th adds 1.
    lines.push("register 4 1001".into());
    assert_eq!(printed(name), lines);
}

#[test]
fn the_stored_settlements() {
    for (place, named, name) in [
        (448, 0, "the last settled and naming none"),
        (448, 443, "the last settled and naming all but four"),
        (448, 447, "the last settled and naming all"),
        (300, 295, "the 300th settled and naming all but four"),
    ] {
        let name = format!("448 heard in clock order, {name} before it");
        let mut messages: Vec<_> = (1..=448).map(|place| (1, heard(place))).collect();
        messages[place - 1].0 = 2;
        messages.push((3, heard(place)));
        let undone = undone_by_settling(448, place, named);
        let mut lines = message_lines(&messages, &[undone]);
        let (settled, unsettled, carried) = (named + 1, 447 - named, 448 + undone);
        lines.push(format!("settled {settled} unsettled {unsettled} undone {undone} carried {carried}"));
        // Each request that it does not name adds 1 behind its 1,000.
        lines.push(format!("register 4 {}", 1_000 + unsettled));
        assert_eq!(printed(&name), lines, "{name}");
    }
}

/// The line of a step or of all due steps: mark, number and response.
fn answer(mark: u8, (panel, event): (u8, u8), response: usize) -> String {
    format!("0 {mark} {panel} {event} {response}")
}

fn refused(refusal: u8) -> String {
    format!("{refusal} 0 0 0 0")
}

/// The line of an accepted make: the head of its message and then the rest.
fn spread(head: &str, rest: &str) -> String {
    format!("0 0 0 0 0 {head} {rest}")
}

/// The context of 7/1 and the first 297 heard, 43 of each of the panels 0 to 2
/// and 42 of each of the panels 3 to 6.
fn context_words() -> String {
    let word = |top: u8| format!("255 255 255 255 255 {top} 0 0");
    let words = [7, 7, 7, 3, 3, 3, 3].map(word);
    format!("{} 1 0 0 0 0 0 0 0", words.join(" "))
}

#[test]
fn the_stored_long_list_of_calls() {
    let name = "300 heard in clock order, then one made before all and one before the last three";
    let nothing = || answer(0, (0, 0), 0);
    let undo = |place| answer(0, heard(place), 0);
    let mut lines = vec![nothing(); 300];
    lines.push(answer(0, (0, 0), 300));
    // 7/1 stands before all 300 at clock 5 and sets the register to 1,000.
    lines.push(spread("18 0 1 0 7 1 5 0 0 0", "2 4 0 0 232 3 0 0"));
    lines.extend((1..=300).rev().map(undo));
    lines.extend([refused(13), answer(0, (0, 0), 301)]);
    // 7/2 stands behind the 297th at clock 2,975 and reads.
    let rest = format!("1 4 0 0 0 0 0 0 {}", context_words());
    lines.push(spread("82 0 2 0 7 2 159 11 0 0", &rest));
    lines.extend([300, 299, 298].map(undo));
    lines.extend([refused(13), answer(2, (7, 2), 1_297)]);
    lines.extend([298, 299, 300].map(|place| answer(0, heard(place), 1_000 + place)));
    // It is settled where it stands, so its response is stable and nothing is due.
    lines.extend([refused(15), answer(3, (0, 0), 1_297), nothing()]);
    // 6/43 comes last, and its settlement moves it before the last three.
    lines.extend([nothing(), answer(0, (6, 43), 1_300), nothing(), answer(0, (6, 43), 0)]);
    lines.push(answer(0, (0, 0), 3 + 4));
    for event in [3, 4] {
        lines.push(spread(&format!("18 0 1 0 7 {event} 255 255 255 255"), "1 4 0 0 0 0 0 0"));
        lines.push(answer(1, (7, event), 5_003));
    }
    let bytes = stored_case(CALLS, name);
    let text = String::from_utf8(calls::printed(&bytes)).unwrap();
    assert_eq!(text.lines().collect::<Vec<&str>>(), lines);
}
