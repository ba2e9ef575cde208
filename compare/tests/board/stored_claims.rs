//! The stored cases of claims of neighbouring registers, worked out by hand or
//! by what their names say.

use mizzencord_compare::replica::calls;
use mizzencord_compare::replica::printout::printout;

use crate::examples::{stored_cases, CALLS, PRINTOUT};
use crate::stored_lines::{answer, answered, lines, nothing, printed, read_and_reply, registers};

/// The numbers in a text, in turn.
fn numbers(text: &str) -> Vec<u32> {
    let words = text.split(|letter: char| !letter.is_ascii_digit());
    words.filter(|word| !word.is_empty()).map(|word| word.parse().unwrap()).collect()
}

/// What the name of a single claim says.
struct Told {
    r: u8,
    q: u8,
    amount: u32,
    /// The registers that are set before it, and their values.
    held: Vec<(u8, u32)>,
    takes_all: bool,
    response: u32,
}

impl Told {
    fn of(name: &str) -> Option<Told> {
        let (claimed, rest) = name.strip_prefix("a claim of ")?.split_once(" where ")?;
        let (found, outcome) = rest.split_once(": takes ")?;
        let [r, q, amount] = numbers(claimed)[..] else { return None };
        let pairs = numbers(found);
        Some(Told {
            r: r as u8,
            q: q as u8,
            amount,
            held: pairs.chunks(2).map(|pair| (pair[0] as u8, pair[1])).collect(),
            takes_all: outcome.starts_with("all"),
            response: numbers(outcome)[0],
        })
    }

    /// The registers that are not 0 afterwards.
    fn values(&self) -> Vec<(u8, u32)> {
        let mut values = self.held.clone();
        if self.takes_all {
            values.extend((self.r..=self.q).map(|register| (register, self.amount)));
        }
        values.sort();
        values
    }
}

#[test]
fn single_claims_do_what_their_names_say() {
    let mut claims = 0;
    for (name, input) in stored_cases(PRINTOUT) {
        let Some(told) = Told::of(&name) else { continue };
        let printed = lines(printout(&input));
        let count = told.held.len() + 1;
        let total = format!("settled 0 unsettled {count} undone 0 carried {count}");
        assert_eq!(printed[count + 1..], [&[total][..], &registers(&told.values())].concat(), "{name}");
        let answers = answered(&name);
        assert_eq!(answers[2 * count - 1], answer(0, (0, count as u8), told.response), "{name}");
        claims += 1;
    }
    assert_eq!(claims, 32);
}

type Output = fn(&[u8]) -> Vec<u8>;

/// Cases of a plain claim and of one by code 6 are told apart by one word.
#[test]
fn plain_claims_and_those_of_one_register_by_code_6_print_the_same() {
    let mut pairs = 0;
    for (sort, output) in [(PRINTOUT, printout as Output), (CALLS, calls::printed)] {
        let cases = stored_cases(sort);
        for (name, plain) in cases.iter().filter(|(name, _)| name.starts_with("a plain claim of ")) {
            let other = name.replacen("a plain claim of ", "a claim by code 6 of ", 1);
            let Some((_, by_code_6)) = cases.iter().find(|(name, _)| *name == other) else { continue };
            assert_eq!(lines(output(plain)), lines(output(by_code_6)), "{name}");
            assert_ne!(plain, by_code_6);
            pairs += 1;
        }
    }
    assert_eq!(pairs, 12);
}

#[test]
fn bad_operations_are_refused_where_they_are_heard_and_made() {
    let mut operations = 0;
    for (name, input) in stored_cases(PRINTOUT) {
        if !name.starts_with("refused among claims: ") {
            continue;
        }
        let mut expected = vec!["board 3 2".to_string()];
        expected.extend(["1 1 0 1 3 0".into(), "2 2 1 1 3 0".into(), "3 1 0 1 0 0".into()]);
        expected.push("settled 0 unsettled 1 undone 0 carried 1".into());
        expected.extend(registers(&[(1, 9), (2, 9), (3, 9), (4, 9)]));
        assert_eq!(lines(printout(&input)), expected, "{name}");
        let refused = || "3 0 0 0 0".to_string();
        let made = "0 0 0 0 0 18 0 1 0 2 1 5 0 0 0 6 1 4 0 8 0 0 0".to_string();
        let mut expected = vec![refused(), refused(), nothing(), answer(0, (0, 1), 9)];
        expected.extend([refused(), refused(), made, answer(1, (2, 1), 9)]);
        assert_eq!(answered(&name), expected, "{name}");
        operations += 1;
    }
    assert_eq!(operations, 36);
}

/// The responses of operations in turn, each heard and carried out.
fn responses(name: &str, expected: &[u32]) {
    let answered = answered(name);
    for ((event, response), calls) in (1..).zip(expected).zip(answered.chunks(2)) {
        assert_eq!(calls, [nothing(), answer(0, (0, event), *response)], "{name}, {event}");
    }
}

#[test]
fn claims_in_turn() {
    let name = "claims that overlap in turn, of which every second takes";
    responses(name, &[1, 1, 3, 3, 5]);
    let values: Vec<(u8, u32)> =
        [(1, 1), (2, 1), (3, 1), (4, 1), (5, 3), (6, 3), (7, 3), (8, 5), (9, 5), (10, 5), (11, 5)].to_vec();
    assert!(printed(name).ends_with(&registers(&values)));
    let name = "a claim of registers that a set, a move and an add have freed";
    responses(name, &[0, 0, 0, 5, 5, 6, 6, 7, 0, 9]);
    assert!(printed(name).ends_with(&registers(&[(1, 9), (2, 9), (3, 9), (20, 6)])));
    let name = "moves, adds and claims of what a claim took";
    responses(name, &[5, 5, 8, 0, 6, 2, 10, 2]);
    assert!(printed(name).ends_with(&registers(&[(1, 8), (2, 10), (3, 3), (4, 6), (5, 6), (9, 2)])));
    let name = "plain claims before and behind claims of several";
    responses(name, &[5, 5, 8, 8, 9, 9]);
    let values = [(1, 9), (2, 5), (3, 8), (4, 8), (5, 8), (6, 8)];
    assert!(printed(name).ends_with(&registers(&values)));
}

/// What the panel answers to messages one by one, and what the registers hold.
fn reordered(name: &str, expected: &[String], values: &[(u8, u32)]) {
    assert_eq!(answered(name)[..expected.len()], *expected, "{name}");
    assert!(printed(name).ends_with(&registers(values)), "{name}");
}

#[test]
fn claims_that_are_undone_and_carried_out_again() {
    let heard = |number, response| vec![nothing(), answer(0, number, response)];
    let undone = |number| answer(0, number, 0);
    reordered(
        "a claim takes, is undone and then finds the third held",
        &[&heard((0, 1), 7)[..], &[nothing(), undone((0, 1)), undone((1, 1)), answer(0, (0, 1), 5)]].concat(),
        &[(3, 5)],
    );
    let first = [heard((0, 2), 0), heard((0, 1), 5)].concat();
    let again = |number, response, last| {
        vec![nothing(), undone((0, 1)), answer(0, number, response), answer(0, (0, 1), last)]
    };
    reordered(
        "a claim finds the third held, is undone and then takes",
        &[first.clone(), again((1, 1), 5, 7)].concat(),
        &[(1, 7), (2, 7), (3, 7), (4, 7)],
    );
    reordered(
        "a claim finds the second held, is undone and then finds the first held",
        &[first.clone(), again((1, 1), 6, 6)].concat(),
        &[(0, 6), (1, 6), (2, 5)],
    );
    reordered(
        "a claim finds the fourth held, is undone and finds it held once more",
        &[first, again((1, 1), 0, 5)].concat(),
        &[(4, 5)],
    );
}

#[test]
fn claims_heard_in_falling_clock_order() {
    let name = "overlapping claims heard in falling clock order";
    let mut expected = vec!["settled 0 unsettled 6 undone 15 carried 21".to_string()];
    let values = [(1, 1), (2, 1), (3, 1), (4, 1), (5, 3), (6, 3), (7, 3), (8, 3), (9, 5)];
    expected.extend(registers(&values));
    assert!(printed(name).ends_with(&expected));
    let last_time = [(1, 1), (2, 1), (3, 3), (4, 3), (5, 5), (6, 1)];
    let lines = last_time.map(|(event, response)| answer(0, (0, event), response));
    let reads = 2 * values.len();
    let answers = answered(name);
    assert!(answers[..answers.len() - reads].ends_with(&lines));
    let name = "claims and sets to 0 heard in falling clock order";
    let mut expected = vec!["settled 0 unsettled 8 undone 28 carried 36".to_string()];
    expected.extend(registers(&[(60, 3), (61, 3), (62, 2), (63, 1)]));
    assert!(printed(name).ends_with(&expected));
    let answers = answered(name);
    let responses = (1..).zip([1, 1, 1, 2, 1, 2, 3, 3]);
    let lines: Vec<String> = responses.map(|(event, response)| answer(0, (0, event), response)).collect();
    assert!(answers[..answers.len() - 2 * 4].ends_with(&lines));
}

/// Refusal and undos of each message, and the lines behind these.
fn messages(name: &str, expected: &[(u8, u8)], behind: &[String]) {
    let printed = printed(name);
    let ends: Vec<String> = expected.iter().map(|(refusal, undone)| format!(" {refusal} {undone}")).collect();
    let lines = &printed[1..=expected.len()];
    assert!(lines.iter().zip(&ends).all(|(line, end)| line.ends_with(end)), "{name} {printed:?}");
    assert_eq!(printed[expected.len() + 1..], *behind, "{name}");
}

#[test]
fn claims_that_are_settled() {
    let after = |total: &str, values: &[(u8, u32)]| [vec![total.to_string()], registers(values)].concat();
    let first = [(1, 7), (2, 7), (3, 7), (4, 7)];
    messages(
        "two strong claims settled in clock order: the first takes",
        &[(0, 0), (0, 0), (0, 0), (0, 0)],
        &after("settled 2 unsettled 0 undone 0 carried 2", &first),
    );
    messages(
        "two strong claims settled the other way round: the second takes",
        &[(0, 0), (0, 0), (0, 2), (0, 0)],
        &after("settled 2 unsettled 0 undone 2 carried 4", &[(4, 8), (5, 8)]),
    );
    messages(
        "a strong claim that names another waits for it and finds one held",
        &[(0, 0), (0, 0), (12, 0), (0, 0), (0, 0)],
        &after("settled 2 unsettled 0 undone 0 carried 2", &first),
    );
}

#[test]
fn claims_that_are_heard_again() {
    let refusals = |name: &str, expected: &[u8]| {
        let refused = |line: &String| line.split(' ').nth(4).unwrap().parse::<u8>().unwrap();
        let refusals: Vec<u8> = printed(name)[1..=expected.len()].iter().map(refused).collect();
        assert_eq!(refusals, expected, "{name}");
    };
    refusals("a plain claim heard again as one of code 6", &[0, 8, 7]);
    refusals("a claim of code 6 heard again as a plain one", &[0, 8, 7]);
    refusals(
        "strong claims heard again with the other code, before and behind their settlement",
        &[0, 0, 8, 0, 8, 7],
    );
    // The last but one claims five.
    refusals(
        "a claim of several heard again with another q, another r and another amount",
        &[0, 8, 8, 8, 3, 7],
    );
}

/// The make of an own strong claim of 1 to 4 for 7 at clock 9, without context.
fn own_claim() -> String {
    format!("0 0 0 0 0 82 0 2 0 0 1 9 0 0 0 6 1 4 0 7 0 0 0{}", " 0".repeat(64))
}

fn own_case(name: &str, expected: &[String], values: [u32; 5]) {
    let mut lines = expected.to_vec();
    for (r, value) in (1..).zip(values) {
        lines.extend(read_and_reply((0, r + 1), r, value));
    }
    assert_eq!(answered(name), lines, "{name}");
}

#[test]
fn own_claims_that_take_tentatively() {
    let before = [own_claim(), answer(2, (0, 1), 7), nothing(), answer(0, (1, 1), 7)];
    let with = |more: &[String]| [&before[..], more].concat();
    let name = |rest: &str| format!("an own strong claim takes tentatively, {rest}");
    let undone = [answer(0, (1, 1), 0), answer(0, (0, 1), 0)];
    let redone = |mark| [answer(0, (1, 1), 8), answer(mark, (0, 1), 8)];
    own_case(&name("and is settled in place"), &with(&[answer(3, (0, 0), 7)]), [7, 7, 7, 7, 0]);
    own_case(
        &name("another's is settled before it and takes: settled where it then stands, it has failed"),
        &with(&[&[nothing()][..], &undone, &redone(2), &[answer(3, (0, 0), 8)]].concat()),
        [0, 0, 0, 8, 8],
    );
    own_case(
        &name("another's is settled before it and takes: carried out after its settlement, it fails"),
        &with(&[&[nothing(), nothing()][..], &undone, &redone(3)].concat()),
        [0, 0, 0, 8, 8],
    );
}

#[test]
fn own_claims_that_fail_tentatively() {
    let before = [nothing(), answer(0, (1, 1), 8), own_claim(), answer(2, (0, 1), 8)];
    let with = |more: &[String]| [&before[..], more].concat();
    let name = |rest: &str| format!("an own strong claim fails tentatively, {rest}");
    own_case(
        &name("another's is settled before it: settled in place, it has failed"),
        &with(&[nothing(), answer(3, (0, 0), 8)]),
        [0, 0, 0, 8, 8],
    );
    let undone = [answer(0, (0, 1), 0), answer(0, (1, 1), 0)];
    let redone = [answer(3, (0, 1), 7), answer(0, (1, 1), 7)];
    own_case(
        &name("is settled before another's and takes"),
        &with(&[&[nothing()][..], &undone, &redone, &[nothing()]].concat()),
        [7, 7, 7, 7, 0],
    );
    let freed = [nothing(), nothing(), answer(0, (0, 1), 0), answer(0, (1, 2), 8), answer(2, (0, 1), 7)];
    let settled = [nothing(), answer(0, (0, 1), 0), answer(0, (1, 2), 0)];
    let at_last = [answer(3, (0, 1), 8), answer(0, (1, 2), 8)];
    own_case(
        &name("takes tentatively behind a set to 0 and fails again, settled before that"),
        &with(&[&freed[..], &settled, &at_last].concat()),
        [0, 0, 0, 0, 8],
    );
}
