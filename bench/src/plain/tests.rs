//! What the documents give by hand.

use super::calls::{self, Answer};
use super::kinds::Reading;
use super::monitor::{Event, Notice, Standing, Tally};
use super::*;
use std::fs;
use std::path::Path;

const RULES: &[u8] = b"formulas=4\nf=0 op=signal a=0 b=0\nf=1 op=signal a=1 b=0\nf=2 op=true a=0 b=0\n\
    f=3 op=until a=2 b=1\nrules=1\nr=0 when=0 expect=3\n";

const TRACE: &[u8] = b"s=1 signals=1 mark=0 ka=0 ta=0 kb=0 tb=0\ns=2 signals=2 mark=7 ka=1 ta=1 kb=0 tb=0\n";

fn state(signals: u32, mark: u8, links: [(u8, u16); 2]) -> State {
    State { signals, mark, links: links.map(|(kind, target)| Link { kind, target }) }
}

fn plain_state(signals: u32) -> State {
    state(signals, 0, [(0, 0), (0, 0)])
}

fn table(formulas: &[Formula], rules: &[(usize, usize)]) -> Table {
    let mut table = Table::default();
    for &formula in formulas {
        table.add_formula(formula).unwrap();
    }
    for &(when, expect) in rules {
        table.add_rule(Rule { when, expect }).unwrap();
    }
    table
}

fn labels<K: Kind>(table: &Table, states: &[State]) -> Vec<K> {
    let mut labels = vec![K::OPEN; table.formulas().len() * states.len()];
    let mut work = labels.clone();
    label_whole(table, states, &mut labels, &mut work).unwrap();
    labels
}

fn rules_fault(text: &[u8]) -> (u8, usize) {
    let fault = read_rules(text).unwrap_err();
    (fault.number, fault.line)
}

fn line_fault(text: &[u8], count: usize) -> u8 {
    let fault = read_state(text, count).unwrap_err();
    assert_eq!(fault.line, 1);
    fault.number
}

#[test]
fn outputs_written_by_hand() {
    let folder = Path::new(env!("CARGO_MANIFEST_DIR")).join("../examples");
    let mut logs = 0;
    for entry in fs::read_dir(folder).unwrap() {
        let path = entry.unwrap().path();
        if path.extension().is_some_and(|e| e == "log") {
            let wanted = fs::read(path.with_extension("out")).unwrap();
            assert_eq!(watch(&fs::read(&path).unwrap()).escape_ascii().to_string(), wanted.escape_ascii().to_string());
            logs += 1;
        }
    }
    assert_eq!(logs, 12);
}

#[test]
fn sample_of_rules() {
    let (read, used) = read_rules(RULES).unwrap();
    let formulas = [Formula::Signal(0), Formula::Signal(1), Formula::True, Formula::Until(2, 1)];
    assert_eq!(used, 124);
    assert_eq!(read, table(&formulas, &[(0, 3)]));
    let more = [RULES, b"and so on"].concat();
    assert_eq!(read_rules(&more), Ok((read, 124)));
}

#[test]
fn sample_of_states() {
    assert_eq!(read_state(TRACE, 0), Ok((plain_state(1), 41)));
    assert_eq!(read_state(&TRACE[41..], 1), Ok((state(2, 7, [(1, 1), (0, 0)]), 41)));
}

#[test]
fn sample_of_watch() {
    let input = b"formulas=3\nf=0 op=signal a=0 b=0\nf=1 op=signal a=1 b=0\nf=2 op=next a=1 b=0\nrules=1\n\
        r=0 when=0 expect=2\ns=1 signals=1 mark=0 ka=0 ta=0 kb=0 tb=0\ns=2 signals=3 mark=0 ka=0 ta=0 kb=0 tb=0\n\
        s=3 signals=0 mark=0 ka=0 ta=0 kb=0 tb=0\n";
    let output = "s=1 r=0 from=1 is=raised\ns=2 r=0 from=1 is=fulfilled\ns=2 r=0 from=2 is=raised\n\
        s=3 r=0 from=2 is=violated\nend states=3 raised=2 fulfilled=1 violated=1 open=0\n";
    assert_eq!(String::from_utf8(watch(input)).unwrap(), output);
}

#[test]
fn inputs_too_long() {
    let mut input = [RULES, TRACE].concat();
    input.resize(32_768, b'x');
    assert_eq!(watch(&input), b"s=1 r=0 from=1 is=raised\ns=2 r=0 from=1 is=fulfilled\nrefused=1 line=10\n");
    input.push(b'x');
    assert_eq!(watch(&input), b"refused=9 line=0\n");
    assert_eq!(watch(b""), b"refused=1 line=1\n");
}

#[test]
fn torn_lines() {
    let text = b"s=1 signals=1 mark=0 ka=0 ta=0 kb=0 tb=0";
    assert_eq!(line_fault(text, 0), 1);
    assert_eq!(line_fault(&[b'x'; 82], 0), 1);
    let mut line = vec![b'x'; 80];
    line.push(b'\n');
    assert_eq!(line_fault(&line, 0), 2);
    line.insert(0, b'x');
    assert_eq!(line_fault(&line, 0), 1);
    assert_eq!(rules_fault(&RULES[..124 - 20]), (1, 7));
    assert_eq!(rules_fault(b""), (1, 1));
}

#[test]
fn departures_from_form() {
    for line in [
        "s=1 signals=01 mark=0 ka=0 ta=0 kb=0 tb=0\n",
        "s=1  signals=1 mark=0 ka=0 ta=0 kb=0 tb=0\n",
        " s=1 signals=1 mark=0 ka=0 ta=0 kb=0 tb=0\n",
        "s=1 signals=1 mark=0 ka=0 ta=0 kb=0 tb=0 \n",
        "s=1 signals=1 mark=0 ka=0 ta=0 kb=0 tb=0\r\n",
        "s=1 signals=1 mark=0 ka=0 ta=0 kb=0 tb=\n",
        "s=1\tsignals=1 mark=0 ka=0 ta=0 kb=0 tb=0\n",
        "s=1 signals=+1 mark=0 ka=0 ta=0 kb=0 tb=0\n",
        "S=1 signals=1 mark=0 ka=0 ta=0 kb=0 tb=0\n",
        "s=9 signals=12345678901 mark=0 ka=0 ta=0 kb=0 tb=0\n",
        "s=9 signals=5000000000 mark=256 ka=0 ta=0 kb=0 tb=00\n",
        "\n",
    ] {
        assert_eq!(line_fault(line.as_bytes(), 0), 2, "{line:?}");
    }
    for line in
        ["f=0 op=nand a=0 b=0", "f=0 op= a=0 b=0", "f=9 op=true a=0 b=", "f=0 op=true a=0", "f=0 op=tru a=0 b=0"]
    {
        assert_eq!(rules_fault(format!("formulas=1\n{line}\n").as_bytes()), (2, 2), "{line:?}");
    }
}

#[test]
fn numbers_out_of_range() {
    for (line, count) in [
        ("s=3 signals=0 mark=0 ka=0 ta=0 kb=0 tb=0\n", 1),
        ("s=0 signals=0 mark=0 ka=0 ta=0 kb=0 tb=0\n", 0),
        ("s=1 signals=4294967296 mark=0 ka=0 ta=0 kb=0 tb=0\n", 0),
        ("s=1 signals=0 mark=256 ka=0 ta=0 kb=0 tb=0\n", 0),
        ("s=1 signals=0 mark=0 ka=16 ta=0 kb=0 tb=0\n", 0),
        ("s=1 signals=0 mark=0 ka=0 ta=257 kb=0 tb=0\n", 0),
        ("s=1 signals=0 mark=0 ka=0 ta=0 kb=16 tb=0\n", 0),
        ("s=1 signals=0 mark=0 ka=0 ta=0 kb=0 tb=9999999999\n", 0),
        ("s=257 signals=0 mark=0 ka=0 ta=0 kb=0 tb=0\n", 256),
    ] {
        assert_eq!(line_fault(line.as_bytes(), count), 3, "{line:?}");
    }
    assert!(read_state(b"s=256 signals=4294967295 mark=255 ka=15 ta=256 kb=15 tb=256\n", 255).is_ok());
    for line in ["signal a=32 b=0", "true a=1 b=0", "mark a=0 b=0", "mark a=256 b=0", "link a=0 b=0", "link a=16 b=0"] {
        assert_eq!(rules_fault(format!("formulas=1\nf=0 op={line}\n").as_bytes()), (3, 2), "{line:?}");
    }
    for line in ["not a=5 b=1", "at a=0 b=9", "and a=7 b=4294967296", "some a=16 b=3"] {
        assert_eq!(rules_fault(format!("formulas=1\nf=0 op={line}\n").as_bytes()), (3, 2), "{line:?}");
    }
    assert_eq!(rules_fault(b"formulas=65\n"), (3, 1));
    assert_eq!(rules_fault(b"formulas=0\n"), (3, 1));
    assert_eq!(rules_fault(b"formulas=1\nf=0 op=true a=0 b=0\nrules=17\n"), (3, 3));
    assert_eq!(rules_fault(b"formulas=1\nf=1 op=true a=0 b=0\n"), (3, 2));
}

#[test]
fn tables_out_of_order() {
    let head = "formulas=3\nf=0 op=true a=0 b=0\nf=1 op=link a=1 b=0\n";
    let rest = "f=2 op=until a=0 b=1\nrules=1\n";
    assert_eq!(rules_fault(format!("{head}f=2 op=and a=0 b=2\n").as_bytes()), (4, 4));
    assert_eq!(rules_fault(format!("{head}{rest}r=0 when=7 expect=0\n").as_bytes()), (4, 6));
    assert_eq!(rules_fault(format!("{head}{rest}r=0 when=1 expect=7\n").as_bytes()), (4, 6));
    assert_eq!(rules_fault(format!("{head}{rest}r=0 when=0 expect=2\n").as_bytes()), (5, 6));
    assert_eq!(rules_fault(format!("{head}{rest}r=1 when=0 expect=2\n").as_bytes()), (3, 6));
}

#[test]
fn until_by_hand() {
    let formulas = [Formula::Signal(0), Formula::Signal(1), Formula::Until(0, 1)];
    let states = [plain_state(1), plain_state(1), plain_state(0)];
    let table = table(&formulas, &[(0, 2)]);
    let dated: Vec<Dated> = labels(&table, &states);
    assert_eq!(dated[6..], [Dated(-254); 3]);
    assert_eq!(labels::<Dated>(&table, &states[..2])[4..], [Dated(0); 2]);
    let strips: Vec<Strip> = labels(&table, &states);
    assert_eq!(strips[6], Strip { weak: 3, strong: 0 });
}

#[test]
fn reply_by_hand() {
    use Formula::*;
    let formulas = [True, Link(1), Until(0, 1), Next(2), Bind(3)];
    let states = [plain_state(0), plain_state(0), state(0, 0, [(1, 1), (0, 0)])];
    let dated: Vec<Dated> = labels(&table(&formulas, &[(0, 4)]), &states);
    assert_eq!(dated[12..14], [Dated(254), Dated(0)]);
    assert_eq!(dated[3..12], [Dated(0); 9]);
}

#[test]
fn refusals_of_labelling() {
    let table = table(&[Formula::True, Formula::Signal(0), Formula::Var], &[(0, 0)]);
    let states = vec![plain_state(0); 6];
    let (mut labels, mut work) = ([Dated(5); 20], [Dated(6); 20]);
    let short = label_whole(&table, &states, &mut labels[..17], &mut work);
    assert_eq!(short, Err(Refusal::ShortMemory));
    assert_eq!(label_whole(&table, &states, &mut labels, &mut work[..17]), Err(Refusal::ShortMemory));
    let many = vec![plain_state(0); 65];
    let mut strips = [Strip::OPEN; 200];
    let mut more = strips;
    assert_eq!(label_whole(&table, &many, &mut strips, &mut more), Err(Refusal::TooManyStates));
    for (states, refusal) in [
        (vec![state(0, 7, [(0, 0); 2]), state(0, 7, [(1, 2), (0, 0)])], Refusal::NominalTaken { state: 2 }),
        (vec![plain_state(0), state(0, 7, [(1, 2), (0, 0)])], Refusal::UnfitReference { state: 2 }),
        (vec![plain_state(0), state(0, 7, [(0, 0), (16, 1)])], Refusal::UnfitReference { state: 2 }),
        (vec![plain_state(0), state(0, 7, [(0, 1), (0, 0)])], Refusal::UnfitReference { state: 2 }),
        (vec![plain_state(0), state(0, 7, [(1, 0), (0, 0)])], Refusal::UnfitReference { state: 2 }),
    ] {
        assert_eq!(label_whole(&table, &states, &mut labels, &mut work), Err(refusal));
    }
    assert_eq!((labels, work), ([Dated(5); 20], [Dated(6); 20]));
    assert_eq!(label_whole(&table, &states, &mut labels, &mut work), Ok(6));
    assert_eq!((labels[17], labels[18], labels[19]), (Dated(0), Dated(5), Dated(5)));
    assert_eq!((work[0], work[17], work[18]), (Dated(0), Dated(0), Dated(6)));
}

fn slot_monitor() -> Monitor {
    use Formula::*;
    let formulas = [Signal(0), Signal(1), Not(0), Until(2, 1), Next(3), Var];
    Monitor::new(table(&formulas, &[(0, 4)]))
}

#[test]
fn slot_of_the_readme() {
    let mut monitor = slot_monitor();
    for (signals, number) in [1, 2, 1, 1, 2, 1].into_iter().zip(1..) {
        assert_eq!(monitor.append(plain_state(signals)), Ok(number));
        if number >= 4 {
            assert_eq!(monitor.standing(0, 3, number), Ok(Standing::Violated { date: 4 }));
        }
    }
    assert_eq!(monitor.standing(0, 3, 3), Ok(Standing::Open));
    assert_eq!(monitor.standing(0, 2, 6), Ok(Standing::NotRaised));
    assert_eq!(monitor.standing(0, 1, 2), Ok(Standing::Fulfilled { date: 2 }));
    assert_eq!(monitor.tally(0), Ok(Tally { raised: 4, fulfilled: 2, violated: 1, open: 1 }));
    assert_eq!(monitor.label(4, 3, 3), Ok(Reading::Unknown));
    assert_eq!(monitor.label(4, 3, 4), Ok(Reading::False));
    assert_eq!(monitor.label(4, 1, 6), Ok(Reading::True));
    let notice = |from, event| Ok(Some(Notice { rule: 0, from, event }));
    assert_eq!(monitor.notice(4, 0), notice(3, Event::Violated));
    assert_eq!(monitor.notice(4, 1), notice(4, Event::Raised));
    assert_eq!(monitor.notice(4, 2), Ok(None));
}

#[test]
fn refusals_of_the_monitor() {
    let mut monitor = slot_monitor();
    assert_eq!(monitor.tally(0), Ok(Tally::default()));
    for _ in 0..3 {
        monitor.append(plain_state(1)).unwrap();
    }
    assert_eq!(monitor.label(64, 1, 1), Err(Refusal::NoSuch));
    assert_eq!(monitor.tally(16), Err(Refusal::NoSuch));
    assert_eq!(monitor.label(5, 0, 0), Err(Refusal::Loose));
    assert_eq!(monitor.label(0, 0, 1), Err(Refusal::NoState));
    assert_eq!(monitor.standing(0, 9, 9), Err(Refusal::NoState));
    assert_eq!(monitor.label(0, 3, 2), Err(Refusal::NoPoint));
    assert_eq!(monitor.notice(0, 0), Err(Refusal::NoPoint));
    assert_eq!(monitor.notice(9, 0), Err(Refusal::NoPoint));
    for _ in 3..256 {
        monitor.append(plain_state(0)).unwrap();
    }
    assert_eq!(monitor.append(state(0, 0, [(16, 0); 2])), Err(Refusal::TooManyStates));
    let numbers = [Refusal::NoSuch, Refusal::Loose, Refusal::NoState, Refusal::NoPoint].map(Refusal::number);
    assert_eq!(numbers, [12, 13, 14, 15]);
}

#[test]
fn calls_of_the_library() {
    let text = [RULES, TRACE].concat();
    let answer = |refused, place, count| Answer { refused, place, count };
    assert_eq!(calls::rules(&text), answer(0, 0, 124));
    assert_eq!(calls::append(&text), answer(0, 0, 2));
    let mut signals = [9; 3];
    assert_eq!((calls::states(TRACE, &mut signals), signals), (2, [1, 2, 9]));
    let mut labels = [Dated(99); 9];
    assert_eq!(calls::label_dated(&text, 2, &mut labels), answer(0, 0, 2));
    assert_eq!(labels.map(|label| label.0), [256, -255, -256, 255, 256, 255, 255, 255, 99]);
    assert_eq!(calls::label_dated(&text, 0, &mut labels[..7]), answer(9, 0, 0));
    let twice = [&text[..], b"s=3 signals=2 mark=7 ka=1 ta=1 kb=0 tb=0\n"].concat();
    assert_eq!(calls::append(&twice), answer(10, 3, 2));
    assert_eq!(calls::label_dated(&twice, 0, &mut [Dated::OPEN; 20]), answer(10, 3, 0));
}

#[test]
fn kinds_agree() {
    use Formula::*;
    let formulas = [
        Signal(0),
        Signal(1),
        Mark(3),
        At(3, 0),
        Not(3),
        Until(0, 1),
        Since(0, 1),
        Prev(5),
        Next(6),
        And(4, 7),
        Or(8, 9),
        Var,
        Link(2),
        Until(10, 12),
        Since(10, 11),
        Bind(13),
        Some(2, 14),
        Bind(9),
        Some(2, 10),
    ];
    let table = table(&formulas, &[(0, 10)]);
    for seed in 0..512_u32 {
        let states: Vec<State> = (1..=9)
            .map(|i: u32| {
                let number = seed.wrapping_mul(2_654_435_761).rotate_left(i * 3);
                let target = (number >> 9) % i;
                let link = (if target == 0 { 0 } else { 2 }, target as u16);
                state(number & 3, if i == 1 + seed % 9 { 3 } else { 0 }, [link, (0, 0)])
            })
            .collect();
        let dated: Vec<Dated> = labels(&table, &states);
        let strips: Vec<Strip> = labels(&table, &states);
        for (label, strip) in dated.into_iter().zip(strips) {
            let same = match (label.truth(), label.falsity()) {
                (Option::Some(date), _) => Strip::true_from(date),
                (_, Option::Some(date)) => Strip::false_from(date),
                _ => Strip::OPEN,
            };
            assert_eq!(strip, same);
        }
    }
}

/// What a formula reads at a state at a truncation point, weakly or strongly, straight from its meaning.
fn reads(table: &Table, kept: &[State], f: usize, i: usize, bound: usize, weak: bool) -> bool {
    let point = kept.len();
    if i > point {
        return weak;
    }
    let at = |p: usize, i: usize| reads(table, kept, p, i, bound, weak);
    let state = kept[i - 1];
    match table.formulas()[f] {
        Formula::True => true,
        Formula::Signal(signal) => state.shows(signal),
        Formula::Mark(nominal) => state.mark == nominal,
        Formula::Not(p) => !reads(table, kept, p, i, bound, !weak),
        Formula::And(p, q) => at(p, i) && at(q, i),
        Formula::Or(p, q) => at(p, i) || at(q, i),
        Formula::Next(p) => at(p, i + 1),
        Formula::Prev(p) => i > 1 && at(p, i - 1),
        Formula::Until(p, q) => (i..=point + 1).any(|k| at(q, k) && (i..k).all(|j| at(p, j))),
        Formula::Since(p, q) => (1..=i).any(|k| at(q, k) && (k + 1..=i).all(|j| at(p, j))),
        Formula::At(nominal, p) => match kept.iter().position(|state| state.mark == nominal) {
            Some(there) => at(p, there + 1),
            None => weak,
        },
        Formula::Var => i == bound,
        Formula::Link(kind) => state.refers(kind, bound),
        Formula::Bind(p) => reads(table, kept, p, i, i, weak),
        Formula::Some(kind, p) => state.targets(kind).any(|t| reads(table, kept, p, i, t, weak)),
    }
}

#[test]
fn labels_by_meaning() {
    use Formula::*;
    let mut seed = 12_345_u64;
    let mut below = move |end: usize| {
        seed = seed.wrapping_mul(6_364_136_223_846_793_005).wrapping_add(1_442_695_040_888_963_407);
        (seed >> 33) as usize % end
    };
    for _ in 0..2_000 {
        let mut table = Table::default();
        for f in 0..10 {
            let (p, q) = (below(f.max(1)), below(f.max(1)));
            let small = 1 + below(2) as u8;
            let formulas = [
                True,
                Signal(small - 1),
                Mark(small),
                Var,
                Link(small),
                Not(p),
                And(p, q),
                Or(p, q),
                Next(p),
                Prev(p),
                Until(p, q),
                Since(p, q),
                At(small, p),
                Bind(p),
                Some(small, p),
            ];
            table.add_formula(formulas[below(if f < 3 { 5 } else { 15 })]).unwrap();
        }
        let count = 1 + below(5);
        let first = below(count);
        let second = below(count);
        let states: Vec<State> = (0..count)
            .map(|earlier| {
                let mut link = || match below(earlier + 1) {
                    0 => (0, 0),
                    target => (1 + below(2) as u8, target as u16),
                };
                let links = [link(), link()];
                let mark = if earlier == first { 1 } else { 2 * u8::from(earlier == second) };
                state(below(4) as u32, mark, links)
            })
            .collect();
        let dated: Vec<Dated> = labels(&table, &states);
        for f in (0..10).filter(|&f| !table.is_loose(f)) {
            for i in 1..=count {
                for point in i..=count {
                    let (weak, strong) = (true, false);
                    let read = |weak| reads(&table, &states[..point], f, i, 0, weak);
                    let reading = match (read(weak), read(strong)) {
                        (true, true) => Reading::True,
                        (false, false) => Reading::False,
                        (true, false) => Reading::Unknown,
                        (false, true) => panic!("strong without weak"),
                    };
                    assert_eq!(
                        dated[f * count + i - 1].reading(point),
                        reading,
                        "{table:?} {states:?} {f} {i} {point}"
                    );
                }
            }
        }
    }
}
