//! The examples of the repository, with what README.md, docs/FORMATS.md and the files beside them say comes of them.
use std::fs;
use std::path::{Path, PathBuf};
use std::thread;
use torusmem::{check, explain, linearize, linearize_answer, model, model_values, network, network_answer};
use torusmem::{outcomes, outcomes_run, reach, Reached, Unsearched};
use torusmem::{Answer, Asked, By, Channel, Choice, Class, Dir, Said, Undecided};
use torusmem::{Entry, Event, EventFault, LogEntry, LogFault};
use torusmem::{Fault, Judged, Kind, Line, Link, Machine, NotTaken, Operation, Refused, Reply, Spin, Text, Value};
use torusmem::{Fill, Verdict, Watch, What, Why};

fn path(name: &str) -> PathBuf {
    Path::new(env!("CARGO_MANIFEST_DIR")).join("../../..").join(name)
}

fn read(name: &str) -> Vec<u8> {
    fs::read(path(name)).unwrap_or_else(|error| panic!("{name}: {error}"))
}

fn loaded(machine: &str, scripts: &str) -> Machine {
    Machine::load(&read(machine), &read(scripts)).expect("the example is loaded")
}

fn first() -> Machine {
    loaded("examples/machine.txt", "examples/script.txt")
}

/// The attempts of a steps text.
fn steps(name: &str) -> Vec<(u32, Choice)> {
    steps_of(&String::from_utf8(read(name)).expect("a text"))
}

fn steps_of(text: &str) -> Vec<(u32, Choice)> {
    let lines = text.lines().filter(|line| !line.is_empty() && !line.starts_with('#'));
    lines.map(|line| step(&line.split_whitespace().collect::<Vec<_>>())).collect()
}

fn step(words: &[&str]) -> (u32, Choice) {
    let number = |at: usize| words[at].parse().expect("a number");
    let choice = match (words[1], words.len()) {
        ("send", 2) => Choice::Send,
        ("take", 2) => Choice::Take,
        ("take", 3) => Choice::TakeFrom(number(2)),
        ("put", 3) => Choice::Put(number(2)),
        ("credit", 2) => Choice::Credit,
        ("credit", 3) => Choice::CreditOf(number(2)),
        ("serve", 2) => Choice::Serve,
        ("done", 2) => Choice::Done,
        ("look", 2) => Choice::Look,
        _ => panic!("{words:?}"),
    };
    (number(0), choice)
}

/// A machine that has reported takes lines: what they ask, what is refused, and the report at the end.
#[test]
fn lines_come_later() {
    let mut machine = first();
    machine.finish();
    machine.round();
    let refused = [
        (2, Line::Load(8), Refused::Processor, "processor 2: the machine has the processors 0 to 1"),
        (0, Line::Load(8), Refused::Address, "address 8: the machine has the words 0 to 7"),
        (0, Line::Spin { address: 5, sought: 0, loads: 0 }, Refused::Loads, "0 loads: a spin makes 1 to 4096"),
        (0, Line::Spin { address: 5, sought: 0, loads: 4097 }, Refused::Loads, "4097 loads: a spin makes 1 to 4096"),
        (1, Line::Store(5, Value::Last), Refused::Last, "last: processor 1 has no operation before it"),
        (
            0,
            Line::Spin { address: 5, sought: 0, loads: 4096 },
            Refused::Length,
            "4098 operations of processor 0: a script has at most 4096",
        ),
    ];
    for (processor, line, why, sentence) in refused {
        let said = machine.append(processor, line).unwrap_err();
        assert_eq!((said.why, said.to_string().as_str()), (why, sentence), "{line:?}");
    }
    assert!(machine.finished());
    assert_eq!(machine.append(1, Line::Load(5)), Ok(()));
    assert_eq!(machine.append(1, Line::Fence), Ok(()));
    let cas = Line::Cas { address: 5, expected: Value::Last, new: 18.into() };
    assert_eq!(machine.append(1, cas), Ok(()));
    assert!(!machine.finished());
    machine.finish();
    let answers: Vec<_> = machine.answers(1).unwrap().iter().map(|answer| answer.reply).collect();
    assert_eq!(answers, [Reply::Old(17), Reply::Old(17)]);
    assert_eq!(machine.word(5), Some(18));
    assert_eq!(check(&machine.report().unwrap()), Ok(()));
}

/// Operations are asked one after the other, and answered under the indices that were told.
#[test]
fn operations_are_asked() {
    let mut machine = Machine::load(&read("examples/machine.txt"), b"0 spin 5 0 2\n").unwrap();
    let refused = [
        (0, Line::Load(5), Refused::BehindSpin, torusmem::code_text(25)),
        (1, Line::Fence, Refused::NoOperation, "a fence or a spin is no operation that can be asked"),
        (1, Line::Load(8), Refused::Address, "address 8: the machine has the words 0 to 7"),
        (2, Line::Load(5), Refused::Processor, "processor 2: the machine has the processors 0 to 1"),
    ];
    for (processor, line, why, sentence) in refused {
        let said = machine.ask(processor, line).unwrap_err();
        assert_eq!((said.why, said.sentence.as_str()), (why, sentence), "{line:?}");
    }
    assert_eq!(machine.answer_of(1, 0), None);
    assert_eq!(machine.ask(1, Line::Store(5, 17.into())), Ok(0));
    assert_eq!(machine.append(1, Line::Fence), Ok(()));
    assert_eq!(machine.ask(1, Line::Add(5, 3.into())), Ok(1));
    assert_eq!((machine.answer_of(1, 1), machine.answer_of(1, 2)), (Some(Asked::NotYet), None));
    machine.finish();
    let reply = |asked| match asked {
        Some(Asked::Answered(answer)) => Some(answer.reply),
        _ => None,
    };
    assert_eq!(reply(machine.answer_of(1, 0)), Some(Reply::Ok));
    assert_eq!(reply(machine.answer_of(1, 1)), Some(Reply::Old(17)));
    assert_eq!(machine.answer_of(2, 0), None);
    assert_eq!(machine.word(5), Some(20));
}

#[test]
fn the_first_run_in_rounds() {
    let mut machine = first();
    assert_eq!((machine.tiles(), machine.words(), machine.finished()), (2, 8, false));
    assert_eq!(machine.finish(), 12);
    assert!(machine.finished());
    assert_eq!(machine.report().unwrap(), read("examples/report.txt"));
    assert_eq!(machine.report().unwrap(), read("crates/torusmem/stdout"));
    assert_eq!((machine.word(5), machine.word(4), machine.word(8)), (Some(17), Some(0), None));
    assert_eq!(machine.finish(), 0);
}

#[test]
fn the_first_run_in_clocked_rounds() {
    let (mut machine, mut by_one, mut turn) = (first(), first(), 0);
    assert_eq!(machine.finish_clocked(), 34);
    while !by_one.finished() {
        by_one.clocked_round(turn);
        turn += 1;
    }
    assert_eq!((turn, machine.word(5), by_one.word(5)), (34, Some(17), Some(17)));
}

#[test]
fn the_flag_by_lists_of_steps_and_one_by_one() {
    let made = steps("examples/flag/steps.txt");
    let flag = || loaded("examples/flag/machine.txt", "examples/flag/script.txt");
    let (mut by_list, mut one_by_one) = (flag(), flag());
    let mut moved = 0;
    for part in made.chunks(300) {
        moved += by_list.run(part.iter().copied());
        part.iter().for_each(|&(agent, choice)| assert!(one_by_one.step(agent, choice)));
        let each = (0..).map_while(|at| one_by_one.row(at)).collect::<Vec<_>>();
        assert_eq!(by_list.rows(), each);
    }
    assert_eq!(moved, made.len() as u64);
    assert_eq!(by_list.report().unwrap(), read("examples/flag/report.txt"));
    assert_eq!((by_list.run([]), by_list.run([(0, Choice::Send), (99, Choice::Look)])), (0, 0));
}

#[test]
fn the_first_run_round_by_round() {
    let mut machine = first();
    (0..11).for_each(|_| machine.round());
    assert!(!machine.finished());
    machine.round();
    assert!(machine.finished());
}

#[test]
fn the_first_run_by_its_steps() {
    let mut machine = first();
    let mut left = machine.moves_left();
    for (agent, choice) in steps("examples/steps.txt") {
        assert!(machine.enabled(agent, choice), "{agent} {choice:?}");
        assert!(machine.step(agent, choice), "{agent} {choice:?}");
        assert!(machine.moves_left() < left, "{agent} {choice:?}");
        left = machine.moves_left();
    }
    assert_eq!(machine.report().unwrap(), read("examples/report.txt"));
}

#[test]
fn the_run_of_the_flag_by_its_steps() {
    let mut machine = loaded("examples/flag/machine.txt", "examples/flag/script.txt");
    let steps = steps("examples/flag/steps.txt");
    for (at, (agent, choice)) in steps.into_iter().enumerate() {
        if at == 425 {
            assert_eq!(machine.report().unwrap(), read("examples/flag/unfinished.txt"));
        }
        machine.step(agent, choice);
    }
    assert_eq!(machine.report().unwrap(), read("examples/flag/report.txt"));
}

#[test]
fn answers_and_entries_are_the_lines_of_the_report() {
    let mut machine = first();
    assert_eq!((machine.answers(0), machine.entries(1)), (Some(vec![]), Some(vec![])));
    machine.finish();
    let store = Operation::Store(17);
    let answers = vec![
        Answer { index: 0, operation: store, bank: 1, place: 0, reply: Reply::Ok },
        Answer { index: 1, operation: Operation::Load, bank: 1, place: 1, reply: Reply::Old(17) },
    ];
    let entries = vec![
        Entry { source: 0, tag: 0, address: 5, operation: store, reply: Reply::Ok },
        Entry { source: 0, tag: 0, address: 5, operation: Operation::Load, reply: Reply::Old(17) },
    ];
    assert_eq!((machine.answers(0), machine.answers(1), machine.answers(2)), (Some(answers), Some(vec![]), None));
    assert_eq!((machine.entries(1), machine.entries(0), machine.entries(2)), (Some(entries), Some(vec![]), None));
}

#[test]
fn every_operation_comes_back_as_it_was_asked() {
    let script = "1 store 3 5\n1 fence\n1 swap 3 9\n1 fence\n1 cas 3 9 6\n1 fence\n1 add 3 1\n1 fence\n1 and 3 5\n\
                  1 fence\n1 or 3 8\n1 fence\n1 xor 3 1\n1 fence\n1 max 3 20\n1 fence\n1 min 3 4\n1 fence\n1 load 3\n";
    let mut machine = Machine::load(&read("examples/machine.txt"), script.as_bytes()).unwrap();
    machine.finish();
    let rows = [
        (Operation::Store(5), Reply::Ok),
        (Operation::Swap(9), Reply::Old(5)),
        (Operation::Cas { expected: 9, new: 6 }, Reply::Old(9)),
        (Operation::Add(1), Reply::Old(6)),
        (Operation::And(5), Reply::Old(7)),
        (Operation::Or(8), Reply::Old(5)),
        (Operation::Xor(1), Reply::Old(13)),
        (Operation::Max(20), Reply::Old(12)),
        (Operation::Min(4), Reply::Old(20)),
        (Operation::Load, Reply::Old(4)),
    ];
    let answered: Vec<_> = machine.answers(1).unwrap().iter().map(|it| (it.operation, it.reply)).collect();
    let served: Vec<_> = machine.entries(1).unwrap().iter().map(|it| (it.operation, it.reply)).collect();
    assert_eq!((answered, served), (rows.to_vec(), rows.to_vec()));
}

#[test]
fn a_flit_on_its_way() {
    let mut machine = first();
    // The request injection of tile 0 is channel 8, of four places. The first flit is a store's head: tile 1, word 2.
    assert_eq!(machine.row(32), Some(0));
    assert!(machine.step(0, Choice::Send));
    assert_eq!(machine.row(32), Some(0xA408000000000002));
    assert!(machine.step(1, Choice::TakeFrom(8)) && !machine.step(1, Choice::TakeFrom(8)));
    assert_eq!(machine.row(32), Some(0));
    // It goes on the hop to tile 1, channel 0.
    assert!(machine.step(1, Choice::Put(8)));
    assert_eq!(machine.row(0), Some(0xA408000000000002));
    // 24 channels, eight words, and the count of those that have reported.
    assert_eq!((machine.row(24 * 4 + 8), machine.row(24 * 4 + 9)), (Some(0), None));
}

#[test]
fn a_machine_of_numbers() {
    let mut first = first();
    let shape = first.shape();
    let mut machine = Machine::open(&shape, &[1, u64::MAX]).expect("a machine");
    assert_eq!((machine.shape(), machine.word(0), machine.word(1), machine.word(2)), (shape.clone(), Some(1), Some(u64::MAX), Some(0)));
    machine.run([]);
    first.finish();
    let mut fresh = first.reopened().expect("a machine");
    assert_eq!((fresh.shape(), fresh.word(5), fresh.finished()), (shape.clone(), Some(17), true));
    let fault = |shape: torusmem::Shape, words: &[u64]| Machine::open(&shape, words).err();
    let text = |fault| Some(Fault::Text { fault, line: 0 });
    assert_eq!(fault(torusmem::Shape { radices: vec![], datelines: vec![], ..shape.clone() }, &[]), text(2));
    assert_eq!(fault(torusmem::Shape { radices: vec![2; 4], datelines: vec![1; 4], ..shape.clone() }, &[]), text(2));
    assert_eq!(fault(torusmem::Shape { radices: vec![2; 2], ..shape.clone() }, &[]), text(13));
    assert_eq!(fault(torusmem::Shape { tags: 17, ..shape.clone() }, &[]), text(6));
    assert_eq!(fault(shape, &[0; 9]), text(7));
}

#[test]
fn machines_that_are_restored() {
    let mut machine = Machine::load_recorded(&read("examples/machine.txt"), &read("examples/script.txt")).expect("a machine");
    machine.round();
    let bytes = machine.save().expect("memory").expect("a record");
    let mut again = Machine::restored(&bytes).expect("the same machine");
    let mut other = machine.cloned().expect("memory").expect("a record");
    assert_eq!((again.report(), again.save()), (machine.report(), machine.save()));
    assert_eq!((again.finish(), again.report()), (other.finish(), other.report()));
    assert_eq!(Machine::restored(&bytes[..9]).err(), Some(torusmem::Unrestored::Byte(9)));
    let changed = [&bytes[..40], &[bytes[40] ^ 1], &bytes[41..]].concat();
    assert_eq!(Machine::restored(&changed).err(), Some(torusmem::Unrestored::Byte(bytes.len() as u64 - 8)), "the checksum differs");
    let first_version = [&bytes[..8], &[1], &bytes[9..bytes.len() - 8]].concat();
    let no_action = [&first_version[..first_version.len() - 4], &[15, 0, 0, 0]].concat();
    assert_eq!(Machine::restored(&no_action).err(), Some(torusmem::Unrestored::Action(0)));
    assert_eq!((first().save(), first().cloned().map(|it| it.is_none())), (Ok(None), Ok(true)));
    let mut numbered = Machine::open_recorded(&machine.shape(), &[7]).expect("a machine");
    numbered.round();
    let bytes = numbered.save().expect("memory").expect("a record");
    let mut again = Machine::restored(&bytes).expect("the same machine");
    assert_eq!((again.word(0), again.report(), again.save()), (Some(7), numbered.report(), Ok(Some(bytes))));
    assert_eq!(Machine::open_recorded(&machine.shape(), &[0; 9]).err(), Some(Fault::Text { fault: 7, line: 0 }));
}

#[test]
fn the_order() {
    let mut machine = first();
    assert_eq!(machine.order(0), Ok(vec![]));
    machine.finish();
    let rows = machine.order(0).unwrap();
    let told = |it: &torusmem::Ordered| (it.bank, it.place, it.source, it.index, it.issued, it.served, it.answered);
    assert_eq!(rows.iter().map(told).collect::<Vec<_>>(), [(1, 0, 0, 0, 1, 2, Some(3)), (1, 1, 0, 1, 4, 5, Some(6))]);
    assert_eq!((machine.order(1), machine.order(u32::MAX)), (Ok(rows[1..].to_vec()), Ok(vec![])));
    let events = machine.events(1).unwrap();
    let seen: Vec<_> = events.iter().map(|it| (it.number, it.what, it.operation)).collect();
    let kinds = [What::Issue, What::Service, What::Answer];
    let wanted: Vec<_> = (0..6).map(|at| (at as u32 + 1, kinds[at % 3], rows[at / 3])).collect();
    assert_eq!((seen, machine.events(6)), (wanted, Ok(events[5..].to_vec())));
}

#[test]
fn what_is_not_there_is_idle() {
    let mut machine = first();
    let left = machine.moves_left();
    for (agent, choice) in [(6, Choice::Send), (u32::MAX, Choice::Take), (0, Choice::Serve), (1, Choice::Send)] {
        assert!(!machine.enabled(agent, choice) && !machine.step(agent, choice));
    }
    for port in [10, u32::MAX] {
        for choice in [Choice::TakeFrom(port), Choice::Put(port), Choice::CreditOf(port)] {
            assert!(!machine.enabled(1, choice) && !machine.step(1, choice));
        }
    }
    assert_eq!((machine.moves_left(), machine.row(u32::MAX), machine.word(u32::MAX)), (left, None, None));
    let steps = [(9, Choice::Send), (0, Choice::Send), (0, Choice::Serve), (1, Choice::TakeFrom(8))];
    assert_eq!((machine.run(steps), machine.moves_left()), (2, left - 2));
    let shape = machine.shape();
    assert_eq!((shape.radices, shape.datelines, shape.depth), (vec![2], vec![1], 4));
    assert_eq!((shape.tags, shape.words, shape.tiles, shape.ports), (4, 8, 2, 10));
}

#[test]
fn a_route_over_the_dateline() {
    let mut ring = Machine::load(&read("examples/dateline.txt"), b"").unwrap();
    let hop = |tile, dir, bit, number| Channel { tile, kind: Kind::Hop { dim: 0, dir, bit }, number };
    let ends = |tile, kind, number| Channel { tile, kind, number };
    let there = vec![
        ends(1, Kind::Injection, 0),
        hop(1, Dir::Plus, false, 7),
        hop(2, Dir::Plus, true, 9),
        hop(3, Dir::Plus, true, 10),
        ends(4, Kind::Ejection, 17),
    ];
    let back = vec![
        ends(4, Kind::Injection, 18),
        hop(4, Dir::Minus, false, 25),
        hop(3, Dir::Minus, true, 27),
        hop(2, Dir::Minus, true, 28),
        ends(1, Kind::Ejection, 35),
    ];
    assert_eq!((ring.route(1, 4, Class::Request), ring.route(4, 1, Class::Reply)), (Some(there), Some(back)));
    assert_eq!((ring.route(1, 8, Class::Request), ring.route(8, 1, Class::Reply)), (None, None));
    // The same way hop by hop: outputs 0 and 1 are hops plus of requests on bit 0 and 1, and 8 is the ejection.
    let hops = [(1, 8, 0), (2, 0, 1), (3, 1, 1), (4, 1, 8)];
    assert!(hops.iter().all(|&(at, input, output)| ring.next(at, input, 4) == Some(output)));
    assert_eq!((ring.next(8, 0, 4), ring.next(1, 10, 4), ring.next(1, 0, 8)), (None, None, None));
}

#[test]
fn faults_of_texts() {
    let machine = read("examples/machine.txt");
    let refused = |machine: &[u8], scripts: &[u8]| Machine::load(machine, scripts).expect_err("a fault");
    assert_eq!(refused(b"radix 9\n", b"0 load 8\n"), Fault::Text { fault: 1, line: 1 });
    assert_eq!(refused(b"", b""), Fault::Text { fault: 5, line: 1 });
    assert_eq!(refused(b"radix 2\n", b""), Fault::Text { fault: 5, line: 2 });
    assert_eq!(refused(&machine, b"0 load 8\n"), Fault::Text { fault: 7, line: 1 });
    assert_eq!(refused(&machine, b"\n0 jump 1\n").to_string(), "fault F4 at line 2: a line is not understood");
    assert!(Machine::load(&machine, b"").is_ok_and(|mut machine| machine.finished()));
}

#[test]
fn faults_are_explained() {
    let machine = read("examples/machine.txt");
    let rows: [(&[u8], &[u8], u32, Text, u64, &str); 4] = [
        (b"\nradix 9\n", b"0 load 8\n", 1, Text::Machine, 2, "machine:2: radix 9: a radix is 2 to 8"),
        (b"", b"", 5, Text::Machine, 1, "machine:1: the text ends without radix"),
        (&machine, b"0 load 8\n", 7, Text::Scripts, 1, "scripts:1: address 8: the machine has the words 0 to 7"),
        (
            &machine,
            b"\n9 load 1\n",
            8,
            Text::Scripts,
            2,
            "scripts:2: processor 9: the machine has the processors 0 to 1",
        ),
    ];
    for (machine, scripts, fault, text, line, sentence) in rows {
        let why = explain(machine, scripts).expect("a fault");
        assert_eq!((why.fault, why.text, why.line), (fault, Some(text), line), "{sentence}");
        assert_eq!(why.to_string(), sentence);
        assert!(sentence.ends_with(&format!(":{line}: {}", why.reason())));
        assert_eq!(Machine::load(machine, scripts).expect_err("a fault"), Fault::Text { fault, line });
    }
    assert_eq!(explain(&machine, b""), None);
    let long = [b"0 ", "x".repeat(1000).as_bytes(), b"\n"].concat();
    assert!(explain(&machine, &long).is_some_and(|why| why.named("a.txt").starts_with("a.txt:1: xxx")));
}

#[test]
fn networks_are_judged() {
    let judged = |text: &str| network(text.as_bytes()).expect("a network");
    let pair = "channels 4\ninject 0\neject 1\neject 2\ninject 3\n";
    let rows = [
        ("join 1 2\n", 1, 2, Why::NoSender),
        ("join 0 1\nnext 0 1 1\njoin 0 0\n", 0, 0, Why::NoReceiver),
        ("join 0 2\n", 0, 2, Why::Leaves(1)),
        ("join 3 2\nnext 3 2 1\n", 3, 2, Why::Ejects(1)),
        ("join 3 2\nnext 3 2 0\nnext 0 2 2\n", 3, 2, Why::Injects(1)),
    ];
    for (lines, from, to, why) in rows {
        assert_eq!(judged(&format!("{pair}{lines}")), Verdict::NoRoute { from, to, why }, "{lines}");
    }
    let round = "channels 4\ninject 0\neject 3\njoin 0 3\nnext 0 3 1\nnext 1 3 2\nnext 2 3 1\n";
    assert_eq!(judged(round), Verdict::NoRoute { from: 0, to: 3, why: Why::Round });
    let ring = "channels 6\ninject 0\ninject 1\neject 4\neject 5\njoin 0 5\njoin 1 4\nnext 0 5 2\nnext 2 5 3\n\
                next 3 5 5\nnext 1 4 3\nnext 3 4 2\nnext 2 4 4\n";
    let (there, back) = (Link { channel: 2, by: By::To(5) }, Link { channel: 3, by: By::To(4) });
    let (one, two) = (Fill { from: 0, to: 5, step: 1 }, Fill { from: 1, to: 4, step: 1 });
    let cycles = [(vec![there, back], vec![two, one]), (vec![back, there], vec![one, two])];
    assert!(cycles.map(|(links, jam)| Verdict::Cycle { links, jam }).contains(&judged(ring)));
    let line = "channels 2\ninject 0\neject 1\njoin 0 1\nnext 0 1 1\n";
    let (asked, answered) = (Link { channel: 0, by: By::To(1) }, Link { channel: 1, by: By::Replies(0) });
    let jam = vec![Fill { from: 0, to: 1, step: 1 }, Fill { from: 0, to: 1, step: 0 }];
    let cycles = [vec![asked, answered], vec![answered, asked]].map(|links| Verdict::Cycle { links, jam: jam.clone() });
    assert!(cycles.contains(&judged(&format!("{line}reply 1 0\n"))));
    assert!(matches!(judged(line), Verdict::Rising(numbers) if numbers.len() == 2 && numbers[0] < numbers[1]));
    assert_eq!(judged("channels 2\ninject 0\neject 1\n"), Verdict::NoPair);
    assert_eq!(network(b"channels 2\ninject 2\n"), Err(Fault::Text { fault: 6, line: 2 }));
    assert_eq!(network(b""), Err(Fault::Text { fault: 5, line: 1 }));
    let choose = b"channels 4\ninject 0\neject 3\njoin 0 3\nnext 0 3 1\nnext 0 3 2\nnext 1 3 3\nnext 2 3 3\n";
    assert!(network_answer(choose).is_ok_and(|(rising, said)| rising && said.starts_with("number 0 ")));
    assert_eq!(network_answer(b"channels 2\ninject 0\neject 1\n"), Ok((false, "no pair\n".to_string())));
    assert_eq!(network_answer(b""), Err(Fault::Text { fault: 5, line: 1 }));
}

/// An order of a trace text; why there is none; and the line that is refused.
#[test]
fn traces_are_said() {
    let head = "trace 1\nwords 8\nissue 0 add 5 1\nissue 1 add 5 2\nanswer 0 0 ";
    let said = |reply: &str| linearize_answer(format!("{head}{reply}\n").as_bytes(), 1000000);
    let text = "order 1 0 add 5 2 -\norder 0 0 add 5 1 2\nlinearizable\n".to_string();
    assert_eq!(said("2"), Ok(Said::Linearizable { text }));
    let Ok(Said::NotLinearizable { line: 5, text }) = said("9") else { panic!("no order gives 9") };
    assert!(text.starts_with("not linearizable at line 5\ntrace:5: answer 0 0 9: no order gives 9"), "{text}");
    assert_eq!(said("ok"), Err(Fault::Text { fault: 4, line: 5 }));
}

/// Store buffering by its replies alone; a reply that no write left; and the line that is refused.
#[test]
fn replies_are_judged() {
    let made = "log 1\nwords 2\nmade 0 store 0 1\nmade 0 load 1\nmade 1 store 1 1\nmade 1 load 0\n";
    let of = |replies: &str| model_values(format!("{made}{replies}").as_bytes(), 10000, true);
    let decided = of("replied 0 1 0\nreplied 1 1 0\n").unwrap();
    assert_eq!([decided.coherent, decided.fenced, decided.pso, decided.tso], [Some(true); 4]);
    assert!(decided.sc == Some(false) && decided.text.contains("\nsc no\nan order of tso:\n"));
    assert_eq!(of("replied 0 1 7\nreplied 1 1 0\n"), Err(Undecided::Unwritten { line: 7 }));
    assert_eq!(of(""), Err(Undecided::Fault(Fault::Text { fault: 5, line: 4 })));
}

/// All outcomes of message passing with fences, a run to one, and replies that no run has.
#[test]
fn outcomes_are_found() {
    let (machine, scripts) = (read("examples/machine.txt"), read("examples/message/fenced.txt"));
    let found = outcomes(&machine, &scripts, 100000).unwrap();
    assert_eq!((found.exact, found.outcomes, found.states), (true, 3, 35));
    assert!(found.text.starts_with("outcome 0 : ok ok / 1 42 ; 0 1 1 42\n") && found.text.ends_with("\nexact, 35 states\n"));
    let run = outcomes_run(&machine, &scripts, 1, 100000).unwrap().expect("an outcome");
    let mut made = Machine::load(&machine, &scripts).expect("the texts are loaded");
    assert!(steps_of(&run).into_iter().all(|(agent, choice)| made.step(agent, choice)) && made.finished());
    let replies: Vec<_> = made.answers(1).expect("a processor").iter().map(|answer| answer.reply).collect();
    assert!(replies == [Reply::Old(0); 2] && run.ends_with("# finished\n"));
    let text = format!("{run}# reached\n");
    assert_eq!(reach(&machine, &scripts, b"ok ok / 0 0", 100000), Ok(Reached::Run { text }));
    assert_eq!(outcomes_run(&machine, &scripts, 3, 100000), Ok(None));
    assert_eq!(outcomes_run(&machine, &scripts, 3, 7), Err(Unsearched::Undecided));
    let text = "never, 35 states\n".to_string();
    assert_eq!(reach(&machine, &scripts, b"ok ok / 1 0", 100000), Ok(Reached::Never { text }));
    let text = "undecided, 7 states\n".to_string();
    assert_eq!(reach(&machine, &scripts, b"ok ok / 1 0", 7), Ok(Reached::Undecided { text }));
    assert_eq!(reach(&machine, &scripts, b"ok ok / 1 x", 7), Err(Unsearched::NoReply));
    assert_eq!(reach(&machine, &scripts, b"ok ok / 1", 7), Err(Unsearched::OtherCount));
    assert_eq!(outcomes(&machine, &b"0 load 1\n".repeat(257), 7), Err(Unsearched::TooLong));
    assert_eq!(outcomes(&machine, b"0 load 8\n", 7), Err(Unsearched::Fault(Fault::Text { fault: 7, line: 1 })));
    assert_eq!(outcomes(&machine, &scripts, 0), Err(Unsearched::Fault(Fault::Text { fault: 6, line: 0 })));
}

/// A chain so long that its verdict doesn't fit at once: the numbers rise from the one end to the other.
#[test]
fn a_long_network_is_judged() {
    let last = 16383;
    let hops: String = (0..last).map(|at| format!("next {at} {last} {}\n", at + 1)).collect();
    let text = format!("channels {}\ninject 0\neject {last}\njoin 0 {last}\n{hops}", last + 1);
    let Ok(Verdict::Rising(numbers)) = network(text.as_bytes()) else { panic!("it rises") };
    assert!(numbers.len() == 16384 && numbers.windows(2).all(|pair| pair[0] < pair[1]));
}

/// The spin of line 3 of the text runs out of loads, and that of line 6 finds its number.
#[test]
fn a_spin_runs_out() {
    let machine_text = b"radix 2\ndims 1\ndepth 4\ntags 4\nwords 8\n";
    let scripts = b"# spins\n0 store 5 17\n1 spin 5 18 2\n\n0 fence\n0 spin 5 17 400\n1 load 5\n";
    let mut machine = Machine::load(machine_text, scripts).expect("the texts are loaded");
    let spin = Spin { processor: 1, line: 3, address: 5, sought: 18, loads: 2 };
    while !machine.finished() {
        let is_over = machine.answers(1).expect("a processor").len() >= 2;
        let wanted = if is_over { vec![spin] } else { vec![] };
        assert_eq!(machine.spins_out(machine_text, scripts), Ok(wanted));
        machine.round();
    }
    assert_eq!(machine.spins_out(machine_text, scripts), Ok(vec![spin]));
    assert_eq!(machine.spins_out(machine_text, b"1 load 5\n"), Ok(vec![]));
    assert_eq!(machine.spins_out(machine_text, b"\n0 load 8\n"), Err(Fault::Text { fault: 7, line: 2 }));
    assert_eq!(machine.spins_out(b"", b""), Err(Fault::Text { fault: 5, line: 1 }));
}

fn issued(processor: u32, operation: Operation) -> Event {
    Event::Issue { processor, address: 1 << 63, operation }
}

fn stored(processor: u32, index: u32) -> Event {
    Event::Answer { processor, index, reply: Reply::Ok }
}

fn read_as(processor: u32, index: u32, old: u64) -> Event {
    Event::Answer { processor, index, reply: Reply::Old(old) }
}

/// Histories of one word (Herlihy and Wing, TOPLAS 12(3), 1990).
#[test]
fn traces_are_judged() {
    let (store, load, add) = (issued(0, Operation::Store(1)), issued(1, Operation::Load), Operation::Add(1));
    let is = |order: &[usize]| Judged::Linearizable(order.to_vec());
    let not = |event| Judged::NotLinearizable { event };
    let rows: [(&[Event], Judged); 8] = [
        (&[], is(&[])),
        (&[store, load, read_as(1, 0, 1), load, read_as(1, 1, 1), stored(0, 0)], is(&[0, 1, 3])),
        (&[store, load, read_as(1, 0, 0), load, read_as(1, 1, 1), stored(0, 0)], is(&[1, 0, 3])),
        (&[store, load, read_as(1, 0, 1), load, read_as(1, 1, 0), stored(0, 0)], not(4)),
        (&[store, stored(0, 0), load, read_as(1, 0, 0)], not(3)),
        (&[store, load, read_as(1, 0, 1)], is(&[0, 1])),
        (&[store, load, read_as(1, 0, 0)], is(&[1])),
        (&[issued(0, add), issued(1, add), read_as(0, 0, 0), read_as(1, 0, 0)], not(3)),
    ];
    for (events, wanted) in rows {
        assert_eq!(linearize([], events, 1000), Ok(wanted), "{events:?}");
    }
    let cas = [issued(0, Operation::Cas { expected: 5, new: 6 }), read_as(0, 0, 5), load, read_as(1, 0, 6)];
    assert_eq!(linearize([(1 << 63, 5), (3, 4)], &cas, 1000), Ok(is(&[0, 2])));
    assert_eq!(linearize([(1 << 62, 5)], &cas, 1000), Ok(not(1)));
    let mut many: Vec<_> = (0..65).map(|processor| issued(processor, add)).collect();
    assert_eq!(linearize([], &many, 1000), Ok(is(&[])));
    many.extend((0..65).map(|processor| read_as(processor, 0, u64::from(processor))));
    assert_eq!(linearize([], &many, 1000), Ok(Judged::TooOpen { event: 64 }));
    many.truncate(4);
    many.extend([read_as(0, 0, 1), read_as(1, 0, 0), read_as(2, 0, 2), read_as(3, 0, 3)]);
    assert_eq!(linearize([], &many, 1), Ok(Judged::TooMany { event: 4 }));
    assert_eq!(linearize([], &many, 1000), Ok(is(&[1, 0, 2, 3])));
}

#[test]
fn events_that_can_not_stand() {
    let (store, load) = (issued(0, Operation::Store(1)), issued(1, Operation::Load));
    let rows = [
        (issued(4096, Operation::Load), 8),
        (stored(4096, 0), 8),
        (stored(0, 1), 6),
        (stored(2, 0), 6),
        (read_as(0, 0, 1), 4),
        (stored(1, 0), 4),
    ];
    for (event, fault) in rows {
        assert_eq!(linearize([], &[store, load, event], 1000), Err(EventFault::Event { fault, event: 2 }), "{event:?}");
    }
    let twice = [store, stored(0, 0), stored(0, 0)];
    let fault = linearize([], &twice, 1000).expect_err("a fault");
    assert_eq!((fault, fault.to_string().as_str()), (EventFault::Event { fault: 5, event: 2 }, "fault F5 at event 2"));
}

fn makes(processor: u32, address: u32, operation: Operation) -> LogEntry {
    LogEntry::Made { processor, address, operation }
}

/// Two processors store, then load the other word, which neither finds written.
fn store_buffering(is_fenced: bool) -> Vec<LogEntry> {
    let mut log = Vec::new();
    for processor in 0..2 {
        log.push(makes(processor, processor, Operation::Store(1)));
        if is_fenced {
            log.push(LogEntry::Fence { processor });
        }
        log.push(makes(processor, 1 - processor, Operation::Load));
    }
    let index = 1 + u32::from(is_fenced);
    log.extend((0..2).map(|processor| LogEntry::Wrote { processor, index: 0 }));
    log.extend((0..2).map(|processor| LogEntry::ReadOpening { processor, index }));
    log
}

#[test]
fn models_are_judged() {
    let obeyed = model(2, &store_buffering(false), true).expect("a log");
    assert!(obeyed.coherent && obeyed.fenced && obeyed.pso && obeyed.tso && !obeyed.sc);
    assert!(obeyed.text.starts_with("coherent yes\nfenced yes\npso yes\ntso yes\nsc no\nno order of sc:\n"));
    assert!(obeyed.text.contains("\nan order of tso:\n"));
    let obeyed = model(2, &store_buffering(true), false).expect("a log");
    assert!(obeyed.coherent && !obeyed.fenced && !obeyed.pso && !obeyed.tso && !obeyed.sc);
    let read = LogEntry::Read { processor: 1, index: 0, from: (0, 0) };
    let replied = |old| LogEntry::Replied { processor: 1, index: 0, reply: Reply::Old(old) };
    let first = [LogEntry::Init { address: 5, word: 7 }, makes(0, 5, Operation::Cas { expected: 7, new: 9 })];
    let log = [&first[..], &[makes(1, 5, Operation::Load), LogEntry::Wrote { processor: 0, index: 0 }, read]].concat();
    let obeyed = model(6, &[&log[..], &[replied(9)]].concat(), false).expect("a log");
    assert_eq!(obeyed.text, "coherent yes\nfenced yes\npso yes\ntso yes\nsc yes\n");
    let wrong = model(6, &[&log[..], &[replied(7)]].concat(), false).expect_err("a wrong reply");
    assert_eq!(wrong, LogFault::WrongReply { entry: 6, word: 9, writer: 2 });
    assert_eq!(wrong.to_string(), "the reply of entry 6 is wrong: the word is 9 (entry 2)");
    let many: Vec<_> = (0..400).map(|processor| makes(processor, u32::MAX, Operation::Add(u64::MAX))).collect();
    let served = (0..400).map(|processor| LogEntry::Wrote { processor, index: 0 });
    let obeyed = model(1 << 32, &many.into_iter().chain(served).collect::<Vec<_>>(), true).expect("a log");
    assert_eq!(obeyed.text.matches("add 4294967295 18446744073709551615").count(), 400);
    assert!(model(1, &[], false).expect("an empty log").sc);
}

#[test]
fn entries_that_can_not_stand() {
    let first = [makes(0, 0, Operation::Store(1)), makes(1, 1, Operation::Load), LogEntry::Wrote { processor: 0, index: 0 }];
    let rows = [
        (LogEntry::Wrote { processor: 0, index: 1 }, 6),
        (LogEntry::Wrote { processor: 0, index: 0 }, 5),
        (LogEntry::Wrote { processor: 1, index: 0 }, 4),
        (LogEntry::Served { processor: 0, index: 0 }, 4),
        (LogEntry::Wrote { processor: 4096, index: 0 }, 8),
        (LogEntry::Fence { processor: 4096 }, 8),
        (makes(0, 2, Operation::Load), 7),
        (LogEntry::Init { address: 0, word: 1 }, 5),
        (LogEntry::Replied { processor: 1, index: 0, reply: Reply::Ok }, 4),
    ];
    for (entry, fault) in rows {
        let log = [&first[..], &[entry]].concat();
        assert_eq!(model(2, &log, false), Err(LogFault::Entry { fault, entry: 4 }), "{entry:?}");
    }
    let fault = model(2, &first, false).expect_err("a fault");
    assert_eq!((fault, fault.to_string().as_str()), (LogFault::Entry { fault: 5, entry: 2 }, "fault F5 at entry 2"));
    assert_eq!(model(0, &[], false), Err(LogFault::Entry { fault: 6, entry: 0 }));
}

#[test]
fn traces_are_watched() {
    let mut watch = Watch::begin(&[0, 5]).expect("it is begun");
    assert_eq!(watch.issue(2, Operation::Load), Err(NotTaken::NoSuch));
    let store = watch.issue(0, Operation::Store(1)).unwrap();
    let load = watch.issue(0, Operation::Load).unwrap();
    assert_eq!((store, load), (0, 1));
    assert_eq!(watch.answer_within(load, Reply::Old(1), 1), Err(NotTaken::TooMany));
    assert_eq!(watch.answer(2, Reply::Old(0)), Err(NotTaken::NoSuch));
    assert_eq!(watch.answer(load, Reply::Old(2)), Err(NotTaken::NotLinearizable));
    assert_eq!(watch.answer(load, Reply::Old(1)), Ok(()));
    assert_eq!(watch.answer(load, Reply::Old(1)), Err(NotTaken::NoSuch));
    let later = watch.issue(0, Operation::Load).unwrap();
    assert_eq!(watch.answer(later, Reply::Old(0)), Err(NotTaken::NotLinearizable));
    assert_eq!((watch.answer(store, Reply::Ok), watch.answer(later, Reply::Old(1))), (Ok(()), Ok(())));
    let mut other = watch;
    let cas = other.issue(1, Operation::Cas { expected: 5, new: 6 }).unwrap();
    assert_eq!(other.answer(cas, Reply::Old(6)), Err(NotTaken::NotLinearizable));
    assert_eq!(other.answer(cas, Reply::Old(5)), Ok(()));
    assert_eq!(Watch::begin(&[]).unwrap().issue(0, Operation::Load), Err(NotTaken::NoSuch));
    assert_eq!(NotTaken::NotLinearizable.to_string(), "not linearizable");
}

#[test]
fn watches_are_saved() {
    let mut watch = Watch::begin(&[0, 5]).expect("it is begun");
    let add = watch.issue(1, Operation::Add(2)).unwrap();
    let other = watch.issue(1, Operation::Add(2)).unwrap();
    assert_eq!(watch.answer(other, Reply::Old(7)), Ok(()));
    let saved = watch.save().expect("memory");
    let mut again = Watch::restored(&saved).expect("it was saved");
    assert_eq!(again.save(), Ok(saved.clone()));
    for it in [&mut again, &mut watch] {
        assert_eq!(it.answer(add, Reply::Old(6)), Err(NotTaken::NotLinearizable));
        assert_eq!((it.answer(add, Reply::Old(5)), it.issue(1, Operation::Load)), (Ok(()), Ok(2)));
    }
    assert_eq!(Watch::restored(&saved[..9]).err(), Some(torusmem::Unrestored::Byte(9)));
    let mut changed = saved.clone();
    changed[60] ^= 1;
    assert_eq!(Watch::restored(&changed).err(), Some(torusmem::Unrestored::Byte(saved.len() as u64 - 8)));
    assert_eq!(Machine::restored(&saved).err(), Some(torusmem::Unrestored::Fault(Fault::Text { fault: 4, line: 1 })));
}

#[test]
fn every_operation_is_watched() {
    let old = Reply::Old;
    let rows = [
        (Operation::Load, old(6), 6),
        (Operation::Store(9), Reply::Ok, 9),
        (Operation::Swap(5), old(9), 5),
        (Operation::Cas { expected: 5, new: 8 }, old(5), 8),
        (Operation::Add(4), old(8), 12),
        (Operation::And(10), old(12), 8),
        (Operation::Or(3), old(8), 11),
        (Operation::Xor(1), old(11), 10),
        (Operation::Max(20), old(10), 20),
        (Operation::Min(2), old(20), 2),
    ];
    let mut watch = Watch::begin(&[6]).expect("it is begun");
    for (operation, reply, left) in rows {
        let number = watch.issue(0, operation).unwrap();
        assert_eq!(watch.answer(number, reply), Ok(()), "{operation:?}");
        let load = watch.issue(0, Operation::Load).unwrap();
        assert_eq!(watch.answer(load, old(left)), Ok(()), "{operation:?}");
    }
}

#[test]
fn texts_may_overlap() {
    let both = b"radix 2\ndims 1\ndepth 4\ntags 4\nwords 8\n#0 store 5 17\n";
    let script = both.iter().position(|&byte| byte == b'#').expect("a comment") + 1;
    let mut machine = Machine::load(both, &both[script..]).expect("the text is loaded");
    machine.finish();
    assert_eq!(machine.word(5), Some(17));
    assert_eq!(Machine::load(both, both).expect_err("a fault"), Fault::Text { fault: 4, line: 1 });
    assert!(Machine::load(both, &both[..0]).is_ok_and(|mut machine| machine.finished()));
}

#[test]
fn reports_are_judged() {
    for name in
        ["examples/report.txt", "examples/flag/report.txt", "examples/flag/unfinished.txt", "examples/trace.txt"]
    {
        assert_eq!(check(&read(name)), Ok(()), "{name}");
    }
    assert_eq!(check(&read("examples/stale.txt")), Err(Fault::Report { line: 8 }));
    assert_eq!(check(b""), Err(Fault::Report { line: 1 }));
}

#[test]
fn machines_of_many_threads_share_nothing() {
    let run = || {
        let mut machines = [first(), loaded("examples/flag/machine.txt", "examples/flag/script.txt")];
        while !machines.iter_mut().all(Machine::finished) {
            machines.iter_mut().for_each(Machine::round);
        }
        machines.map(|mut machine| machine.report().unwrap())
    };
    let threads: Vec<_> = (0..4).map(|_| thread::spawn(run)).collect();
    let reports: Vec<_> = threads.into_iter().map(|it| it.join().expect("the thread ends")).collect();
    assert!(reports.iter().all(|it| it[0] == read("examples/report.txt") && it[1] == reports[0][1]));
    assert_eq!(check(&reports[0][1]), Ok(()));
}

#[test]
fn a_machine_goes_from_thread_to_thread() {
    let mut machine = thread::spawn(first).join().expect("it is loaded in one thread");
    let (rounds, mut machine) = thread::spawn(move || (machine.finish(), machine)).join().expect("run in another");
    assert_eq!((rounds, machine.report()), (12, Ok(read("examples/report.txt"))));
}
