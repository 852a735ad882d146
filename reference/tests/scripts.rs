//! Random scripts for the line program: what they reach, and that the line program, the calls by
//! contents and a second vault, written here from documents 01 and 02 alone, give the same output.

use std::collections::{BTreeMap, BTreeSet};

use reference::lines;
use reference::record::Record;
use reference::report_faults::wanted_faults;
use reference::scripts::{cover, script, Coverage};
use reference::vault::{self, Step};

const SEED: u64 = 20_000;

/// A debug build is slower, so it runs fewer scripts.
fn count(release: u64) -> u64 {
    if cfg!(debug_assertions) {
        release.div_ceil(4)
    } else {
        release
    }
}

fn line_program(input: &[u8]) -> Vec<u8> {
    let mut output = Vec::new();
    lines::run(input, &mut output).expect("reading and writing memory");
    output
}

// ---------------------------------------------------------------------------------------------
// What the scripts reach.

#[test]
fn scripts_reach_every_step_refusal_and_clause() {
    let mut coverage = Coverage::default();
    for seed in SEED..SEED + count(1200) {
        cover(&script(seed), &mut coverage);
    }
    println!("{coverage:?}");
    println!("{:?}", coverage.wish_3());
    println!("rarest: {:?}", &coverage.rarest()[..12]);
    for step in [Step::A, Step::B, Step::C, Step::D, Step::E, Step::F, Step::G, Step::H] {
        assert!(coverage.step(step) > 0, "{step:?}");
    }
    for (number, &reached) in coverage.refusals.iter().enumerate() {
        assert_eq!(reached > 0, reachable(number), "refusal {number}");
    }
    assert!(
        coverage.view_zero > 0
            && coverage.no_lock > 0
            && coverage.one_set > 0
            && coverage.two_sets > 0
    );
    assert!(coverage.proposed_start > 0 && coverage.proposed_other > 0);
    assert!(coverage.waited > 0 && coverage.none_safe > 0);
    assert!(coverage.decisions > coverage.late_decisions && coverage.late_decisions > 0);
    assert!(coverage.decisions_of_64 > 0);
    assert!(coverage.timer_repeats > coverage.far_repeats && coverage.far_repeats > 0);
    assert!(coverage.last_views > 0);
    assert_eq!(coverage.missing(), Vec::<String>::new(), "wish 3, and faults in reports");
}

/// `missing` names each fault and each thing of wish 3 until it was reached, and a wrong number
/// wherever it comes.
#[test]
fn missing_names_what_was_not_reached() {
    let mut coverage = Coverage::default();
    let wanted = 3 * wanted_faults().len() + coverage.wish_3().len();
    assert_eq!(coverage.missing().len(), wanted);
    // at vault 3 of 4, which does not lead view 4: 21 in the lock with 22, first in a proof
    let reports = "00000000000000000000000000\
        0100000002000000000000000601000000040000000000000001";
    cover(format!("00040103020000000000000007\n080100000004{reports}").as_bytes(), &mut coverage);
    let fault = "21 by the view of lock, 22 without highest";
    assert!(!coverage.missing().contains(&format!("proof: {fault}")));
    assert!(coverage.missing().contains(&format!("suggest: {fault}")));
    assert_eq!(coverage.missing().len(), wanted - 1);
    // a frame that 13 refuses shows nothing of 21
    cover(format!("00040103020000000000000007\n080100000000{reports}").as_bytes(), &mut coverage);
    assert_eq!((coverage.missing().len(), coverage.misjudged), (wanted - 1, 0));
    coverage.misjudged = 1;
    assert_eq!(coverage.missing().len(), wanted);
}

/// Each thing of wish 3 by a script of its own: what it counts, in the order of `wish_3`.
#[test]
fn the_counts_of_wish_3() {
    // vault 0 of 7 with f = 2; A asks for 3, then for 5 while B enters 3; timers repeat 5
    let seven = "00070200020000000000000007\n060100000005\n060200000003\n060300000009\n";
    let entered = format!("{seven}060400000009\n");
    // vault 0 of 4: its own timer, then two view-changes for 1, or for 2 and 1
    let four = "00040100020000000000000007\n0900000000\n";
    for (script, counts) in [
        (seven.to_string(), [0, 0, 0, 1, 0, 0]),
        (format!("{seven}0900000000\n"), [0, 0, 1, 1, 0, 0]),
        (entered.clone(), [1, 1, 0, 2, 1, 0]),
        (format!("{entered}0900000003\n0900000003\n"), [1, 1, 2, 2, 1, 2]),
        (format!("{four}060100000001\n060200000001\n"), [0; 6]),
        (format!("{four}060200000002\n060100000001\n"), [0, 0, 0, 1, 0, 0]),
        // the view after is no far one, and the old count does as much for view-changes for one
        (format!("{four}0900000000\n060100000003\n060200000003\n"), [0; 6]),
    ] {
        let mut coverage = Coverage::default();
        cover(script.as_bytes(), &mut coverage);
        assert_eq!(coverage.wish_3().map(|(_, count)| count), counts, "{script}");
        let lacking = counts.iter().filter(|&&count| count == 0).count();
        assert_eq!(coverage.missing().len(), 3 * wanted_faults().len() + lacking);
    }
}

/// Which refusals lines can reach.
fn reachable(number: usize) -> bool {
    match number {
        0 => false,    // no refusal has this number
        1 => false,    // the program's output array has 256 bytes for every call
        2 => true,     // a frame or a timer before the first accepted start
        3 => false,    // the program begins blank, and accepted calls leave only sound records
        4 => true,     // a second start
        5..=8 => true, // starts with one setting out of range, on the blank record
        9 => true,     // an empty line, or a kind of 0a to ff; 00 and 09 are no frames here
        10 => true, // a frame cut or lengthened; a start or a timer of the wrong length, even when blank
        11 => true, // byte 1, taken as the link's sender, is n or more, or the vault's own number
        12 => false, // byte 1 is also the link's sender, so the two never differ
        13 => true, // view 0 in kinds 6, 7 and 8
        14 => true, // a report's mark, or a byte of an absent one
        15 => true, // a proposal from the wrong vault, a suggest for the wrong view
        16 => true, // a view gone by
        17 => true, // a frame kept already
        18 => true, // a timer of another view
        19 => true, // a timer in the last view, which a quorum of view-changes reaches at once
        20 => true, // text that is no line of digits
        21 => true, // a report at or above the frame's view
        22 => true, // a previous vote at odds with its highest
        _ => unreachable!("no such number"),
    }
}

#[test]
fn a_seed_gives_one_script() {
    for seed in 0..20 {
        assert_eq!(script(seed), script(seed));
    }
    assert_ne!(script(1), script(2));
}

// ---------------------------------------------------------------------------------------------
// The line program against the calls by contents.

#[test]
fn line_program_equals_the_calls_by_contents() {
    assert_alike(600, by_contents);
}

/// The line program prints what another program does, on so many random scripts.
fn assert_alike(scripts: u64, other: fn(&[u8]) -> Vec<u8>) {
    for seed in SEED..SEED + count(scripts) {
        let input = script(seed);
        let (one, other) = (line_program(&input), other(&input));
        assert!(one == other, "script {seed}: {}", first_difference(&one, &other));
    }
}

fn first_difference(one: &[u8], other: &[u8]) -> String {
    let (one, other) = (String::from_utf8_lossy(one), String::from_utf8_lossy(other));
    let pairs = one.lines().zip(other.lines()).enumerate();
    for (number, (a, b)) in pairs {
        if a != b {
            return format!("output line {number}: {a} against {b}");
        }
    }
    format!("{} output lines against {}", one.lines().count(), other.lines().count())
}

/// "A line ends at byte 0a or at the input's end; after a final 0a there is no further line".
fn lines_of(input: &[u8]) -> Vec<Vec<u8>> {
    let mut all = Vec::new();
    let mut rest = input;
    while !rest.is_empty() {
        let end = rest.iter().position(|&byte| byte == 0x0a);
        all.push(rest[..end.unwrap_or(rest.len())].to_vec());
        rest = end.map_or(&[], |end| &rest[end + 1..]);
    }
    all
}

/// "not an even count of lower-case hex digits, or over 90 digits"
fn digits(line: &[u8]) -> Result<Vec<u8>, u8> {
    let lower_hex = |byte: &u8| b"0123456789abcdef".contains(byte);
    if line.len() > 90 || line.len() % 2 == 1 || !line.iter().all(lower_hex) {
        return Err(20);
    }
    let text = std::str::from_utf8(line).expect("digits only");
    Ok((0..text.len())
        .step_by(2)
        .map(|at| u8::from_str_radix(&text[at..at + 2], 16).expect("two digits"))
        .collect())
}

fn number(bytes: &[u8]) -> u64 {
    bytes.iter().fold(0, |sum, &byte| sum * 256 + u64::from(byte))
}

fn hex(bytes: &[u8]) -> String {
    bytes.iter().map(|byte| format!("{byte:02x}")).collect()
}

/// The line program once more, over vault::start, frame and timer.
fn by_contents(input: &[u8]) -> Vec<u8> {
    let mut record = None;
    print(input, |line| contents_call(&mut record, &line))
}

/// One output entry a line, or fd and the refusal number.
fn print(input: &[u8], mut call: impl FnMut(Vec<u8>) -> Result<Vec<Vec<u8>>, u8>) -> Vec<u8> {
    let mut output = String::new();
    for line in lines_of(input) {
        match digits(&line).and_then(&mut call) {
            Ok(entries) => output.extend(entries.iter().map(|entry| hex(entry) + "\n")),
            Err(refusal) => output += &format!("fd{refusal:02x}\n"),
        }
    }
    output.into_bytes()
}

fn contents_call(record: &mut Option<Record>, line: &[u8]) -> Result<Vec<Vec<u8>>, u8> {
    let done = match line.first() {
        Some(0) if line.len() != 13 => return Err(10),
        Some(9) if line.len() != 5 => return Err(10),
        Some(0) if record.is_some() => return Err(4),
        Some(0) => vault::start(line[1], line[2], line[3], line[4], number(&line[5..]))?,
        kind => {
            let record = record.as_ref().ok_or(2)?;
            match kind {
                Some(9) => vault::timer(record, number(&line[1..]) as u32)?,
                _ => vault::frame(record, *line.get(1).unwrap_or(&255), line)?,
            }
        }
    };
    *record = Some(done.record);
    Ok(done.entries.iter().map(|entry| entry.bytes()).collect())
}

// ---------------------------------------------------------------------------------------------
// The line program against the second vault.

#[test]
fn line_program_equals_the_second_vault() {
    assert_alike(1200, by_second);
}

/// The example of document 01.
#[test]
fn the_documents_example() {
    let input = b"00040100020000000000000007\n0201000000000000000000000007\n\
        0202000000000000000000000007\n0201000000000000000000000007\n";
    let output =
        "fe0b0000000000000384\nff0100000000000000000000000007\nff0200000000000000000000000007\n\
        ff0300000000000000000000000007\nfd11\n";
    assert_eq!(String::from_utf8(line_program(input)).unwrap(), output);
    assert_eq!(String::from_utf8(by_second(input)).unwrap(), output);
}

/// Ends of input that are easily got wrong.
#[test]
fn ends_of_input() {
    for (input, output) in [
        (&b""[..], ""),
        (b"\n", "fd02\n"),
        (b"\n\n", "fd02\nfd02\n"),
        (b"0", "fd14\n"),
        (b"00", "fd0a\n"),
        (b"09\r\n", "fd14\n"),
        (b"0a", "fd02\n"),
        (b"0900000000", "fd02\n"),
        (b"0900000000\r", "fd14\n"),
        (b"\r", "fd14\n"),
        (b"00040100000000000000000000\n\n0a\n01\n", "fe0b00000000000000b4\nff0100000000000000000000000000\nff0200000000000000000000000000\nfd09\nfd09\nfd0a\n"),
    ] {
        assert_eq!(String::from_utf8(line_program(input)).unwrap(), output, "{input:?}");
        assert_eq!(String::from_utf8(by_second(input)).unwrap(), output, "{input:?}");
    }
}

fn by_second(input: &[u8]) -> Vec<u8> {
    let mut vault = None;
    print(input, |line| second_call(&mut vault, &line))
}

fn second_call(vault: &mut Option<Second>, line: &[u8]) -> Result<Vec<Vec<u8>>, u8> {
    match (line.first(), vault.as_mut()) {
        (Some(0), _) if line.len() != 13 => Err(10),
        (Some(9), _) if line.len() != 5 => Err(10),
        (Some(0), Some(_)) => Err(4),
        (Some(0), None) => {
            let mut fresh = Second::start(line)?;
            fresh.enter_view(0);
            fresh.pass_from_c();
            Ok(vault.insert(fresh).take_out())
        }
        (_, None) => Err(2),
        (Some(9), Some(vault)) => vault.timer(number(&line[1..])),
        (_, Some(vault)) => vault.frame(line),
    }
}

/// A vote as a report tells of it: view and plan.
type Vote = (u64, u64);

/// What is kept of one frame.
#[derive(Clone, Copy)]
struct Kept {
    view: u64,
    plan: u64,
    /// Highest, previous, lock.
    reports: [Option<Vote>; 3],
}

/// The second vault. Views are 64 bits wide here, so that no sum wraps round.
struct Second {
    n: usize,
    f: usize,
    id: u8,
    delay: u64,
    plan: u64,
    view: u64,
    /// By kind and sender.
    kept: BTreeMap<(u8, u8), Kept>,
    /// Of vote-1 and vote-2.
    previous: [Option<Vote>; 2],
    decided: bool,
    out: Vec<Vec<u8>>,
}

impl Second {
    fn start(line: &[u8]) -> Result<Second, u8> {
        let [n, f, id, class] = [line[1], line[2], line[3], line[4]];
        if !(4..=64).contains(&n) {
            return Err(5);
        }
        if f == 0 || 3 * u16::from(f) >= u16::from(n) {
            return Err(6);
        }
        if id >= n {
            return Err(7);
        }
        let delays = [20, 50, 100, 200, 500, 1000, 2000, 5000];
        let &delay = delays.get(usize::from(class)).ok_or(8)?;
        Ok(Second {
            n: n.into(),
            f: f.into(),
            id,
            delay,
            plan: number(&line[5..]),
            view: 0,
            kept: BTreeMap::new(),
            previous: [None; 2],
            decided: false,
            out: Vec::new(),
        })
    }

    fn take_out(&mut self) -> Vec<Vec<u8>> {
        std::mem::take(&mut self.out)
    }

    fn leader(&self, view: u64) -> u8 {
        (view % self.n as u64) as u8
    }

    fn timer(&mut self, view: u64) -> Result<Vec<Vec<u8>>, u8> {
        if view != self.view {
            return Err(18);
        }
        if view == 4_294_967_295 {
            return Err(19);
        }
        let own = self.kept.get(&(6, self.id)).map_or(0, |kept| kept.view);
        self.broadcast(6, if own > view { own } else { view + 1 }, 0, [None; 3]);
        self.pass_from_a();
        Ok(self.take_out())
    }

    fn frame(&mut self, bytes: &[u8]) -> Result<Vec<Vec<u8>>, u8> {
        let (kind, sender, frame) = self.read(bytes)?;
        if frame.view < self.view || (kind == 6 && frame.view == self.view) {
            return Err(16);
        }
        if self.kept.get(&(kind, sender)).is_some_and(|kept| kept.view >= frame.view) {
            return Err(17);
        }
        self.kept.insert((kind, sender), frame);
        self.pass_from_a();
        Ok(self.take_out())
    }

    /// 9 to 15, without 12, which lines cannot reach, and with 21 and 22 before 15.
    fn read(&self, bytes: &[u8]) -> Result<(u8, u8, Kept), u8> {
        let kind = *bytes.first().unwrap_or(&0);
        let length = match kind {
            1..=5 => 14,
            6 => 6,
            7 | 8 => 45,
            _ => return Err(9),
        };
        if bytes.len() != length {
            return Err(10);
        }
        let sender = bytes[1];
        if usize::from(sender) >= self.n || sender == self.id {
            return Err(11);
        }
        let view = number(&bytes[2..6]);
        if view == 0 && kind >= 6 {
            return Err(13);
        }
        let reports = if kind >= 7 { read_reports(&bytes[6..], view)? } else { [None; 3] };
        if (kind == 1 && sender != self.leader(view)) || (kind == 7 && self.id != self.leader(view))
        {
            return Err(15);
        }
        let plan = if kind <= 5 { number(&bytes[6..]) } else { 0 };
        Ok((kind, sender, Kept { view, plan, reports }))
    }

    fn write(&mut self, recipient: u8, kind: u8, view: u64, plan: u64, reports: [Option<Vote>; 3]) {
        let mut entry = vec![recipient, kind, self.id];
        entry.extend((view as u32).to_be_bytes());
        if kind <= 5 {
            entry.extend(plan.to_be_bytes());
        }
        if kind >= 7 {
            for report in reports {
                let (mark, (view, plan)) = (u8::from(report.is_some()), report.unwrap_or((0, 0)));
                entry.push(mark);
                entry.extend((view as u32).to_be_bytes());
                entry.extend(plan.to_be_bytes());
            }
        }
        self.out.push(entry);
    }

    fn broadcast(&mut self, kind: u8, view: u64, plan: u64, reports: [Option<Vote>; 3]) {
        self.kept.insert((kind, self.id), Kept { view, plan, reports });
        self.write(0xff, kind, view, plan, reports);
    }

    fn pass_from_a(&mut self) {
        let own = self.kept.get(&(6, self.id)).map_or(0, |kept| kept.view);
        // Without a view-change of its own, being above the current view is all that is asked.
        if let Some(w) = self.view_with(self.f + 1).filter(|&w| w > self.view && w > own) {
            self.broadcast(6, w, 0, [None; 3]);
        }
        if let Some(w) = self.view_with(self.n - self.f).filter(|&w| w > self.view) {
            self.enter_view(w);
        }
        self.pass_from_c();
    }

    /// The highest view with so many view-changes, for it or for a later one: with the highest
    /// first, that of the last of so many.
    fn view_with(&self, enough: usize) -> Option<u64> {
        let kept = self.kept.range((6, 0)..=(6, 255));
        let mut views: Vec<u64> = kept.map(|(_, kept)| kept.view).collect();
        views.sort_unstable();
        views.into_iter().rev().nth(enough - 1)
    }

    fn enter_view(&mut self, view: u64) {
        self.view = view;
        let mut entry = vec![0xfe, 0x0b];
        entry.extend((view as u32).to_be_bytes());
        entry.extend((9 * self.delay as u32).to_be_bytes());
        self.out.push(entry);
        if view == 0 {
            return;
        }
        let own = |kind: u8| self.kept.get(&(kind, self.id)).map(|kept| (kept.view, kept.plan));
        let proof = [own(2), self.previous[0], own(5)];
        let suggest = [own(3), self.previous[1], own(4)];
        self.broadcast(8, view, 0, proof);
        let leader = self.leader(view);
        if leader == self.id {
            self.kept.insert((7, self.id), Kept { view, plan: 0, reports: suggest });
        } else {
            self.write(leader, 7, view, 0, suggest);
        }
    }

    fn pass_from_c(&mut self) {
        let leader = self.leader(self.view);
        if leader == self.id && !self.sent(1) {
            if let Some(plan) = self.choice() {
                self.broadcast(1, self.view, plan, [None; 3]);
            }
        }
        let proposal =
            self.kept.get(&(1, leader)).filter(|kept| kept.view == self.view).map(|kept| kept.plan);
        if let (Some(plan), false) = (proposal, self.sent(2)) {
            if self.safe(8, plan) {
                self.vote(2, plan);
            }
        }
        for kind in 2..=4 {
            if let (Some(plan), false) = (self.quorum_for(kind), self.sent(kind + 1)) {
                self.vote(kind + 1, plan);
            }
        }
        if let (Some(plan), false) = (self.quorum_for(5), self.decided) {
            self.decided = true;
            let mut entry = vec![0xfe, 0x0a];
            entry.extend((self.view as u32).to_be_bytes());
            entry.extend(plan.to_be_bytes());
            self.out.push(entry);
        }
    }

    fn sent(&self, kind: u8) -> bool {
        self.kept.get(&(kind, self.id)).is_some_and(|kept| kept.view == self.view)
    }

    /// A vote for another plan makes the vote before it the previous one.
    fn vote(&mut self, kind: u8, plan: u64) {
        if let Some(last) = self.kept.get(&(kind, self.id)) {
            if kind <= 3 && last.plan != plan {
                self.previous[usize::from(kind - 2)] = Some((last.view, last.plan));
            }
        }
        self.broadcast(kind, self.view, plan, [None; 3]);
    }

    fn quorum_for(&self, kind: u8) -> Option<u64> {
        let mut counts = BTreeMap::new();
        for kept in self.kept_now(kind) {
            *counts.entry(kept.plan).or_insert(0) += 1;
        }
        counts.into_iter().find(|&(_, count)| count >= self.n - self.f).map(|(plan, _)| plan)
    }

    fn kept_now(&self, kind: u8) -> Vec<Kept> {
        self.kept
            .range((kind, 0)..=(kind, 255))
            .map(|(_, kept)| *kept)
            .filter(|kept| kept.view == self.view)
            .collect()
    }

    /// Step C. A plan that nobody names is like any other such plan, so one of them is enough.
    fn choice(&self) -> Option<u64> {
        if self.safe(7, self.plan) {
            return Some(self.plan);
        }
        let mut plans = named_plans(&self.kept_now(7));
        plans.extend((0..).find(|plan| !plans.contains(plan)));
        plans.into_iter().find(|&plan| self.safe(7, plan))
    }

    /// Rules 1 and 3, view by view and plan by plan; the kind of report tells which.
    fn safe(&self, kind: u8, plan: u64) -> bool {
        let reporters = self.kept_now(kind);
        let (quorum, blocking) = (self.n - self.f, self.f + 1);
        let count = |fits: &dyn Fn(&Kept) -> bool| {
            reporters.iter().filter(|reporter| fits(reporter)).count()
        };
        if self.view == 0 || count(&|reporter| reporter.reports[2].is_none()) >= quorum {
            return true;
        }
        let claimed =
            |plan: u64, at: u64| count(&|reporter| claims(reporter, plan, at)) >= blocking;
        let views = self.views_to_try(&reporters);
        let at_allowed = views.iter().copied().filter(|&at| {
            let may = |reporter: &Kept| {
                reporter.reports[2].is_none_or(|lock| lock.0 < at || lock == (at, plan))
            };
            count(&may) >= quorum
        });
        let at_allowed: Vec<u64> = at_allowed.collect();
        if at_allowed.iter().any(|&at| claimed(plan, at)) {
            return true;
        }
        // The lowest v' leaves the most room for the two views above it.
        let (8, Some(&at)) = (kind, at_allowed.first()) else { return false };
        let mut plans = named_plans(&reporters);
        let unnamed: Vec<u64> = (0..).filter(|plan| !plans.contains(plan)).take(2).collect();
        plans.extend(unnamed);
        let claims: Vec<Vote> = views
            .iter()
            .filter(|&&view| view >= at)
            .flat_map(|&view| plans.iter().map(move |&plan| (view, plan)))
            .collect();
        let claims: Vec<Vote> =
            claims.into_iter().filter(|&(view, plan)| claimed(plan, view)).collect();
        claims.iter().any(|one| claims.iter().any(|other| one.0 < other.0 && one.1 != other.1))
    }

    /// Locks and claims change only at the views that reports name, or just after them; two such
    /// views in a row are wanted by the two-set clause.
    fn views_to_try(&self, reporters: &[Kept]) -> BTreeSet<u64> {
        let named =
            reporters.iter().flat_map(|reporter| reporter.reports).flatten().map(|(view, _)| view);
        let near = named.flat_map(|view| view..=view + 2).chain(0..=1);
        near.filter(|&view| view < self.view).collect()
    }
}

/// 14 of all three reports, then 21 of all, then 22 of the first two.
fn read_reports(bytes: &[u8], view: u64) -> Result<[Option<Vote>; 3], u8> {
    let mut reports = [None; 3];
    for (report, bytes) in reports.iter_mut().zip(bytes.chunks(13)) {
        *report = read_report(bytes).ok_or(14)?;
    }
    for (at, _) in reports.into_iter().flatten() {
        if at >= view {
            return Err(21);
        }
    }
    let [highest, previous, _] = reports;
    previous_is_right(highest, previous).then_some(reports).ok_or(22)
}

fn read_report(bytes: &[u8]) -> Option<Option<Vote>> {
    let vote = (number(&bytes[1..5]), number(&bytes[5..13]));
    match bytes[0] {
        0 if vote == (0, 0) => Some(None),
        1 => Some(Some(vote)),
        _ => None,
    }
}

fn previous_is_right(highest: Option<Vote>, previous: Option<Vote>) -> bool {
    match (highest, previous) {
        (_, None) => true,
        (None, Some(_)) => false,
        (Some(highest), Some(previous)) => previous.0 < highest.0 && previous.1 != highest.1,
    }
}

fn claims(reporter: &Kept, plan: u64, at: u64) -> bool {
    let [highest, previous, _] = reporter.reports;
    at == 0
        || highest.is_some_and(|(view, voted)| voted == plan && view >= at)
        || previous.is_some_and(|(view, _)| view >= at)
}

fn named_plans(reporters: &[Kept]) -> BTreeSet<u64> {
    reporters.iter().flat_map(|reporter| reporter.reports).flatten().map(|(_, plan)| plan).collect()
}
