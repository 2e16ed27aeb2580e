//! Does what `tableau run ROUNDS` does, in one thread and without proofs: bench/against compares with it.
//!
//! It reads a host and a script, and prints the report. The rules are those of docs/RULES.md. Its plans are
//! texts of `tableau plan`, one for the host and one for each host that a change makes, so that planning
//! isn't measured. It expects an input that `tableau` takes: a fault of the input ends it by a panic.
//!
//! Usage: plain plans PROGRAM FOLDER <INPUT      the program makes the plans, and the folder keeps them
//!        plain run ROUNDS FOLDER <INPUT         the report; each core runs on as far as the lag allows
//!        plain turns ROUNDS FOLDER <INPUT       the report, by the turns of `tableau` in one thread
//!        plain stints ROUNDS FOLDER <INPUT      how many stints `run` makes
//!        plain nothing ROUNDS FOLDER <INPUT     the report of no round, after all has been read
use std::collections::HashMap;
use std::fmt::Write as _;
use std::io::{Read, Write};
use std::process::{Command, Stdio};

const ROUND: u32 = 102_600;
const VCPUS: usize = 256;
/// Stands for the owner of idle time: it is a number of its own, which is never runnable.
const NOBODY: usize = VCPUS;

// ---- sets of vCPUs

type Sharers = [u64; 4];
/// A set in which there is room for `NOBODY`, and some more so that no index has to be checked.
type Runnable = [u64; 8];

#[inline(always)]
fn has(set: &Runnable, vcpu: usize) -> bool {
    set[vcpu / 64 % 8] >> (vcpu % 64) & 1 != 0
}

/// The least member of both from a number on, or else the least.
#[inline(always)]
fn next_of(sharers: &Sharers, runnable: &Runnable, from: usize) -> Option<usize> {
    let both: [u64; 4] = std::array::from_fn(|word| sharers[word] & runnable[word]);
    if both[0] | both[1] | both[2] | both[3] == 0 {
        return None;
    }
    if from < VCPUS {
        let word = from / 64;
        let high = both[word] & (!0 << (from % 64));
        if high != 0 {
            return Some(64 * word + high.trailing_zeros() as usize);
        }
        if let Some(later) = (word + 1..4).find(|&later| both[later] != 0) {
            return Some(64 * later + both[later].trailing_zeros() as usize);
        }
    }
    let first = (0..4).find(|&word| both[word] != 0)?;
    Some(64 * first + both[first].trailing_zeros() as usize)
}

// ---- the input

struct Vcpu {
    name: String,
    admitted: bool,
    runnable: bool,
    capped: bool,
    share: u64,
    latency: u64,
}

struct Host {
    tick_ns: u64,
    cores: u32,
    lag: u32,
    sliver: u64,
    quantum: u32,
    vcpus: Vec<Vcpu>,
}

enum Edit {
    Set(usize, u64, u64),
    Leave(usize),
}

enum Act {
    Wake(usize),
    Block(usize),
    Burst,
    Change(Vec<Edit>),
}

struct Event {
    tick: u32,
    act: Act,
}

fn number(text: &str) -> u64 {
    text.replace('_', "").parse().expect("a number")
}

fn read_host(text: &str) -> Host {
    let mut host = Host { tick_ns: 1001, cores: 0, lag: 1000, sliver: 30, quantum: 1000, vcpus: Vec::new() };
    for line in text.lines() {
        let line = line.split('#').next().unwrap().trim();
        if line == "[[vcpu]]" {
            host.vcpus.push(Vcpu {
                name: String::new(),
                admitted: true,
                runnable: true,
                capped: false,
                share: 0,
                latency: 0,
            });
            continue;
        }
        let Some((key, value)) = line.split_once('=') else { continue };
        let (key, value) = (key.trim(), value.trim());
        let Some(vcpu) = host.vcpus.last_mut() else {
            match key {
                "format" => {}
                "tick_ns" => host.tick_ns = number(value),
                "cores" => host.cores = number(value) as u32,
                "lag" => host.lag = number(value) as u32,
                "sliver" => host.sliver = number(value),
                "quantum" => host.quantum = number(value) as u32,
                _ => panic!("key {key}"),
            }
            continue;
        };
        match key {
            "name" => vcpu.name = value.trim_matches(['"', '\'']).to_string(),
            "admitted" => vcpu.admitted = value == "true",
            "runnable" => vcpu.runnable = value == "true",
            "capped" => vcpu.capped = value == "true",
            "share_ppm" => vcpu.share = number(value),
            "latency_ns" => vcpu.latency = number(value),
            _ => panic!("key {key}"),
        }
    }
    host
}

fn names_of(host: &Host) -> HashMap<&str, usize> {
    host.vcpus.iter().enumerate().map(|(number, vcpu)| (vcpu.name.as_str(), number)).collect()
}

fn read_script(text: &str, names: &HashMap<&str, usize>) -> Vec<Event> {
    let mut events = Vec::new();
    for line in text.lines().filter(|line| !line.starts_with('#')) {
        let mut words = line.split(' ').filter(|word| !word.is_empty());
        let Some(tick) = words.next() else { continue };
        let tick = number(tick) as u32;
        let act = match words.next().expect("an act") {
            "wake" => Act::Wake(names[words.next().expect("a name")]),
            "block" => Act::Block(names[words.next().expect("a name")]),
            "burst" => Act::Burst,
            "change" => {
                let mut edits = Vec::new();
                while let Some(word) = words.next() {
                    let vcpu = names[words.next().expect("a name")];
                    edits.push(match word {
                        "set" => {
                            Edit::Set(vcpu, number(words.next().unwrap()), number(words.next().unwrap()))
                        }
                        "leave" => Edit::Leave(vcpu),
                        _ => panic!("edit {word}"),
                    });
                }
                Act::Change(edits)
            }
            word => panic!("act {word}"),
        };
        events.push(Event { tick, act });
    }
    events
}

// ---- plans made by the program

fn edit(host: &mut Host, edits: &[Edit]) {
    for edit in edits {
        match *edit {
            Edit::Set(vcpu, share, latency) => {
                let vcpu = &mut host.vcpus[vcpu];
                (vcpu.admitted, vcpu.share, vcpu.latency) = (true, share, latency);
            }
            Edit::Leave(vcpu) => host.vcpus[vcpu].admitted = false,
        }
    }
}

fn document(host: &Host) -> String {
    let mut text = format!(
        "format = 2\ntick_ns = {}\ncores = {}\nlag = {}\nsliver = {}\nquantum = {}\n",
        host.tick_ns, host.cores, host.lag, host.sliver, host.quantum
    );
    for vcpu in &host.vcpus {
        let _ = write!(
            text,
            "[[vcpu]]\nname = \"{}\"\nadmitted = {}\nrunnable = {}\ncapped = {}\n",
            vcpu.name, vcpu.admitted, vcpu.runnable, vcpu.capped
        );
        if vcpu.admitted {
            let _ = write!(text, "share_ppm = {}\nlatency_ns = {}\n", vcpu.share, vcpu.latency);
        }
    }
    text
}

/// What the program answers for the host: a plan text, or a refusal.
fn planned(program: &str, host: &Host) -> String {
    let mut child = Command::new(program)
        .arg("plan")
        .stdin(Stdio::piped())
        .stdout(Stdio::piped())
        .stderr(Stdio::null())
        .spawn()
        .expect("the program");
    child.stdin.take().unwrap().write_all(document(host).as_bytes()).expect("the program reads");
    String::from_utf8(child.wait_with_output().expect("an answer").stdout).expect("a text")
}

fn make_plans(program: &str, folder: &str, mut host: Host, events: &[Event]) {
    let mut text = planned(program, &host);
    std::fs::write(format!("{folder}/0"), text).expect("a file");
    let changes =
        events
            .iter()
            .filter_map(|event| if let Act::Change(edits) = &event.act { Some(edits) } else { None });
    for (number, edits) in changes.enumerate() {
        let before: Vec<(bool, u64, u64)> =
            host.vcpus.iter().map(|it| (it.admitted, it.share, it.latency)).collect();
        edit(&mut host, edits);
        text = planned(program, &host);
        if text.starts_with("refused") {
            for (vcpu, kept) in host.vcpus.iter_mut().zip(before) {
                (vcpu.admitted, vcpu.share, vcpu.latency) = kept;
            }
        }
        std::fs::write(format!("{folder}/{}", number + 1), text).expect("a file");
    }
}

// ---- plans and the tables of their spans

struct Plan {
    /// The home of each vCPU, by number, where it has a reservation.
    homes: Vec<Option<u32>>,
    /// Each core's segments: their ends and owners.
    rows: Vec<Vec<(u32, usize)>>,
}

fn read_plan(text: &str, names: &HashMap<&str, usize>) -> Plan {
    let mut plan = Plan { homes: vec![None; names.len()], rows: Vec::new() };
    for line in text.lines().skip(1) {
        let mut words = line.split(' ');
        match (words.next().unwrap(), words.next()) {
            ("vcpu", Some(name)) => plan.homes[names[name]] = Some(number(words.last().unwrap()) as u32),
            ("core", _) => plan.rows.push(Vec::new()),
            (end, Some(owner)) => {
                let owner = if owner == "-" { NOBODY } else { names[owner] };
                plan.rows.last_mut().unwrap().push((end.parse().unwrap(), owner));
            }
            _ => {}
        }
    }
    plan
}

#[derive(Clone, Copy)]
struct Span {
    /// Its end, in ticks of the round.
    end: u32,
    owner: u32,
    /// The place of its sharers in the table.
    sharers: u32,
}

/// A core's spans in one plan.
struct Table {
    spans: Vec<Span>,
    sets: Vec<Sharers>,
}

/// Each core's table: its own segments, parted where one of its vCPUs begins or ceases to be on another core.
fn tables_of(plan: &Plan, capped: &Sharers) -> Vec<Table> {
    let cores = plan.rows.len();
    let mut home = vec![[0; 4]; cores];
    for (vcpu, core) in plan.homes.iter().enumerate() {
        if let Some(core) = core {
            home[*core as usize][vcpu / 64] |= 1 << (vcpu % 64);
        }
    }
    // the begins and ends of slots that are on other cores, by home
    let mut turns: Vec<Vec<(u32, bool, usize)>> = vec![Vec::new(); cores];
    for (core, row) in plan.rows.iter().enumerate() {
        let mut begin = 0;
        for &(end, owner) in row {
            if owner != NOBODY && plan.homes[owner] != Some(core as u32) {
                let turns = &mut turns[plan.homes[owner].unwrap() as usize];
                turns.push((begin, true, owner));
                turns.push((end, false, owner));
            }
            begin = end;
        }
    }
    let each = plan.rows.iter().zip(turns).zip(home);
    each.map(|((row, turns), home)| {
        let sharers = std::array::from_fn(|word| home[word] & !capped[word]);
        table_of(row, turns, sharers)
    })
    .collect()
}

fn table_of(row: &[(u32, usize)], mut turns: Vec<(u32, bool, usize)>, at_home: Sharers) -> Table {
    turns.sort_unstable();
    let mut turns = turns.into_iter().peekable();
    let mut table = Table { spans: Vec::with_capacity(row.len()), sets: Vec::new() };
    let mut places: HashMap<Sharers, u32> = HashMap::new();
    let (mut away, mut tick, mut segment) = ([0; 4], 0, 0);
    let mut last: Option<(usize, Sharers)> = None;
    while tick < ROUND {
        while let Some((_, on, vcpu)) = turns.next_if(|turn| turn.0 == tick) {
            let bit = 1 << (vcpu % 64);
            away[vcpu / 64] = if on { away[vcpu / 64] | bit } else { away[vcpu / 64] & !bit };
        }
        let (end, owner) = row[segment];
        let next = turns.peek().map_or(end, |turn| end.min(turn.0));
        segment += (next == end) as usize;
        if last == Some((owner, away)) {
            table.spans.last_mut().unwrap().end = next;
        } else {
            let mut sharers: Sharers = std::array::from_fn(|word| at_home[word] & !away[word]);
            if owner != NOBODY {
                sharers[owner / 64] &= !(1 << (owner % 64));
            }
            let place = *places.entry(sharers).or_insert_with(|| {
                table.sets.push(sharers);
                table.sets.len() as u32 - 1
            });
            table.spans.push(Span { end: next, owner: owner as u32, sharers: place });
            last = Some((owner, away));
        }
        tick = next;
    }
    table
}

// ---- running

struct Core<'a> {
    number: usize,
    /// In ticks of the run.
    clock: u32,
    /// Where the round begins that it has entered last.
    start: u32,
    /// Its spans in that round, and the number of the next one there.
    spans: &'a [Span],
    sets: &'a [Sharers],
    place: usize,
    /// The number after its last shared pick.
    from: usize,
    idle: u64,
    stints: u64,
    slots: [u64; 512],
    shared: [u64; 256],
}

impl Core<'_> {
    /// Has no span, so that it enters a round first.
    fn new(number: usize) -> Self {
        Core {
            number,
            clock: 0,
            start: 0,
            spans: &[],
            sets: &[],
            place: 0,
            from: 0,
            idle: 0,
            stints: 0,
            slots: [0; 512],
            shared: [0; 256],
        }
    }

    /// Runs stints of the round that it has entered while they end by the limit, or a single one. Answers when
    /// the next one ends at the earliest, or 0 at the round's end.
    #[inline(always)]
    fn run_round<const ONE: bool, const COUNT: bool>(
        &mut self,
        runnable: &Runnable,
        lag: u32,
        quantum: u32,
        limit: u32,
    ) -> u32 {
        let (spans, start) = (self.spans, self.start);
        let (mut clock, mut place) = (self.clock, self.place);
        let next = loop {
            let Some(&span) = spans.get(place) else { break 0 };
            let span_end = start + span.end;
            let slot_end = span_end.min(clock + lag);
            let owner = span.owner as usize;
            let end;
            if has(runnable, owner) {
                end = slot_end;
                if end > limit {
                    break end;
                }
                self.slots[owner % 512] += (end - clock) as u64;
            } else {
                let shared_end = slot_end.min(clock + quantum);
                if shared_end > limit {
                    break shared_end;
                }
                match next_of(&self.sets[span.sharers as usize], runnable, self.from) {
                    Some(vcpu) => {
                        end = shared_end;
                        self.shared[vcpu % 256] += (end - clock) as u64;
                        self.from = vcpu + 1;
                    }
                    None => {
                        end = slot_end;
                        if end > limit {
                            break end;
                        }
                        self.idle += (end - clock) as u64;
                    }
                }
            }
            if COUNT {
                self.stints += 1;
            }
            place += (end == span_end) as usize;
            clock = end;
            if ONE {
                break end;
            }
        };
        (self.clock, self.place) = (clock, place);
        next
    }
}

/// How far the core of least clock runs on in a turn, and in how many turns in a row none had to wait.
struct Window {
    ticks: u32,
    calm: u32,
}

impl Window {
    /// A core ran on, and had to wait at last or hadn't.
    fn note(&mut self, waits: bool) {
        self.calm = if waits { 0 } else { self.calm + 1 };
        if waits {
            self.ticks /= 2;
        } else if self.calm == 512 {
            (self.ticks, self.calm) = (2 * self.ticks + 1, 0);
        }
    }
}

struct Run<'a> {
    lag: u32,
    quantum: u32,
    /// Where it ends, in ticks.
    end: u32,
    events: &'a [Event],
    /// The number of the plan after each count of events.
    numbers: &'a [usize],
    /// For each plan each core's table.
    tables: &'a [Vec<Table>],
    posted: usize,
    /// The runnable vCPUs after the posted events.
    runnable: Runnable,
    /// The count that is decided of each round.
    counts: Vec<usize>,
}

impl<'a> Run<'a> {
    /// Posts the next event, if there is one and its tick is at most this one.
    #[inline(always)]
    fn post(&mut self, tick: u32) -> bool {
        let Some(event) = self.events.get(self.posted) else { return false };
        if event.tick > tick {
            return false;
        }
        match event.act {
            Act::Wake(vcpu) => self.runnable[vcpu / 64] |= 1 << (vcpu % 64),
            Act::Block(vcpu) => self.runnable[vcpu / 64] &= !(1 << (vcpu % 64)),
            Act::Burst | Act::Change(_) => {}
        }
        self.posted += 1;
        true
    }

    /// The core enters the round of its clock. The first to do so decides the round's count.
    fn enter(&mut self, core: &mut Core<'a>) {
        let round = (core.clock / ROUND) as usize;
        if round == self.counts.len() {
            self.counts.push(self.posted);
        }
        let table = &self.tables[self.numbers[self.counts[round]]][core.number];
        (core.start, core.spans, core.sets, core.place) = (core.clock, &table.spans, &table.sets, 0);
    }

    /// The core runs on while its stints end by the limit, which is no more than a lag above each other clock.
    /// Each event that is due up to there has been posted. Answers when its next stint ends at the earliest.
    #[inline(always)]
    fn run_core<const COUNT: bool>(&mut self, core: &mut Core<'a>, limit: u32) -> u32 {
        let next = core.run_round::<false, COUNT>(&self.runnable, self.lag, self.quantum, limit);
        if next == 0 {
            self.run_rounds::<COUNT>(core, limit)
        } else {
            next
        }
    }

    /// `run_core` for a core that is at a round's end.
    #[cold]
    #[inline(never)]
    fn run_rounds<const COUNT: bool>(&mut self, core: &mut Core<'a>, limit: u32) -> u32 {
        while core.clock < self.end {
            self.enter(core);
            let next = core.run_round::<false, COUNT>(&self.runnable, self.lag, self.quantum, limit);
            if next != 0 {
                return next;
            }
        }
        u32::MAX
    }

    /// The core runs one stint, if that ends by the limit and no event is due that isn't posted. Says whether it did.
    fn run_stint(&mut self, core: &mut Core<'a>, limit: u32) -> bool {
        if self.events.get(self.posted).is_some_and(|event| event.tick + self.lag <= core.clock) {
            return false;
        }
        if core.place == core.spans.len() {
            self.enter(core);
        }
        let clock = core.clock;
        core.run_round::<true, false>(&self.runnable, self.lag, self.quantum, limit);
        core.clock > clock
    }

    /// Again and again those cores run on whose next stint may end no more than a lag above the slowest clock.
    /// There are at most so many cores.
    #[inline(never)]
    fn drive<const MOST: usize, const COUNT: bool>(&mut self, cores: &mut [Core<'a>]) {
        // each core's clock, and when its next stint ends at the earliest
        let (mut clocks, mut ends) = ([u32::MAX; MOST], [u32::MAX; MOST]);
        clocks[..cores.len()].fill(0);
        ends[..cores.len()].fill(0);
        loop {
            let least = clocks.iter().fold(u32::MAX, |least, &clock| least.min(clock));
            if least == self.end {
                return;
            }
            while self.post(least + self.lag) {}
            let limit = if cores.len() > 1 {
                least + self.lag
            } else {
                // no event is due before its tick
                self.events.get(self.posted).map_or(u32::MAX, |event| event.tick)
            };
            let mut ready = 0u32;
            for (core, &end) in ends.iter().enumerate() {
                ready |= ((end <= limit) as u32) << core;
            }
            while ready != 0 {
                let it = ready.trailing_zeros() as usize % MOST;
                ready &= ready - 1;
                ends[it] = self.run_core::<COUNT>(&mut cores[it], limit);
                clocks[it] = cores[it].clock;
            }
        }
    }

    /// `drive` for so many cores as there are.
    fn drive_all<const COUNT: bool>(&mut self, cores: &mut [Core<'a>]) {
        match cores.len() {
            1 => self.drive::<1, COUNT>(cores),
            2..=4 => self.drive::<4, COUNT>(cores),
            5..=8 => self.drive::<8, COUNT>(cores),
            9..=16 => self.drive::<16, COUNT>(cores),
            _ => self.drive::<32, COUNT>(cores),
        }
    }

    /// Cores and controller take turns as those of `core_workers::run_all` do where no thread can be made.
    fn drive_in_turns(&mut self, cores: &mut [Core<'a>]) {
        // each worker in turn does what it can without the others
        while self.post(self.lag) {}
        for it in 0..cores.len() {
            if cores.len() == 1 {
                while cores[it].clock < self.end && self.run_stint(&mut cores[it], u32::MAX) {}
                break;
            }
            let others = cores.iter().filter(|core| core.number != it);
            let limit = others.map(|core| core.clock).min().unwrap() + self.lag;
            self.run_core::<false>(&mut cores[it], limit);
        }
        // then the core of least clock runs on, within the window or where it is the only one, and the controller
        // posts an event after as many turns as there are cores, or where no core gets on
        let mut out = vec![false; cores.len()];
        let (mut turns, mut posting) = (0, true);
        let mut window = Window { ticks: self.lag / 2, calm: 0 };
        loop {
            let running = out.iter().filter(|it| !**it).count();
            let least = (0..cores.len()).filter(|&it| !out[it]).min_by_key(|&it| cores[it].clock);
            let mut moved = false;
            if let Some(it) = least {
                let limit = if running > 1 { cores[it].clock + window.ticks } else { u32::MAX };
                let others = cores.iter().filter(|core| core.number != it);
                let heard = others.map(|core| core.clock + self.lag).min().unwrap_or(u32::MAX);
                let mut waits = false;
                while cores[it].clock <= limit && !waits && !out[it] {
                    out[it] = cores[it].clock == self.end;
                    waits = !out[it] && !self.run_stint(&mut cores[it], heard);
                    moved |= !waits;
                }
                if moved && !out[it] {
                    window.note(waits);
                }
            }
            if posting {
                turns += 1;
                if moved && turns < cores.len() {
                    continue;
                }
                turns = 0;
                let slowest = cores.iter().map(|core| core.clock).min().unwrap();
                posting = self.posted < self.events.len();
                self.post(slowest + self.lag);
            } else if least.is_none() {
                break;
            }
        }
    }
}

// ---- the report

/// What is counted of a stretch of ticks for one vCPU: how many there are and are offered, and how many wait
/// in a row at its begin, at its end, and at most.
#[derive(Clone, Copy, Default)]
struct Stretch {
    ticks: u64,
    offered: u64,
    lead: u64,
    tail: u64,
    most: u64,
}

impl Stretch {
    fn waiting(ticks: u64) -> Stretch {
        Stretch { ticks, offered: 0, lead: ticks, tail: ticks, most: ticks }
    }

    fn then(self, next: Stretch) -> Stretch {
        Stretch {
            ticks: self.ticks + next.ticks,
            offered: self.offered + next.offered,
            lead: if self.lead == self.ticks { self.ticks + next.lead } else { self.lead },
            tail: if next.tail == next.ticks { self.tail + next.ticks } else { next.tail },
            most: self.most.max(next.most).max(self.tail + next.lead),
        }
    }

    /// So many times in a row.
    fn times(self, count: u64) -> Stretch {
        if self.lead == self.ticks {
            return Stretch { offered: self.offered * count, ..Stretch::waiting(self.ticks * count) };
        }
        let seam = if count > 1 { self.tail + self.lead } else { 0 };
        Stretch {
            ticks: self.ticks * count,
            offered: self.offered * count,
            most: self.most.max(seam),
            ..self
        }
    }
}

/// What a round of the plan is to each vCPU.
fn stretches_of(plan: &Plan) -> Vec<Stretch> {
    let mut slots: Vec<Vec<(u32, u32)>> = vec![Vec::new(); plan.homes.len()];
    for row in &plan.rows {
        let mut begin = 0;
        for &(end, owner) in row {
            if owner != NOBODY {
                slots[owner].push((begin, end));
            }
            begin = end;
        }
    }
    let each = slots.into_iter().zip(&plan.homes);
    each.map(|(mut slots, home)| {
        if home.is_none() {
            return Stretch { ticks: ROUND as u64, ..Stretch::default() };
        }
        slots.sort_unstable();
        let mut all = Stretch::waiting(0);
        for (begin, end) in slots {
            let ticks = (end - begin) as u64;
            let offered = Stretch { ticks, offered: ticks, ..Stretch::default() };
            all = all.then(Stretch::waiting(begin as u64 - all.ticks)).then(offered);
        }
        all.then(Stretch::waiting(ROUND as u64 - all.ticks))
    })
    .collect()
}

fn report(host: &Host, run: &Run, plans: &[Plan], outcomes: &[(u32, String)], cores: &[Core]) -> String {
    let mut text =
        format!("run {} rounds {} cores {} events\n", run.counts.len(), cores.len(), run.events.len());
    for (change, (tick, outcome)) in outcomes.iter().enumerate() {
        let _ = writeln!(text, "change {change} at {tick}: {outcome}");
    }
    let numbers: Vec<usize> = run.counts.iter().map(|&count| run.numbers[count]).collect();
    let mut waits = vec![Stretch::waiting(0); host.vcpus.len()];
    let mut round = 0;
    for rounds in numbers.chunk_by(|a, b| a == b) {
        let _ = writeln!(text, "round {round} plan {}", rounds[0]);
        for (all, one) in waits.iter_mut().zip(stretches_of(&plans[rounds[0]])) {
            *all = all.then(one.times(rounds.len() as u64));
        }
        round += rounds.len();
    }
    for (number, vcpu) in host.vcpus.iter().enumerate() {
        let slots: u64 = cores.iter().map(|core| core.slots[number]).sum();
        let shared: u64 = cores.iter().map(|core| core.shared[number]).sum();
        let Stretch { offered, most, .. } = waits[number];
        let _ =
            writeln!(text, "vcpu {} offered {offered} slots {slots} shared {shared} gap {most}", vcpu.name);
    }
    for core in cores {
        let (slots, shared) = (core.slots.iter().sum::<u64>(), core.shared.iter().sum::<u64>());
        let _ = writeln!(text, "core {} slots {slots} shared {shared} idle {}", core.number, core.idle);
    }
    text + "done\n"
}

// ---- the whole

/// The plans, each event count's number, and what became of each change with its tick.
fn read_plans(
    folder: &str,
    events: &[Event],
    names: &HashMap<&str, usize>,
) -> (Vec<Plan>, Vec<usize>, Vec<(u32, String)>) {
    let file = |number: usize| std::fs::read_to_string(format!("{folder}/{number}")).expect("a plan");
    let mut plans = vec![read_plan(&file(0), names)];
    let (mut numbers, mut outcomes) = (vec![0], Vec::new());
    for event in events {
        if let Act::Change(_) = event.act {
            let text = file(outcomes.len() + 1);
            if let Some(cause) = text.strip_prefix("refused: ") {
                outcomes.push((event.tick, cause.split([',', '\n']).next().unwrap().to_string()));
            } else {
                plans.push(read_plan(&text, names));
                outcomes.push((event.tick, "planned".to_string()));
            }
        }
        numbers.push(plans.len() - 1);
    }
    (plans, numbers, outcomes)
}

fn main() {
    let words: Vec<String> = std::env::args().collect();
    let mut text = String::new();
    std::io::stdin().read_to_string(&mut text).expect("an input");
    let (before, after) = text.split_once("\n%%\n").expect("a line %%");
    let host = read_host(before);
    let names = names_of(&host);
    let events = read_script(after, &names);
    let folder = &words[3];
    if words[1] == "plans" {
        make_plans(&words[2], folder, read_host(before), &events);
        return;
    }
    let rounds: u32 = words[2].parse().expect("a count of rounds");
    let (plans, numbers, outcomes) = read_plans(folder, &events, &names);
    let (mut capped, mut runnable) = ([0; 4], [0; 8]);
    for (number, vcpu) in host.vcpus.iter().enumerate() {
        capped[number / 64] |= (vcpu.capped as u64) << (number % 64);
        runnable[number / 64] |= (vcpu.runnable as u64) << (number % 64);
    }
    let tables: Vec<Vec<Table>> = plans.iter().map(|plan| tables_of(plan, &capped)).collect();
    let mut run = Run {
        lag: host.lag,
        quantum: host.quantum,
        end: rounds * ROUND,
        events: &events,
        numbers: &numbers,
        tables: &tables,
        posted: 0,
        runnable,
        counts: Vec::with_capacity(rounds as usize),
    };
    let mut cores: Vec<Core> = (0..host.cores as usize).map(Core::new).collect();
    match words[1].as_str() {
        "run" => run.drive_all::<false>(&mut cores),
        "turns" => run.drive_in_turns(&mut cores),
        "stints" => run.drive_all::<true>(&mut cores),
        "nothing" => {}
        word => panic!("word {word}"),
    }
    if words[1] == "stints" {
        println!("{}", cores.iter().map(|core| core.stints).sum::<u64>());
        return;
    }
    let text = report(&host, &run, &plans, &outcomes, &cores);
    std::io::stdout().write_all(text.as_bytes()).expect("a reader");
}
