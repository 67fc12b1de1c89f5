//! A transmit port in plain Rust, without proofs: what bench/times compares the program with in processor time. It takes
//! scripts and captures as bench/workloads.py makes them.
//!
//! plain script [ROOM] < SCRIPT, or plain replay UNTIL SCRIPT CAPTURE DEPARTURES, with the moment in picoseconds.
use std::collections::VecDeque;
use std::fs::File;
use std::io::{self, BufRead, BufReader, Read, Write};

const ROOM: usize = 131_072;
const PS: u64 = 8_000;
const ALL_CLASSES: u8 = 0xff;
const FOR_EVER: u128 = u128::MAX;

/// The octets that are to be written, in a buffer of fixed length.
struct Output<W: Write> {
    to: W,
    octets: Vec<u8>,
    end: usize,
    /// The end of the last start, and its digits: the next start is mostly then.
    /// The last eight digits of that moment, as a number and as octets.
    last: u32,
    digits: u64,
    /// The last moment with its last eight digits as zeros, and the digits before them.
    near: u128,
    front: [u8; 16],
    front_count: usize,
}

const ZEROS: u64 = 0x3030_3030_3030_3030;

/// The eight digits of a number below a hundred million, the first in the lowest octet: four, two and one at a time.
#[inline(always)]
fn digits_of(number: u32) -> u64 {
    let fours = u64::from(number / 10_000) | u64::from(number % 10_000) << 32;
    let hundreds = (fours * 0x28f6 >> 20) & 0x7f_0000_007f;
    let twos = ((fours - hundreds * 100) << 16) | hundreds;
    let tens = (twos * 0x67 >> 10) & 0xf_000f_000f_000f;
    (twos - tens * 10) << 8 | tens
}

impl<W: Write> Output<W> {
    fn new(to: W) -> Self {
        Output {
            to,
            octets: vec![0; ROOM + 64],
            end: 0,
            last: u32::MAX,
            digits: 0,
            near: 1 << 127,
            front: [0; 16],
            front_count: 0,
        }
    }

    fn let_out(&mut self) {
        self.to.write_all(&self.octets[..self.end]).expect("a write");
        self.end = 0;
    }

    #[inline]
    fn room_for(&mut self, count: usize) {
        if self.end + count > ROOM {
            self.let_out();
        }
    }

    #[inline(always)]
    fn text(&mut self, text: &[u8]) {
        self.octets[self.end..self.end + text.len()].copy_from_slice(text);
        self.end += text.len();
    }

    #[inline(always)]
    fn word(&mut self, word: [u8; 8], count: usize) {
        self.octets[self.end..self.end + 8].copy_from_slice(&word);
        self.end += count;
    }

    #[inline(always)]
    fn number(&mut self, number: u64) {
        if number < 100_000_000 {
            return self.few(number as u32);
        }
        let front = number / 100_000_000;
        if front < 100_000_000 {
            self.few(front as u32);
        } else {
            self.few((front / 100_000_000) as u32);
            self.eight((front % 100_000_000) as u32);
        }
        self.eight((number % 100_000_000) as u32);
    }

    /// A number of at most eight digits.
    #[inline(always)]
    fn few(&mut self, number: u32) {
        let digits = digits_of(number);
        let zeros = (digits | 1 << 56).trailing_zeros() & 0x38;
        self.word(((digits | ZEROS) >> zeros).to_le_bytes(), 8 - zeros as usize / 8);
    }

    #[inline(always)]
    fn eight(&mut self, number: u32) {
        self.word((digits_of(number) | ZEROS).to_le_bytes(), 8);
    }

    fn moment(&mut self, moment: u128) {
        match u64::try_from(moment) {
            Ok(short) => self.number(short),
            Err(_) => self.long(moment),
        }
    }

    #[inline(never)]
    fn long(&mut self, moment: u128) {
        const SPLIT: u128 = 10_000_000_000_000_000;
        self.number((moment / SPLIT) as u64);
        let rest = (moment % SPLIT) as u64;
        self.eight((rest / 100_000_000) as u32);
        self.eight((rest % 100_000_000) as u32);
    }

    /// A line that is made in a window of the buffer.
    #[inline(always)]
    fn line(&mut self, make: impl FnOnce(&mut Window) -> usize) {
        self.room_for(WINDOW);
        if let Some(window) = self.octets[self.end..].first_chunk_mut() {
            self.end += make(window);
        }
    }

    fn queued(&mut self, id: u64, class: usize) {
        self.line(|window| {
            let at = put(window, 0, b"queued ");
            let at = put_number(window, at, id);
            let at = put(window, at, b" class ");
            put(window, at, &[b'0' + class as u8, b'\n'])
        });
    }

    fn dropped(&mut self, id: u64, why: &str) {
        self.room_for(WINDOW);
        self.text(b"dropped ");
        self.number(id);
        self.text(b" ");
        self.text(why.as_bytes());
        self.text(b"\n");
    }

    fn start(&mut self, start: &Start) {
        if start.at.wrapping_sub(self.near) >= EIGHT_DIGITS || start.end.wrapping_sub(self.near) >= EIGHT_DIGITS {
            return self.far_start(start);
        }
        let (first, second) = ((start.at - self.near) as u32, (start.end - self.near) as u32);
        let (front, count, last, digits) = (self.front, self.front_count, self.last, self.digits);
        let first = if first == last { digits } else { digits_of(first) | ZEROS };
        let end = digits_of(second) | ZEROS;
        (self.last, self.digits) = (second, end);
        self.line(|window| {
            let at = put(window, 0, b"start ");
            let at = put_number(window, at, start.id);
            let at = put(window, at, b" class ");
            let at = put(window, at, &[b'0' + start.class as u8]);
            let at = put(window, at, b" at ");
            put(window, at, &front);
            let at = put(window, at + count, &first.to_le_bytes());
            let at = put(window, at, b" end ");
            put(window, at, &front);
            let at = put(window, at + count, &end.to_le_bytes());
            put(window, at, b"\n")
        });
    }

    /// A start whose moments are not near those of the last.
    #[inline(never)]
    fn far_start(&mut self, start: &Start) {
        self.room_for(WINDOW);
        self.text(b"start ");
        self.number(start.id);
        self.text(b" class ");
        self.text(&[b'0' + start.class as u8]);
        self.text(b" at ");
        self.moment(start.at);
        self.text(b" end ");
        let begun = self.end;
        self.moment(start.end);
        let count = self.end - begun;
        if (9..=24).contains(&count) {
            self.front.copy_from_slice(&self.octets[begun..begun + 16]);
            self.front_count = count - 8;
            self.near = start.end / EIGHT_DIGITS * EIGHT_DIGITS;
            self.last = u32::MAX;
        }
        self.text(b"\n");
    }
}

/// Room for a line.
const WINDOW: usize = 144;
type Window = [u8; WINDOW];
const EIGHT_DIGITS: u128 = 100_000_000;

#[inline(always)]
fn put<const N: usize>(window: &mut Window, at: usize, text: &[u8; N]) -> usize {
    window[at..at + N].copy_from_slice(text);
    at + N
}

#[inline(always)]
fn put_number(window: &mut Window, at: usize, number: u64) -> usize {
    if number < 100_000_000 {
        let digits = digits_of(number as u32);
        let zeros = (digits | 1 << 56).trailing_zeros() & 0x38;
        put(window, at, &((digits | ZEROS) >> zeros).to_le_bytes());
        at + 8 - zeros as usize / 8
    } else {
        put_long_number(window, at, number)
    }
}

#[inline(never)]
fn put_long_number(window: &mut Window, at: usize, number: u64) -> usize {
    let at = put_number(window, at, number / 100_000_000);
    put(window, at, &(digits_of((number % 100_000_000) as u32) | ZEROS).to_le_bytes())
}

struct Start {
    id: u64,
    class: usize,
    at: u128,
    end: u128,
}

/// For each mask the classes, with all bits where one is open.
static OPEN: [[u64; 8]; 256] = {
    let mut rows = [[0; 8]; 256];
    let mut at = 0;
    while at < 256 * 8 {
        rows[at / 8][at % 8] = if at / 8 >> (at % 8) & 1 == 1 { u64::MAX } else { 0 };
        at += 1;
    }
    rows
};

#[derive(Clone, Copy)]
struct Entry {
    mask: u8,
    starts: u64,
    /// For how long each class stays open from its start.
    stays: [u64; 8],
}

/// A list that repeats, as it is from its change moment on. A deletion has no entries.
#[derive(Default)]
struct List {
    lead: u128,
    change: u128,
    base: u64,
    cycle: u64,
    extension: u64,
    /// How many entries were given: those behind the cycle's end are not in the table.
    given: usize,
    last_mask: u8,
    entries: Vec<Entry>,
    /// Where it stands: the start of a cycle, and an entry.
    begun: u128,
    index: usize,
}

impl List {
    /// The table of these entries, in picoseconds.
    fn set(&mut self, given: &[(u8, u64)], cycle: u64) {
        (self.given, self.cycle, self.last_mask) = (given.len(), cycle, given[given.len() - 1].0);
        self.entries.clear();
        let (mut starts, mut always) = (0, ALL_CLASSES);
        for &(mask, length) in given {
            if starts >= cycle {
                break;
            }
            always &= mask;
            let stays = [0; 8];
            self.entries.push(Entry { mask, starts, stays });
            starts += length;
        }
        // From the last entry back, twice: then what the last ones go on with is known.
        let mut stays = [0; 8];
        for _ in 0..2 {
            let mut end = cycle;
            for entry in self.entries.iter_mut().rev() {
                let length = end - entry.starts;
                for (stay, class) in stays.iter_mut().zip(&OPEN[usize::from(entry.mask)]) {
                    *stay = (*stay + length) & class;
                }
                (entry.stays, end) = (stays, entry.starts);
            }
        }
        for class in (0..8).filter(|class| always >> class & 1 == 1) {
            self.entries.iter_mut().for_each(|entry| entry.stays[class] = u64::MAX);
        }
    }

    #[inline(always)]
    fn end_of(&self, index: usize) -> u64 {
        self.entries.get(index + 1).map_or(self.cycle, |entry| entry.starts)
    }

    /// Lets it stand at a later moment, and answers the place in the cycle.
    #[inline(always)]
    fn go_to(&mut self, t: u128) -> u64 {
        let gone = t - self.begun;
        let cycle = u128::from(self.cycle);
        if gone >= cycle {
            self.begun = if gone < 2 * cycle { self.begun + cycle } else { t - gone % cycle };
            self.index = 0;
        }
        let place = (t - self.begun) as u64;
        while self.end_of(self.index) <= place {
            self.index += 1;
        }
        place
    }

    /// The place in the cycle at a moment at or after that where it stands, and the entry.
    fn place_at(&self, t: u128) -> (u64, usize) {
        let gone = t - self.begun;
        let (place, mut index) = match u64::try_from(gone) {
            Ok(gone) if gone < self.cycle => (gone, self.index),
            Ok(gone) => (gone % self.cycle, 0),
            Err(_) => ((gone % u128::from(self.cycle)) as u64, 0),
        };
        if self.entries[index].starts > place {
            index = 0;
        }
        while self.end_of(index) <= place {
            index += 1;
        }
        (place, index)
    }

    /// Goes to the entry that begins next, of the next cycle behind the last one, and answers its place in the cycle.
    #[inline(always)]
    fn next(&self, begun: &mut u128, index: &mut usize) -> u64 {
        let place = self.end_of(*index);
        *index += 1;
        if *index < self.entries.len() {
            return place;
        }
        *index = 0;
        *begun += u128::from(self.cycle);
        0
    }

    /// For how long a class stays open from a place in an entry.
    #[inline(always)]
    fn stay(&self, index: usize, place: u64, class: usize) -> u64 {
        let entry = &self.entries[index];
        match entry.stays[class] {
            u64::MAX => u64::MAX,
            stay => stay.saturating_sub(place - entry.starts),
        }
    }

    /// The first moment from `t` on, within one cycle, at which a class is open for its need, and the class; else where the search ended.
    #[inline(always)]
    fn search(&mut self, t: u128, until: u128, asked: u8, needs: &[u64; 8]) -> Result<(u128, usize), u128> {
        let mut place = self.go_to(t);
        let (mut index, mut begun) = (self.index, self.begun);
        for _ in 0..=self.entries.len() {
            let fitting = greatest(self.entries[index].mask & asked, |class| {
                needs[class] <= self.stay(index, place, class)
            });
            if let Some(class) = fitting {
                return Ok((begun + u128::from(place), class));
            }
            place = self.next(&mut begun, &mut index);
            if begun + u128::from(place) >= until {
                return Err(begun + u128::from(place));
            }
        }
        Err(FOR_EVER)
    }
}

/// The greatest of these classes for which it is so.
#[inline(always)]
fn greatest(mut asked: u8, is_so: impl Fn(usize) -> bool) -> Option<usize> {
    while asked != 0 {
        let class = 7 - asked.leading_zeros() as usize;
        if is_so(class) {
            return Some(class);
        }
        asked &= !(1 << class);
    }
    None
}

/// Which of the lists is in force, pending and announced.
#[derive(Clone, Copy, Default)]
struct Roles {
    in_force: Option<usize>,
    pending: Option<usize>,
    announced: Option<usize>,
}

/// What the gates show up to the end of a leg.
enum Shown {
    Mask(u8),
    List(usize),
}

#[derive(Default)]
struct Gates {
    lists: [List; 4],
    roles: Roles,
}

impl Gates {
    fn is_alone(&self) -> bool {
        self.roles.pending.is_none() && self.roles.announced.is_none()
    }

    /// The next lead or change moment.
    fn next_event(&self, roles: Roles) -> u128 {
        let change = roles.pending.map_or(FOR_EVER, |list| self.lists[list].change);
        let lead = roles.announced.map_or(FOR_EVER, |list| self.lists[list].lead);
        change.min(lead)
    }

    /// The roles at a later moment.
    fn settled(&self, mut roles: Roles, t: u128) -> Roles {
        while self.next_event(roles) <= t {
            let change = roles.pending.map_or(FOR_EVER, |list| self.lists[list].change);
            let lead = roles.announced.map_or(FOR_EVER, |list| self.lists[list].lead);
            if change <= lead {
                roles.in_force = roles.pending.take();
            } else {
                roles.pending = roles.announced.take();
            }
        }
        roles
    }

    /// What the gates show at a moment, and up to when they go by it.
    fn leg(&self, roles: Roles, t: u128) -> (Shown, u128) {
        let event = self.next_event(roles);
        let Some(at) = roles.in_force else {
            return (Shown::Mask(ALL_CLASSES), event);
        };
        let list = &self.lists[at];
        if list.entries.is_empty() {
            return (Shown::Mask(ALL_CLASSES), event);
        }
        let Some(pending) = roles.pending.map(|pending| &self.lists[pending]) else {
            return (Shown::List(at), event);
        };
        // The first start of a cycle, but for the first, that the last entry is held from.
        let cycle = u128::from(list.cycle);
        let from = pending
            .lead
            .max(pending.change.saturating_sub(u128::from(list.extension) * 1000))
            .max(list.change + 1);
        let held = list.change + (from - list.change).div_ceil(cycle) * cycle;
        if held >= pending.change {
            (Shown::List(at), event)
        } else if held <= t {
            (Shown::Mask(list.last_mask), event)
        } else {
            (Shown::List(at), event.min(held))
        }
    }

    /// Whether a class stays open from a moment for so long.
    fn stays_open(&self, roles: Roles, mut t: u128, class: usize, mut need: u64) -> bool {
        let mut roles = roles;
        loop {
            roles = self.settled(roles, t);
            let (shown, end) = self.leg(roles, t);
            let left = u64::try_from(end - t).unwrap_or(u64::MAX);
            let open = match shown {
                Shown::Mask(mask) if mask >> class & 1 == 1 => left,
                Shown::Mask(_) => 0,
                Shown::List(list) => {
                    let list = &self.lists[list];
                    let (place, index) = list.place_at(t);
                    list.stay(index, place, class).min(left)
                }
            };
            if need <= open {
                return true;
            }
            if open < left {
                return false;
            }
            need -= left;
            t = end;
        }
    }

    /// The first moment from `t` to `until` at which a class is open for its need, through all changes; else where the search ended.
    fn search(&mut self, mut t: u128, until: u128, asked: u8, needs: &[u64; 8]) -> Result<(u128, usize), u128> {
        let mut roles = self.roles;
        while t < until {
            roles = self.settled(roles, t);
            let (shown, end) = self.leg(roles, t);
            match shown {
                Shown::Mask(mask) => {
                    if let Some(class) = greatest(mask & asked, |class| self.stays_open(roles, t, class, needs[class])) {
                        return Ok((t, class));
                    }
                }
                Shown::List(at) => {
                    let list = &self.lists[at];
                    let (mut place, mut index) = list.place_at(t);
                    let mut begun = t - u128::from(place);
                    let mut entries = 0;
                    while t < end && t < until {
                        let fits = |class| self.stays_open(roles, t, class, needs[class]);
                        if let Some(class) = greatest(list.entries[index].mask & asked, fits) {
                            return Ok((t, class));
                        }
                        place = list.next(&mut begun, &mut index);
                        entries += 1;
                        // After a whole cycle only the last ones before the end can differ.
                        let cycle = u128::from(list.cycle);
                        if entries > list.entries.len() && end == FOR_EVER {
                            return Err(FOR_EVER);
                        }
                        if entries > list.entries.len() && end.saturating_sub(begun) > 3 * cycle {
                            begun += ((end - begun) / cycle - 2) * cycle;
                        }
                        t = begun + u128::from(place);
                    }
                    if t < end {
                        return Err(t);
                    }
                }
            }
            t = end;
        }
        Err(t)
    }

    fn mask_at(&mut self, t: u128) -> u8 {
        self.roles = self.settled(self.roles, t);
        match self.leg(self.roles, t).0 {
            Shown::Mask(mask) => mask,
            Shown::List(list) => {
                let list = &self.lists[list];
                list.entries[list.place_at(t).1].mask
            }
        }
    }

    /// A list that has no role.
    fn unused(&self) -> usize {
        let Roles {
            in_force,
            pending,
            announced,
        } = self.roles;
        (0..4)
            .find(|&list| ![in_force, pending, announced].contains(&Some(list)))
            .unwrap_or(0)
    }
}

struct Waiting {
    id: u64,
    need: u64,
}

/// The class of each priority, and the ranges of queues.
struct Classes {
    count: u8,
    map: [u8; 16],
    queues: [(u16, u16); 8],
}

struct Port {
    queues: [VecDeque<Waiting>; 8],
    /// What the head of each class needs.
    needs: [u64; 8],
    waits: u8,
    room: usize,
    now: u128,
    free: u128,
    idle: u128,
    map: [u8; 16],
    classes: Option<Classes>,
    sdu: [u32; 8],
    no_class: u64,
    gates: Gates,
}

const MTU: u32 = 1500;
const LEAD: u128 = (MTU as u128 + 42) * PS as u128;

impl Port {
    fn new(room: usize) -> Port {
        Port {
            queues: std::array::from_fn(|_| VecDeque::with_capacity(room)),
            needs: [0; 8],
            waits: 0,
            room,
            now: 0,
            free: 0,
            idle: 0,
            map: [0, 1, 2, 3, 4, 5, 6, 7, 0, 0, 0, 0, 0, 0, 0, 0],
            classes: None,
            sdu: [MTU; 8],
            no_class: 0,
            gates: Gates::default(),
        }
    }

    /// The class in which the frame waits, or why it is dropped.
    #[inline(always)]
    fn arrive(&mut self, id: u64, priority: u64, len: u32, tagged: bool) -> Result<usize, &'static str> {
        if priority > 15 {
            self.no_class += 1;
            return Err("NoClass");
        }
        let class = usize::from(self.map[priority as usize & 15] & 7);
        let sdu = len.wrapping_sub(if tagged { 18 } else { 14 });
        if sdu > self.sdu[class] {
            return Err(if sdu > u32::MAX - 18 {
                "Runt"
            } else if sdu > MTU {
                "TooLong"
            } else {
                "OverSdu"
            });
        }
        let queue = &mut self.queues[class];
        if queue.len() == self.room {
            return Err("Full");
        }
        let need = (u64::from(len.max(60)) + 24) * PS;
        if queue.is_empty() {
            self.waits |= 1 << class;
            self.needs[class] = need;
            self.idle = 0;
        }
        queue.push_back(Waiting { id, need });
        Ok(class)
    }

    /// The moment before `until` at which a class may start, and the class.
    #[inline(always)]
    fn find(&mut self, until: u128) -> Option<(u128, usize)> {
        let t = self.now.max(self.free).max(self.idle);
        if t >= until || self.waits == 0 {
            return None;
        }
        if !self.gates.is_alone() {
            self.gates.roles = self.gates.settled(self.gates.roles, t);
        }
        let found = if !self.gates.is_alone() {
            self.gates.search(t, until, self.waits, &self.needs)
        } else {
            match self.gates.roles.in_force {
                Some(list) if !self.gates.lists[list & 3].entries.is_empty() => {
                    self.gates.lists[list & 3].search(t, until, self.waits, &self.needs)
                }
                _ => return greatest(self.waits, |_| true).map(|class| (t, class)),
            }
        };
        match found {
            Ok(found) => Some(found),
            Err(end) => {
                self.idle = end;
                None
            }
        }
    }

    #[inline(always)]
    fn step(&mut self, until: u128) -> Option<Start> {
        let Some((at, class)) = self.find(until) else {
            self.now = until;
            return None;
        };
        let queue = &mut self.queues[class];
        let head = queue.pop_front()?;
        match queue.front() {
            Some(next) => self.needs[class] = next.need,
            None => self.waits &= !(1 << class),
        }
        self.now = at;
        self.free = at + u128::from(head.need);
        Some(Start {
            id: head.id,
            class,
            at,
            end: self.free,
        })
    }

    /// Takes a command, and answers its change moment, or what it is refused for.
    fn install(&mut self, command: &Command) -> Result<u128, String> {
        if !command.is_deletion {
            self.judge(command)?;
        }
        let now = self.now;
        self.gates.roles = self.gates.settled(self.gates.roles, now);
        if let Some(announced) = self.gates.roles.announced {
            return Err(format!("Busy {}", self.gates.lists[announced].lead));
        }
        let at = self.gates.unused();
        let list = &mut self.gates.lists[at];
        list.lead = now + LEAD;
        list.change = list.lead;
        list.entries.clear();
        if !command.is_deletion {
            (list.base, list.extension) = (command.base, command.extension);
            let cycle = command.cycle * 1000;
            list.set(&command.entries, cycle);
            let base = u128::from(command.base) * 1000;
            let cycle = u128::from(cycle);
            list.change = if base >= list.lead {
                base
            } else {
                base + (list.lead - base).div_ceil(cycle) * cycle
            };
            self.take_classes(command);
        }
        let list = &mut self.gates.lists[at];
        (list.begun, list.index) = (list.change, 0);
        self.gates.roles.announced = Some(at);
        self.idle = 0;
        Ok(self.gates.lists[at].change)
    }

    /// What a command is refused for, but that another one is announced.
    fn judge(&self, command: &Command) -> Result<(), String> {
        match (&self.classes, &command.map) {
            (None, None) => return Err("MapMissing".into()),
            (Some(classes), Some((count, map))) => {
                let queues = command.queues.as_ref().is_none_or(|queues| *queues == classes.queues);
                if *count != classes.count || *map != classes.map || !queues {
                    return Err("MapChanged".into());
                }
            }
            _ => {}
        }
        if let Some(limits) = &command.sdu {
            if let Some(class) = limits.iter().position(|&limit| limit > MTU) {
                return Err(format!("SduTooLarge {class}"));
            }
        }
        if let Some(index) = command.entries.iter().position(|entry| entry.1 < 480_000) {
            return Err(format!("IntervalTooShort {index}"));
        }
        let refusal = match command {
            _ if command.cycle < 480 => "CycleTooShort",
            _ if command.cycle > 1 << 40 => "CycleTooLong",
            _ if command.extension > 1 << 40 => "ExtensionTooLong",
            _ if command.base > i64::MAX as u64 => "BaseTooLate",
            _ => return Ok(()),
        };
        Err(refusal.into())
    }

    fn take_classes(&mut self, command: &Command) {
        if let (None, Some((count, map))) = (&self.classes, command.map) {
            let queues = command
                .queues
                .unwrap_or(std::array::from_fn(|class| (u16::from(class < usize::from(count)), class as u16)));
            (self.map, self.classes) = (map, Some(Classes { count, map, queues }));
        }
        if let Some(limits) = command.sdu {
            self.sdu = limits.map(|limit| if limit == 0 { MTU } else { limit });
        }
    }
}

/// How many digits a word begins with, the first octet the lowest.
#[inline(always)]
fn count_of(word: u64) -> u32 {
    let odd = ((word ^ ZEROS).wrapping_add(0x7676_7676_7676_7676) | word) & 0x8080_8080_8080_8080;
    odd.trailing_zeros() / 8
}

/// The value of the digits that a word begins with, so many.
#[inline(always)]
fn value_of(word: u64, count: u32) -> u64 {
    if count == 0 {
        return 0;
    }
    let ones = (word ^ ZEROS) << (64 - 8 * count);
    let tens = (ones * 10 + (ones >> 8)) & 0x00ff_00ff_00ff_00ff;
    let hundreds = (tens * 100 + (tens >> 16)) & 0x0000_ffff_0000_ffff;
    (hundreds * 10_000 + (hundreds >> 32)) & 0xffff_ffff
}

#[inline(always)]
fn word_at(octets: &[u8], at: usize) -> u64 {
    let Some(word) = octets[at..].first_chunk() else {
        return 0;
    };
    u64::from_le_bytes(*word)
}

static TENS: [u64; 9] = [1, 10, 100, 1_000, 10_000, 100_000, 1_000_000, 10_000_000, 100_000_000];

/// The number at a place, and where it ends.
#[inline(always)]
fn number(octets: &[u8], at: usize) -> (u64, usize) {
    let word = word_at(octets, at);
    let count = count_of(word);
    let value = value_of(word, count);
    let mut end = at + count as usize;
    if count < 8 {
        return (value, end);
    }
    let mut value = value;
    while octets[end].is_ascii_digit() {
        value = value * 10 + u64::from(octets[end] - b'0');
        end += 1;
    }
    (value, end)
}

fn word_of(octets: &[u8; 24], at: usize) -> u64 {
    u64::from_le_bytes(*octets[at..].first_chunk().expect("a word"))
}

/// The value of a word of eight digits.
#[inline(always)]
fn eight_of(word: u64) -> u64 {
    let tens = ((word & 0x0f0f_0f0f_0f0f_0f0f) * 2561 >> 8) & 0x00ff_00ff_00ff_00ff;
    let hundreds = (tens * 6_553_601 >> 16) & 0x0000_ffff_0000_ffff;
    hundreds * 42_949_672_960_001 >> 32
}

/// The moment that octets begin with, and how many digits it has.
#[inline(always)]
fn moment(octets: &[u8; 24]) -> (u128, usize) {
    let first = word_of(octets, 0);
    let count = count_of(first);
    if count < 8 {
        return (u128::from(value_of(first, count)), count as usize);
    }
    let (first, second) = (eight_of(first), word_of(octets, 8));
    let count = count_of(second);
    if count < 8 {
        return (
            u128::from(first * TENS[count as usize] + value_of(second, count)),
            8 + count as usize,
        );
    }
    let (both, third) = (first * 100_000_000 + eight_of(second), word_of(octets, 16));
    let count = count_of(third);
    let value = u128::from(both) * u128::from(TENS[count as usize]) + u128::from(value_of(third, count));
    (value, 16 + count as usize)
}

/// Where the next line feed stands, or the end.
fn feed_from(octets: &[u8], from: usize) -> usize {
    let mut at = from;
    while let Some(word) = octets[at..].first_chunk() {
        let odd = u64::from_le_bytes(*word) ^ 0x0a0a_0a0a_0a0a_0a0a;
        let found = odd.wrapping_sub(0x0101_0101_0101_0101) & !odd & 0x8080_8080_8080_8080;
        if found != 0 {
            return at + found.trailing_zeros() as usize / 8;
        }
        at += 8;
    }
    octets[at..]
        .iter()
        .position(|&octet| octet == b'\n')
        .map_or(octets.len(), |behind| at + behind)
}

/// A schedule command. The intervals are in picoseconds, the other times in nanoseconds.
#[derive(Default)]
struct Command {
    is_deletion: bool,
    map: Option<(u8, [u8; 16])>,
    queues: Option<[(u16, u16); 8]>,
    sdu: Option<[u32; 8]>,
    base: u64,
    cycle: u64,
    extension: u64,
    entries: Vec<(u8, u64)>,
}

static IS_BLANK: [bool; 256] = {
    let mut blanks = [false; 256];
    blanks[b' ' as usize] = true;
    blanks[b'\t' as usize] = true;
    blanks[b'\r' as usize] = true;
    blanks[b'\n' as usize] = true;
    blanks
};

/// The words of a line, and the place of the next one.
struct Words<'a> {
    rest: &'a [u8],
    place: usize,
}

impl<'a> Words<'a> {
    fn front(&self) -> Option<&'a [u8]> {
        let begin = self.rest.iter().position(|&octet| !IS_BLANK[usize::from(octet)])?;
        let word = &self.rest[begin..];
        let end = word.iter().position(|&octet| IS_BLANK[usize::from(octet)]).unwrap_or(word.len());
        Some(&word[..end])
    }

    fn pass(&mut self, word: &'a [u8]) {
        let begin = word.as_ptr() as usize - self.rest.as_ptr() as usize;
        self.rest = &self.rest[begin + word.len()..];
        self.place += 1;
    }

    fn next(&mut self) -> Option<&'a [u8]> {
        let word = self.front()?;
        self.pass(word);
        Some(word)
    }

    /// The value of an option.
    fn value(&mut self, option: &'static str) -> Result<&'a [u8], String> {
        self.next().ok_or_else(|| format!("MissingWord {option}"))
    }

    /// A decimal value of an option, at most so great.
    fn number(&mut self, option: &'static str, greatest: u64) -> Result<u64, String> {
        let word = self.value(option)?;
        decimal(word).filter(|&value| value <= greatest).ok_or_else(|| self.bad_number())
    }

    fn bad_number(&self) -> String {
        format!("BadNumber {}", self.place - 1)
    }

    /// The words from here on that are of a form.
    fn run(
        &mut self,
        option: &'static str,
        is_of_form: impl Fn(&[u8]) -> bool,
        mut take: impl FnMut(usize, &[u8]) -> bool,
    ) -> Result<usize, String> {
        let mut count = 0;
        while let Some(word) = self.front().filter(|word| is_of_form(word)) {
            self.pass(word);
            if !take(count, word) {
                return Err(self.bad_number());
            }
            count += 1;
        }
        if count == 0 {
            Err(format!("MissingWord {option}"))
        } else {
            Ok(count)
        }
    }
}

fn decimal(word: &[u8]) -> Option<u64> {
    let mut value = 0u64;
    for &octet in word {
        let digit = octet.wrapping_sub(b'0');
        if digit > 9 {
            return None;
        }
        value = value.checked_mul(10)?.checked_add(u64::from(digit))?;
    }
    if word.is_empty() {
        None
    } else {
        Some(value)
    }
}

fn hexadecimal(word: &[u8], greatest: u64) -> Option<u64> {
    let digits = word.strip_prefix(b"0x").unwrap_or(word);
    let mut value = 0u64;
    for &octet in digits {
        value = value << 4 | u64::from((octet as char).to_digit(16)?);
        if value > greatest {
            return None;
        }
    }
    if digits.is_empty() {
        None
    } else {
        Some(value)
    }
}

fn is_decimal(word: &[u8]) -> bool {
    word.iter().all(u8::is_ascii_digit)
}

fn range(word: &[u8]) -> Option<(&[u8], &[u8])> {
    let at = word.iter().position(|&octet| octet == b'@')?;
    let (count, offset) = (&word[..at], &word[at + 1..]);
    (at > 0 && !offset.is_empty() && is_decimal(count) && is_decimal(offset)).then_some((count, offset))
}

/// An option that may be given once.
fn once(given: &mut u32, bit: u32, option: &'static str) -> Result<&'static str, String> {
    if *given >> bit & 1 == 1 {
        return Err(format!("Repeated {option}"));
    }
    *given |= 1 << bit;
    Ok(option)
}

/// The value of each hexadecimal digit, and 255 for any other octet.
static HEXADECIMAL: [u8; 256] = {
    let mut values = [255; 256];
    let mut at = 0;
    while at < 16 {
        values[b"0123456789abcdef"[at] as usize] = at as u8;
        values[b"0123456789ABCDEF"[at] as usize] = at as u8;
        at += 1;
    }
    values
};

/// The entry in its usual form that octets begin with, and how many octets it takes: two digits and at most seven, each
/// behind one blank, and a blank.
#[inline(always)]
fn usual_entry(octets: &[u8; 26]) -> Option<((u8, u64), usize)> {
    let (high, low) = (HEXADECIMAL[usize::from(octets[15])], HEXADECIMAL[usize::from(octets[16])]);
    let interval = word_at(octets, 18);
    let count = count_of(interval);
    if octets[..15] != *b" sched-entry S "
        || (high | low) > 15
        || octets[17] != b' '
        || !(1..8).contains(&count)
        || octets[18 + count as usize] != b' '
    {
        return None;
    }
    Some(((high << 4 | low, value_of(interval, count) * 1000), 18 + count as usize))
}

/// Takes the entries that come next in their usual form.
fn take_entries(words: &mut Words, entries: &mut Vec<(u8, u64)>) {
    let held = entries.len();
    while let Some((entry, count)) = words.rest.first_chunk().and_then(usual_entry) {
        entries.push(entry);
        words.rest = &words.rest[count..];
    }
    let mut last = [b' '; 26];
    if (19..26).contains(&words.rest.len()) {
        last[..words.rest.len()].copy_from_slice(words.rest);
        if let Some((entry, count)) = usual_entry(&last) {
            entries.push(entry);
            words.rest = &words.rest[count..];
        }
    }
    words.place += 4 * (entries.len() - held);
}

/// Reads the words up to the options; answers what is behind them, and which were given.
fn read_heads<'a>(line: &'a [u8], is_deletion: &mut bool) -> Result<(Words<'a>, u32), String> {
    if let Some(behind) = line.strip_prefix(b"tc qdisc replace dev ") {
        let end = behind.iter().position(|&octet| IS_BLANK[usize::from(octet)]).unwrap_or(0);
        if let (1.., Some(rest)) = (end, behind[end..].strip_prefix(b" root taprio ")) {
            // (the blank behind the word goes with what follows)
            let rest = &behind[behind.len() - rest.len() - 1..];
            return Ok((Words { rest, place: 7 }, 0b11));
        }
    }
    let mut words = Words { rest: line, place: 0 };
    let not_taprio = || "NotTaprio".to_string();
    if words.next() != Some(b"tc") || words.next() != Some(b"qdisc") {
        return Err(not_taprio());
    }
    match words.next() {
        Some(b"add" | b"replace" | b"change") => {}
        Some(b"del") => *is_deletion = true,
        _ => return Err(not_taprio()),
    }
    let mut given = 0;
    loop {
        match words.next() {
            Some(b"dev") => words.value(once(&mut given, 0, "dev")?).map(|_| ())?,
            Some(b"root") => once(&mut given, 1, "parent").map(|_| ())?,
            Some(b"parent") => words.value(once(&mut given, 1, "parent")?).map(|_| ())?,
            Some(b"handle") => words.value(once(&mut given, 2, "handle")?).map(|_| ())?,
            Some(b"taprio") => break,
            None if *is_deletion => break,
            _ => return Err(not_taprio()),
        }
    }
    Ok((words, given))
}

/// Reads a line into a command; the error is the text of its first fault.
fn read_command(line: &[u8], command: &mut Command) -> Result<(), String> {
    let entries = std::mem::take(&mut command.entries);
    *command = Command {
        entries,
        ..Command::default()
    };
    command.entries.clear();
    let (mut words, mut given) = read_heads(line, &mut command.is_deletion)?;
    let (mut count, mut map, mut map_count) = (0, [0; 17], 0);
    let (mut queues, mut queue_count) = ([(0, 0); 9], 0);
    loop {
        take_entries(&mut words, &mut command.entries);
        let Some(word) = words.next() else { break };
        if command.is_deletion {
            return Err(format!("UnknownOption {}", words.place - 1));
        }
        match word {
            b"sched-entry" => {
                let bad = |words: &Words| Err(words.bad_number());
                if words.value("sched-entry")? != b"S" {
                    return Err("Unsupported sched-entry".into());
                }
                let Some(mask) = hexadecimal(words.value("sched-entry")?, 0xff) else {
                    return bad(&words);
                };
                let interval = words.number("sched-entry", u64::from(u32::MAX))?;
                command.entries.push((mask as u8, interval * 1000));
            }
            b"num_tc" => count = words.number(once(&mut given, 3, "num_tc")?, 255)?,
            b"map" => {
                let option = once(&mut given, 4, "map")?;
                map_count = words.run(option, is_decimal, |at, word| {
                    let value = decimal(word).filter(|&value| value <= 255);
                    map[at.min(16)] = value.unwrap_or(0) as u8;
                    value.is_some()
                })?;
            }
            b"queues" => {
                let option = once(&mut given, 5, "queues")?;
                queue_count = words.run(
                    option,
                    |word| range(word).is_some(),
                    |at, word| {
                        let Some((count, offset)) = range(word) else { return false };
                        let pair = decimal(count)
                            .and_then(|count| u16::try_from(count).ok())
                            .zip(decimal(offset).and_then(|offset| u16::try_from(offset).ok()));
                        queues[at.min(8)] = pair.unwrap_or((0, 0));
                        pair.is_some()
                    },
                )?;
            }
            b"base-time" => command.base = words.number(once(&mut given, 6, "base-time")?, u64::MAX)?,
            b"cycle-time" => command.cycle = words.number(once(&mut given, 7, "cycle-time")?, u64::MAX)?,
            b"cycle-time-extension" => command.extension = words.number(once(&mut given, 8, "cycle-time-extension")?, u64::MAX)?,
            b"clockid" => {
                let word = words.value(once(&mut given, 9, "clockid")?)?.to_ascii_uppercase();
                if !matches!(
                    word.strip_prefix(b"CLOCK_").unwrap_or(&word),
                    b"REALTIME" | b"MONOTONIC" | b"BOOTTIME" | b"TAI"
                ) {
                    return Err(words.bad_number());
                }
            }
            b"flags" => match hexadecimal(words.value(once(&mut given, 10, "flags")?)?, u64::from(u32::MAX)) {
                Some(0 | 2) => {}
                Some(_) => return Err("Unsupported flags".into()),
                None => return Err(words.bad_number()),
            },
            b"max-sdu" => {
                let option = once(&mut given, 11, "max-sdu")?;
                let mut limits = [0; 8];
                words.run(option, is_decimal, |at, word| {
                    let value = decimal(word).filter(|&value| at < 16 && value <= u64::from(u32::MAX));
                    if at < 8 {
                        limits[at] = value.unwrap_or(0) as u32;
                    }
                    value.is_some()
                })?;
                command.sdu = Some(limits);
            }
            b"txtime-delay" => return Err("Unsupported txtime-delay".into()),
            b"fp" => return Err("Unsupported fp".into()),
            _ => return Err(format!("UnknownOption {}", words.place - 1)),
        }
    }
    for (bit, option) in [(0, "dev"), (1, "parent")] {
        if given >> bit & 1 == 0 {
            return Err(format!("MissingWord {option}"));
        }
    }
    if command.is_deletion {
        return Ok(());
    }
    match given >> 3 & 7 {
        0b010 | 0b100 | 0b110 => return Err("MissingWord num_tc".into()),
        0b001 | 0b101 => return Err("MissingWord map".into()),
        _ => {}
    }
    if given >> 3 & 1 == 1 {
        if !(1..=8).contains(&count) {
            return Err("BadClassCount".into());
        }
        if map_count > 16 {
            return Err("TooManyPriorities".into());
        }
        if map.iter().any(|&class| u64::from(class) >= count) {
            return Err("ClassOutOfRange".into());
        }
        command.map = Some((count as u8, std::array::from_fn(|priority| map[priority])));
    }
    if given >> 5 & 1 == 1 {
        let ranges = &queues[..queue_count.min(9)];
        if queue_count as u64 != count {
            return Err("QueueCount".into());
        }
        if ranges.iter().any(|range| range.0 == 0) {
            return Err("EmptyQueue".into());
        }
        let end = |range: &(u16, u16)| u32::from(range.0) + u32::from(range.1);
        let meet = |one: &(u16, u16), two: &(u16, u16)| u32::from(one.1) < end(two) && u32::from(two.1) < end(one);
        if (0..queue_count).any(|at| (0..at).any(|before| meet(&ranges[before], &ranges[at]))) {
            return Err("QueueOverlap".into());
        }
        command.queues = Some(std::array::from_fn(|class| queues[class]));
    }
    match &command.entries {
        entries if entries.is_empty() => Err("NoEntries".into()),
        entries if entries.len() > 256 => Err("TooManyEntries".into()),
        entries if entries.iter().any(|entry| entry.1 == 0) => Err("ZeroInterval".into()),
        entries => {
            if command.cycle == 0 {
                command.cycle = entries.iter().map(|entry| entry.1).sum::<u64>() / 1000;
            }
            Ok(())
        }
    }
}

/// What a query reports.
fn report<W: Write>(port: &mut Port, out: &mut Output<W>) {
    let mask = port.gates.mask_at(port.now);
    let mut text = format!("report now {} mask {mask:02x} no-class {}\n", port.now, port.no_class);
    match &port.classes {
        None => text += "classes none\n",
        Some(classes) => {
            let map: Vec<String> = classes.map.iter().map(u8::to_string).collect();
            let queues = &classes.queues[..usize::from(classes.count)];
            let queues: Vec<String> = queues.iter().map(|(count, offset)| format!("{count}@{offset}")).collect();
            text += &format!("classes {} map {} queues {}\n", classes.count, map.join(" "), queues.join(" "));
        }
    }
    let Roles {
        in_force,
        pending,
        announced,
    } = port.gates.roles;
    for (name, role) in [("in-force", in_force), ("pending", pending), ("announced", announced)] {
        let told = match role.map(|list| &port.gates.lists[list]) {
            None => "none".to_string(),
            Some(list) if list.entries.is_empty() => format!("open change {}", list.change),
            Some(List {
                change,
                base,
                cycle,
                extension,
                given,
                ..
            }) => {
                format!(
                    "change {change} base {base} cycle {} extension {extension} entries {given}",
                    cycle / 1000
                )
            }
        };
        text += &format!("{name} {told}\n");
    }
    out.room_for(1024);
    out.text(text.as_bytes());
}

/// Takes the line at a place, which ends within the octets, and answers where the next one begins.
#[inline(always)]
fn take_line<W: Write>(port: &mut Port, octets: &[u8], at: usize, command: &mut Command, out: &mut Output<W>) -> usize {
    let rest = &octets[at..];
    if rest.starts_with(b"frame ") {
        let (id, end) = number(octets, at + 6);
        let (priority, end) = number(octets, end + 1);
        let (len, mut end) = number(octets, end + 1);
        let tagged = octets[end] == b' ';
        if tagged {
            end += 7;
        }
        match port.arrive(id, priority, len as u32, tagged) {
            Ok(class) => out.queued(id, class),
            Err(why) => out.dropped(id, why),
        }
        return end + 1;
    }
    if rest.starts_with(b"clock ") {
        let (until, count) = moment(rest[6..].first_chunk().expect("there is room behind the lines"));
        let end = at + 6 + count;
        if until < port.now {
            out.room_for(WINDOW);
            out.text(b"backward\n");
        } else if until <= port.free || until <= port.idle {
            port.now = until;
        } else {
            run_to(port, until, out);
        }
        return end + 1;
    }
    let end = feed_from(octets, at);
    take_other(port, &octets[at..end], command, out);
    end + 1
}

fn run_to<W: Write>(port: &mut Port, until: u128, out: &mut Output<W>) {
    while let Some(start) = port.step(until) {
        out.start(&start);
    }
}

#[cold]
fn take_other<W: Write>(port: &mut Port, line: &[u8], command: &mut Command, out: &mut Output<W>) {
    if line.starts_with(b"tc ") {
        let installed = read_command(line, command)
            .map_err(|fault| format!("tc-fault {fault}\n"))
            .and_then(|()| port.install(command).map_err(|refusal| format!("refused {refusal}\n")));
        out.room_for(WINDOW);
        match installed {
            Ok(change) => {
                out.text(b"installed change ");
                out.moment(change);
                out.text(b"\n");
            }
            Err(text) => out.text(text.as_bytes()),
        }
    } else if line.starts_with(b"query") {
        report(port, out);
    }
}

fn left<W: Write>(port: &Port, out: &mut Output<W>) {
    for (class, queue) in port.queues.iter().enumerate() {
        if !queue.is_empty() {
            out.text(format!("left class {class} frames {}\n", queue.len()).as_bytes());
        }
    }
    out.let_out();
}

fn run_script(room: usize) {
    let mut input = io::stdin().lock();
    let mut out = Output::new(io::stdout().lock());
    let mut port = Port::new(room);
    let mut command = Command::default();
    let mut octets = vec![0; ROOM + 64];
    let mut held = 0;
    loop {
        let count = input.read(&mut octets[held..ROOM]).expect("a read");
        held += count;
        let whole = octets[..held].iter().rposition(|&octet| octet == b'\n').map_or(0, |feed| feed + 1);
        let mut at = 0;
        while at < whole {
            at = take_line(&mut port, &octets, at, &mut command, &mut out);
        }
        if count == 0 {
            break;
        }
        octets.copy_within(whole..held, 0);
        held -= whole;
    }
    left(&port, &mut out);
}

/// The octets of the frames that wait in a class, in one piece.
#[derive(Default)]
struct Kept {
    octets: Vec<u8>,
    head: usize,
    sizes: VecDeque<(usize, u32)>,
}

impl Kept {
    fn put(&mut self, octets: &[u8], original: u32) {
        if self.head > self.octets.len() / 2 && self.octets.len() + octets.len() > self.octets.capacity() {
            self.octets.drain(..self.head);
            self.head = 0;
        }
        self.octets.extend_from_slice(octets);
        self.sizes.push_back((octets.len(), original));
    }

    fn put_first<W: Write>(&mut self, moment: u128, departures: &mut Output<W>) {
        let (size, original) = self.sizes.pop_front().expect("a frame");
        departures.room_for(16 + size);
        departures.text(&((moment / 1_000_000_000_000) as u32).to_le_bytes());
        departures.text(&((moment % 1_000_000_000_000 / 1000) as u32).to_le_bytes());
        departures.text(&(size as u32).to_le_bytes());
        departures.text(&original.to_le_bytes());
        departures.text(&self.octets[self.head..self.head + size]);
        self.head += size;
        if self.head == self.octets.len() {
            self.octets.clear();
            self.head = 0;
        }
    }
}

fn word(octets: &[u8], at: usize) -> u32 {
    u32::from_le_bytes([octets[at], octets[at + 1], octets[at + 2], octets[at + 3]])
}

fn run_replay(words: &[String]) {
    let until: u128 = words[0].parse::<u128>().expect("a second");
    let mut out = Output::new(io::stdout().lock());
    let (mut port, mut command) = (Port::new(128), Command::default());
    for line in BufReader::new(File::open(&words[1]).expect("a script")).split(b'\n') {
        take_other(&mut port, &line.expect("a line"), &mut command, &mut out);
    }
    let mut capture = BufReader::with_capacity(ROOM, File::open(&words[2]).expect("a capture"));
    let mut departures = Output::new(File::create(&words[3]).expect("a capture"));
    let mut header = [0; 24];
    capture.read_exact(&mut header).expect("a header");
    header[8..16].fill(0);
    departures.text(&header);
    let mut kept: [Kept; 8] = Default::default();
    let mut apart = Vec::new();
    let mut id = 0;
    loop {
        let hand = capture.fill_buf().expect("a read");
        if hand.is_empty() {
            break;
        }
        let whole = hand.len() >= 16 && hand.len() >= 16 + word(hand, 8) as usize;
        if !whole {
            apart.resize(16, 0);
            capture.read_exact(&mut apart).expect("a record");
            let size = word(&apart, 8) as usize;
            apart.resize(16 + size, 0);
            capture.read_exact(&mut apart[16..]).expect("a record");
        }
        let record = if whole { capture.buffer() } else { &apart };
        let size = word(record, 8) as usize;
        let moment = u128::from(word(record, 0)) * 1_000_000_000_000 + u128::from(word(record, 4)) * 1000;
        let original = word(record, 12);
        let octets = &record[16..16 + size];
        while let Some(start) = port.step(moment) {
            out.start(&start);
            kept[start.class].put_first(start.at, &mut departures);
        }
        let tagged = octets.len() >= 16 && octets[12..14] == [0x81, 0];
        let priority = if tagged { u64::from(octets[14] >> 5) } else { 0 };
        match port.arrive(id, priority, original.max(size as u32), tagged) {
            Ok(class) => {
                kept[class].put(octets, original);
                out.queued(id, class);
            }
            Err(why) => out.dropped(id, why),
        }
        id += 1;
        if whole {
            capture.consume(16 + size);
        }
    }
    while let Some(start) = port.step(until) {
        out.start(&start);
        kept[start.class].put_first(start.at, &mut departures);
    }
    departures.let_out();
    left(&port, &mut out);
}

fn main() {
    let words: Vec<String> = std::env::args().skip(1).collect();
    match words.first().map(String::as_str) {
        Some("script") => run_script(words.get(1).map_or(128, |room| room.parse().expect("a room"))),
        Some("replay") => run_replay(&words[1..]),
        _ => eprintln!("plain script [ROOM] < SCRIPT, or plain replay UNTIL SCRIPT CAPTURE DEPARTURES"),
    }
}
