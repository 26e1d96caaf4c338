// The unproved twin of crates/bench_bounds, in plain Rust: draws the same questions, finds the flow in the same way, and
// prints the same sums. It times the older way beside it, which sends along one path a search.
use std::hint::black_box;
use std::time::Instant;

const MOST_HOUSEHOLDS: usize = 128;
const MOST_LINKS: usize = 1024;
const MOST_STRENGTH: usize = 1000;

const IN_A: u8 = 1;
const IN_B: u8 = 2;

// Different questions of one size, and how often each is asked.
const QUESTIONS: u32 = 20;
const TURNS: u32 = 10;

#[derive(Clone, Copy)]
struct Link {
    from: usize,
    to: usize,
    strength: u32,
}

struct Question {
    links: Vec<Link>,
    lots: Vec<u8>,
}

// One household in `share` is set in A, about, and as many in B.
#[derive(Clone, Copy)]
struct Size {
    households: usize,
    links: usize,
    share: usize,
}

// Numbers drawn one after another.
struct Drawn(u64);

impl Drawn {
    fn below(&mut self, limit: usize) -> usize {
        let product = self.0.wrapping_mul(6_364_136_223_846_793_005);
        self.0 = product.wrapping_add(1_442_695_040_888_963_407);
        (self.0 >> 33) as usize % limit
    }

    fn link(&mut self, households: usize) -> Link {
        let from = self.below(households);
        let other = self.below(households);
        let to = if other == from { (from + 1) % households } else { other };
        let strength = 1 + self.below(MOST_STRENGTH) as u32;
        Link { from, to, strength }
    }

    fn lot(&mut self, share: usize) -> u8 {
        match self.below(share) {
            0 => IN_A,
            1 => IN_B,
            _ => 0,
        }
    }

    fn question(&mut self, size: Size) -> Question {
        let links = (0..size.links).map(|_| self.link(size.households)).collect();
        let lots = (0..size.households).map(|_| self.lot(size.share)).collect();
        Question { links, lots }
    }
}

// The two bounds that the flow is added to: each fills in its charges, and answers their sum.
fn bare(_: &Question, charges: &mut [u32]) -> u32 {
    charges.fill(0);
    0
}

fn decided(question: &Question, charges: &mut [u32]) -> u32 {
    for (charge, link) in charges.iter_mut().zip(&question.links) {
        let (from, to) = (question.lots[link.from], question.lots[link.to]);
        *charge = if from > 0 && to > 0 && from != to { link.strength } else { 0 };
    }
    charges.iter().sum()
}

// A link, gone from its first end to its second, or back.
#[derive(Clone, Copy)]
struct Arc {
    link: usize,
    onward: bool,
}

// How a search reached a household: at which level, 0 where it did not, and by which link.
#[derive(Clone, Copy)]
struct Mark {
    level: usize,
    link: usize,
}

// What a search for a flow works with: what is left of each link, and the room that it has onward.
struct Net<'a> {
    links: &'a [Link],
    lots: &'a [u8],
    left: [u32; MOST_LINKS],
    room: [u32; MOST_LINKS],
    marks: [Mark; MOST_HOUSEHOLDS],
}

impl Net<'_> {
    fn new<'a>(question: &'a Question, charges: &[u32]) -> Net<'a> {
        let mut left = [0; MOST_LINKS];
        for (k, link) in question.links.iter().enumerate() {
            left[k] = link.strength - charges[k];
        }
        Net {
            links: &question.links,
            lots: &question.lots,
            left,
            room: left,
            marks: [Mark { level: 0, link: 0 }; MOST_HOUSEHOLDS],
        }
    }

    fn tail(&self, arc: Arc) -> usize {
        let link = &self.links[arc.link];
        if arc.onward { link.from } else { link.to }
    }

    fn head(&self, arc: Arc) -> usize {
        let link = &self.links[arc.link];
        if arc.onward { link.to } else { link.from }
    }

    fn room_of(&self, arc: Arc) -> u32 {
        let room = self.room[arc.link];
        if arc.onward { room } else { 2 * self.left[arc.link] - room }
    }

    // The arc by which a link leads, with room, from a household of a level to one not reached.
    fn arc_on(&self, link: usize, depth: usize) -> Option<Arc> {
        [true, false].into_iter().map(|onward| Arc { link, onward }).find(|arc| {
            self.marks[self.tail(*arc)].level == depth
                && self.marks[self.head(*arc)].level == 0
                && self.room_of(*arc) > 0
        })
    }

    // The arc by which a household was reached.
    fn arc_to(&self, household: usize) -> Arc {
        let link = self.marks[household].link;
        Arc { link, onward: self.links[link].to == household }
    }

    // Sends as much as there is room for along the path that ends with an arc from a level.
    fn send_most(&mut self, depth: usize, last: Arc) -> u32 {
        let mut amount = self.room_of(last);
        let mut household = self.tail(last);
        for _ in 1..depth {
            let arc = self.arc_to(household);
            amount = amount.min(self.room_of(arc));
            household = self.tail(arc);
        }
        self.send_along(last, amount);
        household = self.tail(last);
        for _ in 1..depth {
            let arc = self.arc_to(household);
            self.send_along(arc, amount);
            household = self.tail(arc);
        }
        amount
    }

    fn send_along(&mut self, arc: Arc, amount: u32) {
        if arc.onward {
            self.room[arc.link] -= amount;
        } else {
            self.room[arc.link] += amount;
        }
    }

    // Level by level until something is sent or no household is reached: along every path that the last level ends, or along
    // the first alone.
    fn search<const ONE_PATH: bool>(&mut self) -> u32 {
        for (household, lot) in self.lots.iter().enumerate() {
            self.marks[household] = Mark { level: (*lot == IN_A) as usize, link: 0 };
        }
        for depth in 1.. {
            let (mut grew, mut sent) = (false, 0);
            for link in 0..self.links.len() {
                let Some(arc) = self.arc_on(link, depth) else { continue };
                let household = self.head(arc);
                if self.lots[household] == IN_B {
                    sent += self.send_most(depth, arc);
                    if ONE_PATH {
                        return sent;
                    }
                } else {
                    self.marks[household] = Mark { level: depth + 1, link };
                    grew = true;
                }
            }
            if sent > 0 || !grew {
                return sent;
            }
        }
        0
    }
}

// A bound that fills in its charges and answers a number.
type Bound = fn(&Question, &mut [u32]) -> u32;

// Consults the bound below, and adds a greatest flow through what it leaves.
fn flow<const ONE_PATH: bool>(below: Bound, question: &Question, charges: &mut [u32]) -> u32 {
    let mut number = below(question, charges);
    let mut net = Net::new(question, charges);
    loop {
        let sent = net.search::<ONE_PATH>();
        if sent == 0 {
            break;
        }
        number += sent;
    }
    for (k, charge) in charges.iter_mut().enumerate() {
        *charge += net.left[k].abs_diff(net.room[k]);
    }
    number
}

// What the numbers and the charges of all questions of a size sum to, and how many microseconds one question takes.
fn time_flow<const ONE_PATH: bool>(below: Bound, size: Size) -> (u32, u32, f64) {
    let mut drawn = Drawn(7);
    let mut charges = vec![0; size.links];
    let (mut numbers, mut charged, mut seconds) = (0, 0, 0.0);
    for _ in 0..QUESTIONS {
        let question = drawn.question(size);
        let mut number = 0;
        let start = Instant::now();
        for _ in 0..TURNS {
            number = flow::<ONE_PATH>(below, black_box(&question), &mut charges);
        }
        seconds += start.elapsed().as_secs_f64();
        numbers += number;
        charged += charges.iter().sum::<u32>();
    }
    (numbers, charged, seconds * 1e6 / f64::from(QUESTIONS * TURNS))
}

fn main() {
    for share in [4, 8] {
        for (households, links) in [(32, 60), (64, 260), (128, 1022)] {
            let size = Size { households, links, share };
            for (name, below) in [("decided", decided as Bound), ("bare", bare)] {
                let (numbers, charges, micros) = time_flow::<false>(below, size);
                let (same, _, older) = time_flow::<true>(below, size);
                assert_eq!(numbers, same);
                let what = format!("{households} households, {links} links, one in {share} in each lot, flow over {name}");
                println!("{what}: numbers {numbers}, charges {charges}");
                eprintln!("{what}: {micros:.1} microseconds a question, {older:.1} with one path a search");
            }
        }
    }
}
