//! Runs the dispatcher's C functions beside a model of document 02 (CR 13) on random steps, and times them; see README.md.
use generator::Random;
use std::collections::VecDeque;
use std::env;
use std::hint::black_box;
use std::time::{Duration, Instant};

const QUEUES: usize = 32;
const MOST: usize = 16;
const WORDS: usize = 577;
/// What stands around lent words.
const BLANK: u32 = 0xA5C3_96E1;
const ROOM: usize = 64;

unsafe extern "C" {
    fn cenguatu_add(words: *mut u32, queue: u32, item: u32) -> u32;
    fn cenguatu_take(words: *mut u32, got: *mut u32) -> u32;
}

fn add(words: &mut [u32; WORDS], queue: u32, item: u32) -> u32 {
    // Safety: the words are valid for the call.
    unsafe { cenguatu_add(words.as_mut_ptr(), queue, item) }
}

fn take(words: &mut [u32; WORDS], got: &mut [u32; 3]) -> u32 {
    // Safety: both are valid for the call and don't overlap.
    unsafe { cenguatu_take(words.as_mut_ptr(), got.as_mut_ptr()) }
}

/// Document 02, as it is written: queues, and the one served last.
#[derive(Clone)]
struct Model {
    queues: Vec<VecDeque<u32>>,
    last: Option<usize>,
    /// For each queue the takes since it waits or was served.
    waited: [u32; QUEUES],
}

impl Model {
    fn new() -> Self {
        Self { queues: vec![VecDeque::new(); QUEUES], last: None, waited: [0; QUEUES] }
    }

    /// The state that any words are: places modulo 16, up to 16 items, the one served last modulo 32.
    fn of(words: &[u32]) -> Self {
        let queue = |q: usize| {
            let count = (words[544 + q] as usize).min(MOST);
            (0..count).map(|i| words[q * 16 + (words[512 + q] as usize + i) % 16]).collect()
        };
        let last = words[576].checked_sub(1).map(|q| q as usize % QUEUES);
        Self { queues: (0..QUEUES).map(queue).collect(), last, waited: [0; QUEUES] }
    }

    fn add(&mut self, queue: u32, item: u32) -> u32 {
        let Some(items) = self.queues.get_mut(queue as usize) else { return 13 };
        if items.len() == MOST {
            return 14;
        }
        items.push_back(item);
        0
    }

    /// What `cenguatu_take` answers, and its three words.
    fn take(&mut self) -> (u32, [u32; 3]) {
        let begin = self.last.map_or(0, |q| q + 1);
        for steps in 1..=QUEUES {
            let q = (begin + steps - 1) % QUEUES;
            if let Some(item) = self.queues[q].pop_front() {
                self.last = Some(q);
                self.count(q);
                return (1, [q as u32, item, steps as u32]);
            }
        }
        (0, [0, 0, QUEUES as u32])
    }

    /// Every queue that waits is served within 32 takes.
    fn count(&mut self, served: usize) {
        for q in 0..QUEUES {
            self.waited[q] = if q == served || self.queues[q].is_empty() { 0 } else { self.waited[q] + 1 };
            assert!(self.waited[q] < 32, "queue {q} waits longer than 32 takes");
        }
    }
}

/// Lent words with others around them.
struct Lent<const N: usize>(Vec<u32>);

impl<const N: usize> Lent<N> {
    fn new() -> Self {
        let mut words = vec![BLANK; ROOM + N + ROOM];
        words[ROOM..ROOM + N].fill(0);
        Self(words)
    }

    fn words(&mut self) -> &mut [u32; N] {
        (&mut self.0[ROOM..ROOM + N]).try_into().unwrap()
    }

    fn whole(&self) -> bool {
        self.0[..ROOM].iter().chain(&self.0[ROOM + N..]).all(|&word| word == BLANK)
    }
}

#[derive(Default, Debug)]
struct Counts {
    done: u64,
    refused13: u64,
    refused14: u64,
    served: u64,
    none: u64,
    states: u64,
    longest: u32,
}

fn main() {
    let mut args = env::args().skip(1).map(|arg| arg.parse::<u64>().expect("a number"));
    let (count, seed) = (args.next().unwrap_or(1_000_000), args.next().unwrap_or(1));
    let mut random = Random::new(seed);
    let mut counts = Counts::default();
    // Half of the steps from the empty state, the others a thousand at a time from any words.
    run(&mut random, Model::new(), &mut Lent::new(), count / 2, &mut counts);
    let mut left = count - count / 2;
    while left > 0 {
        let mut lent = Lent::new();
        lent.words().fill_with(|| random.word() >> random.pick(&[0, 16, 27, 28, 31]));
        let steps = left.min(1000);
        run(&mut random, Model::of(lent.words()), &mut lent, steps, &mut counts);
        left -= steps;
    }
    println!("{count} steps of seed {seed}, no difference: {counts:?}");
    times();
}

/// Steps on the words beside the model: adds and takes in changing shares, to few queues or to all.
fn run(random: &mut Random, mut model: Model, lent: &mut Lent<WORDS>, steps: u64, counts: &mut Counts) {
    let mut got = Lent::<3>::new();
    let (mut adds, mut few) = (0, 1);
    counts.states += 1;
    for step in 0..steps {
        if step % 256 == 0 {
            (adds, few) = (random.pick(&[10, 50, 52, 60, 95]), random.pick(&[1, 2, 5, 32]));
        }
        let before = *lent.words();
        let changed = if random.below(100) < adds {
            let item = random.word();
            let queue = if random.one_in(50) { random.pick(&[32, 33, 255, u32::MAX, item]) } else { random.below(few) * (32 / few) };
            let answer = add(lent.words(), queue, item);
            assert_eq!(answer, model.add(queue, item), "step {step}: add {queue} {item}");
            *[&mut counts.done, &mut counts.refused13, &mut counts.refused14][[0, 13, 14].iter().position(|&n| n == answer).unwrap()] += 1;
            answer == 0
        } else {
            let answer = (take(lent.words(), got.words()), *got.words());
            assert_eq!(answer, model.take(), "step {step}: take");
            *[&mut counts.none, &mut counts.served][answer.0 as usize] += 1;
            counts.longest = counts.longest.max(answer.1[2]);
            answer.0 == 1
        };
        assert!(changed || before == *lent.words(), "step {step}: a refusal, or a take where none waits, altered the words");
        assert!(lent.whole() && got.whole(), "step {step}: a word beside those lent was altered");
        if step % 64 == 0 {
            let now = Model::of(lent.words());
            assert!(now.queues == model.queues && now.last == model.last, "step {step}: the words are another state");
        }
    }
}

/// Nanoseconds a call, the least of some readings: prepared states, and so many calls on each.
fn time(what: &str, state: &[u32; WORDS], calls: usize, mut job: impl FnMut(&mut [u32; WORDS], usize)) {
    let mut least = Duration::MAX;
    let mut states = vec![*state; 64];
    for _ in 0..2000 {
        states.fill(*state);
        let begin = Instant::now();
        for words in &mut states {
            for i in 0..calls {
                job(black_box(&mut *words), i);
            }
        }
        least = least.min(begin.elapsed());
    }
    println!("{what}: {:.1} ns", least.as_nanos() as f64 / (64 * calls) as f64);
}

fn times() {
    let empty = [0; WORDS];
    let (mut full, mut far) = (empty, empty);
    for i in 0..512 {
        add(&mut full, i % 32, i);
    }
    for i in 0..16 {
        add(&mut far, 31, i);
    }
    let mut got = [0; 3];
    time("add", &empty, 512, |words, i| assert_eq!(black_box(add(words, i as u32 % 32, 7)), 0));
    time("add, refused 13", &full, 512, |words, _| assert_eq!(black_box(add(words, 32, 7)), 13));
    time("add, refused 14", &full, 512, |words, i| assert_eq!(black_box(add(words, i as u32 % 32, 7)), 14));
    time("take, 1 step", &full, 512, |words, _| assert_eq!(black_box(take(words, &mut got)), 1));
    time("take, 32 steps", &far, 16, |words, _| assert_eq!(black_box(take(words, &mut got)), 1));
    time("take, none waits", &empty, 512, |words, _| assert_eq!(black_box(take(words, &mut got)), 0));
}
