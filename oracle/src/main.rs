// The differential run. See `usage`.
use oracle::class::{Class, Outcome, Request, World, hex};
use oracle::classes;
use oracle::random::Random;
use oracle::side::Side;
use std::collections::BTreeMap;
use std::time::{Duration, Instant};

const USAGE: &str = "oracle [--seed N] [--seconds N] [--count N] [--class NAME] [--only I] [--mutants]
oracle --ask CLASS HEX [N N N N]

  --seed N      the seed of the generated requests (else 1, or with --seconds one from the clock)
  --count N     generated requests a class (else 400000), of titles a quarter
  --seconds N   generate requests for N seconds in all, instead of a number of them
  --class NAME  one class only
  --only I      generated request number I of each class only, printed
  --ask         one request: its bytes in hexadecimal without blanks (or -), and its numbers, whose meaning the class's source says
  --mutants     run each wrong copy of the original until it is noticed

Exit status 1 where the two sides differ, where a class is too thin, or where a wrong copy is not noticed.";

// Generated requests a class in the short run.
const COUNT: u64 = 400_000;

// A panic of the original is a difference too, but where a rule says that the original was not followed.
fn differs(o: &Outcome) -> Option<String> {
    o.differs.clone().or_else(|| o.panicked.clone().filter(|_| o.rule.is_none()).map(|words| format!("the original panicked: {words}")))
}

#[derive(Default)]
struct Tally {
    fixed: u64,
    generated: u64,
    differ: u64,
    both: u64,
    both_generated: u64,
    refusals: BTreeMap<u8, u64>,
    refusals_generated: BTreeMap<u8, u64>,
    rules: BTreeMap<&'static str, u64>,
    // how many requests are under no rule, one, two and three
    under: [u64; 4],
    met: BTreeMap<&'static str, u64>,
    met_generated: BTreeMap<&'static str, u64>,
    panics: BTreeMap<String, (u64, Request)>,
}

impl Tally {
    fn note(&mut self, class: &Class, name: &str, generated: bool, q: &Request, o: Outcome) {
        if generated { self.generated += 1 } else { self.fixed += 1 }
        self.both += o.both as u64;
        self.both_generated += (o.both && generated) as u64;
        *self.refusals.entry(o.refusal).or_default() += 1;
        if generated {
            *self.refusals_generated.entry(o.refusal).or_default() += 1;
        }
        for rule in o.rules() {
            *self.rules.entry(rule).or_default() += 1;
        }
        self.under[o.rules().count()] += 1;
        for &what in &o.met {
            *self.met.entry(what).or_default() += 1;
            *self.met_generated.entry(what).or_default() += generated as u64;
        }
        let what = differs(&o);
        if let Some(words) = o.panicked {
            // the words without their numbers, so that one place in the code is one entry
            let key: String = words.replace('\n', " ").chars().filter(|c| !c.is_ascii_digit()).collect();
            let entry = self.panics.entry(key).or_insert((0, q.clone()));
            entry.0 += 1;
            if (q.bytes.len(), q.n) < (entry.1.bytes.len(), entry.1.n) {
                entry.1 = q.clone();
            }
        }
        if let Some(what) = what {
            self.differ += 1;
            if self.differ <= 5 {
                println!("DIFFERS {} {name}: {what}\n  numbers {:?}\n  bytes {}", class.name, q.n, hex(&q.bytes));
            }
        }
    }

    fn print(&self, class: &Class, seconds: f64, thin: bool) -> bool {
        println!("{}: {} compared ({} fixed, {} generated), {} differ, {:.1} s", class.name, self.fixed + self.generated, self.fixed, self.generated, self.differ, seconds);
        println!("    accepted by both {} ({:.1}% of the generated)", self.both, 100.0 * self.both_generated as f64 / self.generated.max(1) as f64);
        let refused: Vec<String> = self.refusals.iter().map(|(n, c)| if *n == 0 { format!("accepted {c}") } else { format!("{n}: {c}") }).collect();
        println!("    the port's answers: {}", refused.join(", "));
        for (rule, count) in &self.rules {
            println!("    by rule, {count}: {rule}");
        }
        let [_, one, two, three] = self.under;
        if two + three > 0 {
            let more = if three > 0 { format!(" and {three} under three") } else { String::new() };
            println!("    by rule in all, {}, as {two} are under two{more}", one + two + three);
        }
        for (what, count) in &self.met {
            println!("    met {count} times, {} of them generated: {what}", self.met_generated[what]);
        }
        for (words, (count, q)) in &self.panics {
            println!("    the original panicked {count} times: {words}; smallest {:?} {}", q.n, hex(&q.bytes));
        }
        let mut whole = true;
        if thin {
            for n in class.refusals {
                let met = self.refusals_generated.get(n).copied().unwrap_or(0);
                if met < 50 {
                    println!("    THIN: refusal {n} was met {met} times");
                    whole = false;
                }
            }
            let rarer = class.rarer.iter().copied().flatten().filter(|_| self.generated >= COUNT / class.dear);
            for what in class.met.iter().chain(rarer) {
                let met = self.met_generated.get(what).copied().unwrap_or(0);
                if met < 300 {
                    println!("    THIN: met {met} times in the generated: {what}");
                    whole = false;
                }
            }
            if class.accepted && self.both_generated * 4 < self.generated {
                println!("    THIN: less than a quarter accepted by both");
                whole = false;
            }
        }
        whole && self.differ == 0
    }
}

fn main() {
    let mut words = std::env::args().skip(1);
    let (mut seed, mut seconds, mut count, mut one, mut only, mut mutants) = (None, None, COUNT, None, None, false);
    while let Some(word) = words.next() {
        let mut number = || words.next().and_then(|w| w.parse::<u64>().ok()).unwrap_or_else(|| usage());
        match word.as_str() {
            "--seed" => seed = Some(number()),
            "--seconds" => seconds = Some(number()),
            "--count" => count = number(),
            "--only" => only = Some(number()),
            "--class" => one = Some(words.next().unwrap_or_else(|| usage())),
            "--mutants" => mutants = true,
            "--ask" => return ask(&words.collect::<Vec<_>>()),
            _ => usage(),
        }
    }
    let clock = std::time::SystemTime::now().duration_since(std::time::UNIX_EPOCH).map_or(1, |d| d.as_nanos() as u64 % 1_000_000_007);
    let seed = seed.unwrap_or(if seconds.is_some() { clock } else { 1 });
    // a panic of the original is an answer, and is counted
    std::panic::set_hook(Box::new(|_| {}));
    let world = World::new();
    let classes: Vec<Class> = classes::all().into_iter().filter(|c| one.as_deref().is_none_or(|name| name == c.name)).collect();
    if classes.is_empty() {
        usage();
    }
    println!("seed {seed}, {} real units", world.units.len());
    if mutants {
        std::process::exit(try_mutants(&world, &classes, seed) as i32);
    }
    let side = oracle::original::adapter::SIDE;
    let mut good = true;
    let (mut all, mut differ) = (0, 0);
    for class in &classes {
        let mut tally = Tally::default();
        let start = Instant::now();
        if let Some(i) = only {
            let q = (class.generate)(&world, &mut Random::of(seed, class.name, i));
            println!("{} {i}: numbers {:?}, bytes {}", class.name, q.n, hex(&q.bytes));
            tally.note(class, &i.to_string(), true, &q, (class.compare)(&side, &q));
        } else {
            (class.fixed)(&world, &mut |q| {
                let o = (class.compare)(&side, &q);
                tally.note(class, "fixed", false, &q, o);
            });
            let until = seconds.map(|s| start + Duration::from_secs_f64(s as f64 / classes.len() as f64));
            let mut i = 0;
            while until.map_or(i < count / class.dear, |t| i < 20_000 || Instant::now() < t) {
                let q = (class.generate)(&world, &mut Random::of(seed, class.name, i));
                tally.note(class, &i.to_string(), true, &q, (class.compare)(&side, &q));
                i += 1;
            }
        }
        good &= tally.print(class, start.elapsed().as_secs_f64(), only.is_none() && tally.generated >= 20_000);
        all += tally.fixed + tally.generated;
        differ += tally.differ;
    }
    println!("seed {seed}: {all} compared, {differ} differ");
    std::process::exit(!good as i32);
}

// One request, and what both sides say.
fn ask(words: &[String]) {
    let [class, bytes, numbers @ ..] = words else { usage() };
    let Some(class) = classes::all().into_iter().find(|c| c.name == class) else { usage() };
    let digits: Vec<u8> = bytes.bytes().filter(|&b| b != b'-').map(|b| (b as char).to_digit(16).unwrap_or_else(|| usage()) as u8).collect();
    let mut q = Request { bytes: digits.chunks(2).map(|p| p[0] << 4 | p.get(1).unwrap_or(&0)).collect(), n: [0; 4] };
    for (n, word) in q.n.iter_mut().zip(numbers) {
        *n = word.parse().unwrap_or_else(|_| usage());
    }
    std::panic::set_hook(Box::new(|_| {}));
    let o = (class.compare)(&oracle::original::adapter::SIDE, &q);
    println!("the port says {}; accepted by both: {}", o.refusal, o.both);
    for rule in o.rules() {
        println!("rule: {rule}");
    }
    for (name, what) in [("the original panicked", o.panicked), ("DIFFERS", o.differs)] {
        if let Some(what) = what {
            println!("{name}: {what}");
        }
    }
}

// How many wrong copies were not noticed.
fn try_mutants(world: &World, classes: &[Class], seed: u64) -> usize {
    let mut missed = 0;
    for (what, side) in oracle::MUTANTS {
        match noticed(world, classes, seed, side) {
            Some((class, number)) => println!("noticed by {class}, after {number} requests: {what}"),
            None => {
                println!("NOT NOTICED: {what}");
                missed += 1;
            }
        }
    }
    println!("{} wrong copies, {missed} not noticed", oracle::MUTANTS.len());
    missed
}

fn noticed(world: &World, classes: &[Class], seed: u64, side: &Side) -> Option<(&'static str, u64)> {
    for class in classes {
        for i in 0..20_000 {
            let q = (class.generate)(world, &mut Random::of(seed, class.name, i));
            let o = (class.compare)(side, &q);
            if differs(&o).is_some() {
                return Some((class.name, i + 1));
            }
        }
    }
    // what no generated request shows, a fixed one may
    for class in classes {
        let (mut number, mut first) = (0, None);
        (class.fixed)(world, &mut |q| {
            number += 1;
            if first.is_none() && differs(&(class.compare)(side, &q)).is_some() {
                first = Some(number);
            }
        });
        if let Some(number) = first {
            return Some((class.name, number));
        }
    }
    None
}

fn usage() -> ! {
    eprintln!("{USAGE}");
    std::process::exit(2)
}
