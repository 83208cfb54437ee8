// What the original says of a title, as the lines of the list program, into FILE: `lines DIR FILE`. Printed is a line for each rule by which what
// is listed is not the original's own answer: how often, and the rule. A file that the list program does not take is refused by rule, as the
// original takes files of every length and is given no missing one. The list program names stream 0: where others are on a cue's walk, the
// original is asked about a copy with their ids set to 00. About an index of no bytes the original is not asked: the cue of empty.rs is listed. The
// number of a refused index is the one that the comparison of index texts asks for. A cue with too many bands, by limit.rs, is listed as refused
// with 34, and one that the original shows and that has a time outside signed 64 bits, by times.rs, as refused with 33.
use oracle::class::tried;
use oracle::classes::idx::{ANY, Asked, Expected, asked, far, far_duration};
use oracle::side::{Delays, Spot, number_of};
use oracle::walk::walk;
use std::collections::BTreeMap;
use std::fs::{self, File};
use std::io::Read;
use std::path::{Path, PathBuf};
use std::process::exit;

// The longest file that the list program takes.
const LONGEST: u64 = 65_536;
const TOO_LONG: &str = "file refused: a file of more than 65,536 bytes";
const UNREAD: &str = "file refused: a file is missing, or cannot be read";

fn bytes_of(path: &Path) -> Result<Vec<u8>, &'static str> {
    let mut bytes = Vec::new();
    let size = File::open(path).and_then(|file| file.take(LONGEST + 1).read_to_end(&mut bytes)).map_err(|_| UNREAD)?;
    if size as u64 > LONGEST { Err(TOO_LONG) } else { Ok(bytes) }
}

#[derive(Default)]
struct Lines {
    text: String,
    rules: BTreeMap<&'static str, usize>,
}

impl Lines {
    fn add(&mut self, line: String) {
        self.text += &line;
        self.text.push('\n');
    }

    // The rule is counted; whether there is one.
    fn by(&mut self, rule: Option<&'static str>) -> bool {
        rule.map(|rule| *self.rules.entry(rule).or_default() += 1).is_some()
    }

    fn list(&mut self, folder: &Path) {
        let [text, file] = ["title.idx", "title.sub"].map(|name| bytes_of(&folder.join(name)));
        let (text, file) = match (text, file) {
            (Ok(text), Ok(file)) => (text, file),
            (Err(rule), _) | (_, Err(rule)) => {
                self.by(Some(rule));
                return self.add("file refused".into());
            }
        };
        let side = oracle::original::adapter::SIDE;
        self.by(side.empty.rule(&text));
        let Asked { expected, panicked, .. } = asked(&side, &text, ANY);
        let index = match expected {
            Expected::Given(index) => index,
            Expected::Refused(number, rule) => {
                // a panic that no rule covers is no answer
                assert!(self.by(rule) || panicked.is_none(), "{panicked:?}");
                return self.add(format!("index refused {number}"));
            }
        };
        self.add(format!("cues {}", index.cues.len()));
        for (n, &(start, position)) in index.cues.iter().enumerate() {
            let position = position as usize;
            let walk = walk(&file, position, 0);
            self.by(walk.rule());
            let unit = match (side.spot)(&walk.copy(&file), position) {
                Spot::Skipped => Err(12),
                Spot::None { .. } => Err(13),
                Spot::Unit { unit, .. } => Ok(unit),
            };
            let shown = unit.and_then(|unit| {
                let counts = oracle::counted(|| (side.counting.unit)(&unit));
                let decoded = (side.unit)(&unit).map_err(|words| number_of(&words));
                if self.by(side.limit.rule(counts, decoded.as_ref().err().copied().unwrap_or(0))) {
                    return Err(34);
                }
                let decoded = decoded?;
                let leaves = self.by(side.times.rule(Delays::of(start, &decoded, counts)));
                if leaves { Err(33) } else { Ok((decoded, counts.codes)) }
            });
            let line = match shown {
                Ok((d, codes)) => {
                    let next = index.cues.get(n + 1).map(|c| c.0);
                    let duration = tried(|| (side.duration)(start, next)).unwrap_or_else(|words| {
                        assert!(self.by(far(&words)), "{words}");
                        far_duration(start, next)
                    });
                    let duration = duration.map_or("-".to_string(), |d| d.to_string());
                    format!("{n} {start} {duration} {} {} {} {} {} {} {codes}", d.numbers[0], d.numbers[1], d.width, d.height, d.numbers[7], d.numbers[9])
                }
                Err(number) => format!("{n} refused {number}"),
            };
            self.add(line);
        }
    }
}

fn main() {
    let words: Vec<PathBuf> = std::env::args_os().skip(1).map(PathBuf::from).collect();
    let [folder, path] = &words[..] else {
        eprintln!("usage: lines DIR FILE");
        exit(2)
    };
    // a panic of the original is an answer, or is told in a line
    std::panic::set_hook(Box::new(|_| {}));
    let mut lines = Lines::default();
    if let Err(words) = tried(|| lines.list(folder)) {
        eprintln!("lines: a panic on {}: {words}", folder.display());
        exit(2);
    }
    if let Err(error) = fs::write(path, &lines.text) {
        eprintln!("lines: {}: {error}", path.display());
        exit(2);
    }
    for (rule, count) in &lines.rules {
        println!("{count} {rule}");
    }
}
