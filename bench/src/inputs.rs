//! What is measured: single inputs, and sweeps over one size.

use crate::calls::Call;
use crate::sheets;
use crate::tuned::Checker;
use std::cmp::Reverse;

pub struct Input {
    pub name: String,
    pub sheet: Vec<u8>,
    pub call: Call,
    /// The number that is answered.
    pub number: usize,
}

/// Inputs that differ in one size.
pub struct Sweep {
    pub title: &'static str,
    pub size: &'static str,
    pub inputs: Vec<(usize, Input)>,
}

fn admit(name: &str, sheet: Vec<u8>) -> Input {
    Input {
        name: format!("admit {name}"),
        sheet,
        call: Call::Admit,
        number: 0,
    }
}

/// The judgments of the last so many lines, as far as there are bytes for them.
pub fn judgments(sheet: &[u8], lines: usize) -> Vec<[u32; 5]> {
    let end = sheet.len().saturating_sub(16);
    let rows = sheet[end.saturating_sub(20 * lines)..end].chunks_exact(20);
    let judgment = |row: &[u8]| {
        [0, 2, 3, 4, 5].map(|j| u32::from(u16::from_le_bytes([row[2 * j], row[2 * j + 1]])))
    };
    rows.map(judgment).collect()
}

/// The normal term with the most nodes.
fn largest_normal(sheet: &[u8]) -> usize {
    let mut checker = Checker::new();
    let mut sizes = [0; 3072];
    let terms = checker.admit(sheet, &mut sizes).values[0];
    let mut order: Vec<usize> = (0..terms).collect();
    order.sort_by_key(|&term| Reverse(sizes[term]));
    let is_normal = |&term: &usize| checker.normal(sheet, term, &mut sizes).values[0] == 1;
    order.into_iter().find(is_normal).expect("a normal term")
}

impl Input {
    /// T, C and L.
    pub fn counts(&self) -> [usize; 3] {
        let trailer = &self.sheet[self.sheet.len() - 16..];
        [0, 2, 4].map(|j| usize::from(u16::from_le_bytes([trailer[j], trailer[j + 1]])))
    }

    /// Another call on the sheet that is admitted.
    fn with(&self, word: &str, call: Call) -> Input {
        Input {
            name: self.name.replacen("admit", word, 1),
            sheet: self.sheet.clone(),
            call,
            number: 0,
        }
    }

    /// The question whether the normal term with the most nodes is normal.
    fn normal(&self) -> Input {
        self.with("normal in", Call::Normal(largest_normal(&self.sheet)))
    }

    /// A search for the last line's judgment.
    fn find(&self) -> Input {
        self.with("find in", Call::Find(judgments(&self.sheet, 1)[0]))
    }

    /// Finding a batch of judgments, those of lines that lie evenly in the sheet: at once, one by one, and at once with
    /// another s3, so that no line states them.
    fn batches(&self) -> [Input; 3] {
        let [_, _, lines] = self.counts();
        let all = judgments(&self.sheet, lines);
        let stated = |i: usize| all[(2 * i + 1) * lines / (2 * BATCH)];
        let stated: Vec<[u32; 5]> = (0..BATCH).map(stated).collect();
        let absent: Vec<[u32; 5]> = stated
            .iter()
            .map(|&[form, context, s1, s2, _]| [form, context, s1, s2, 0xFFFF])
            .collect();
        let input = |word: &str, call| self.with(&format!("find {word} in"), call);
        [
            input(&format!("batch of {BATCH}"), Call::FindAll(stated.concat())),
            input(
                &format!("{BATCH} singly"),
                Call::FindSingly(stated.concat()),
            ),
            input(
                &format!("batch of {BATCH} absent"),
                Call::FindAll(absent.concat()),
            ),
        ]
    }

    /// A set of so many lines that no other line cites: from the last line down those that can be in it, but for each
    /// fourth of them, so that there are gaps.
    fn closed(&self, count: usize) -> Vec<usize> {
        let [_, _, lines] = self.counts();
        let end = self.sheet.len() - 16;
        let rows = self.sheet[end - 20 * lines..end].chunks_exact(20);
        let mut needed = vec![false; lines];
        let (mut set, mut free) = (Vec::new(), 0);
        for (line, row) in rows.enumerate().rev() {
            free += usize::from(!needed[line]);
            if !needed[line] && free % 4 > 0 && set.len() < count {
                set.push(line);
                continue;
            }
            for premise in row[12..].chunks_exact(2) {
                needed[usize::from(u16::from_le_bytes([premise[0], premise[1]]))] = true;
            }
        }
        set.reverse();
        set
    }

    /// Withdrawals of sets: the last line, a hundred lines, all lines but the first; and every other line, which is
    /// refused.
    fn sets(&self) -> [Input; 4] {
        let [_, _, lines] = self.counts();
        let set = |list: Vec<usize>| {
            let word = format!("withdraw set of {} from", list.len());
            self.with(&word, Call::WithdrawSet(list))
        };
        let every_other = Call::WithdrawSet((0..lines).step_by(2).collect());
        let refused = Input {
            number: 12,
            ..self.with("withdraw set refused with 12 from", every_other)
        };
        [
            set(vec![lines - 1]),
            set(self.closed(100)),
            set((1..lines).collect()),
            refused,
        ]
    }

    fn convert(&self) -> Input {
        self.with("convert", Call::Convert)
    }

    /// The lines that conversion adds a motive to.
    pub fn inductions(&self) -> usize {
        let [_, _, lines] = self.counts();
        let end = self.sheet.len() - 16;
        let rows = self.sheet[end - 20 * lines..end].chunks_exact(20);
        rows.filter(|row| matches!(row[2..4], [33 | 34, 0])).count()
    }

    /// The admission, a search for the last line's judgment, the withdrawal of the last line, the conversion, and
    /// `normal`.
    fn all_calls(self) -> [Input; 5] {
        let [_, _, lines] = self.counts();
        let find = self.find();
        let withdraw = self.with("withdraw from", Call::Withdraw(lines - 1));
        let convert = self.convert();
        let normal = self.normal();
        [self, find, withdraw, convert, normal]
    }
}

/// How many judgments a batch has.
pub const BATCH: usize = 64;

/// A sheet by doublings, terms and lines.
type Build = fn(u32, usize, usize) -> Vec<u8>;

/// The doublings that give nearly 65,535 nodes.
const LARGEST: u32 = 13;

pub fn single() -> Vec<Input> {
    let typical = admit("typical", sheets::typical());
    let full = admit("full", sheets::plausible(3072, 256, 1024));
    let mut all = vec![admit("S", sheets::sample())];
    let batches = typical.batches();
    all.extend(typical.all_calls());
    all.extend(batches);
    let (batches, sets) = (full.batches(), full.sets());
    all.extend(full.all_calls());
    all.extend(batches);
    all.extend(sets);
    let restated = admit("restated", sheets::restated(64, 1024));
    let [batch, ..] = restated.batches();
    let find = restated.find();
    all.extend([restated, find, batch]);
    all.push(admit("equal heads", sheets::equal_heads(3072, 256, 1024)));
    all.push(admit("one bucket", sheets::one_bucket()));
    all.push(admit("deep context", sheets::deep_context(252)));
    all.push(admit("deep binders", sheets::deep_binders(100, 13)));
    let trees: [(&str, Build); 4] = [
        ("applications, closed tree", sheets::applications),
        ("beta steps, open tree", sheets::beta_steps),
        ("induction steps, large motive", sheets::induction_steps),
        (
            "induction steps, motive cited",
            sheets::induction_steps_cited,
        ),
    ];
    all.extend(trees.map(|(name, build)| admit(name, build(LARGEST, 3072, 1024))));
    all.extend(sheets::inductions().into_iter().flat_map(|(name, sheet)| {
        let admission = admit(name, sheet);
        let conversion = admission.convert();
        [admission, conversion]
    }));
    all.push(admit("normalisation", sheets::normalisation(3072, 1024)));
    all.push(admit(
        "normalisation steps, open tree",
        sheets::normalisation_steps(3072, 1024),
    ));
    all.extend(normal_terms());
    all
}

/// Sheets with normal terms that are long to walk: the admission, and the question about the largest of them.
fn normal_terms() -> Vec<Input> {
    let sheets = [
        ("doubled pairs", sheets::doubled_pairs()),
        ("nested arguments", sheets::nested_arguments(3072)),
        ("nested motives", sheets::nested_motives(3072)),
        ("shared function", sheets::shared_function(31, 3072)),
    ];
    let asked = |(name, sheet)| {
        let admission = admit(name, sheet);
        let normal = admission.normal();
        [admission, normal]
    };
    sheets.into_iter().flat_map(asked).collect()
}

pub fn sweeps() -> Vec<Sweep> {
    let mut all = count_sweeps();
    all.extend(tree_sweeps());
    all
}

/// Sweeps over T and over L.
fn count_sweeps() -> Vec<Sweep> {
    vec![
        sweep(
            "terms, plausible rows (C = 64, L = 256)",
            "T",
            &[384, 768, 1536, 3072],
            |t| sheets::plausible(t, 64, 256),
        ),
        sweep(
            "terms, equal heads (C = 0, L = 0)",
            "T",
            &[384, 768, 1536, 3072],
            |t| sheets::equal_heads(t, 0, 0),
        ),
        sweep(
            "lines, plausible (T = 1,536, C = 64)",
            "L",
            &[128, 256, 512, 1024],
            |l| sheets::plausible(1536, 64, l),
        ),
        sweep(
            "lines, induction steps at trees of 8,060 nodes (T = 3,072)",
            "L",
            &[256, 512, 768, 1024],
            |l| sheets::induction_steps(10, 3072, l),
        ),
    ]
}

/// Sweeps over the nodes of the large trees.
fn tree_sweeps() -> Vec<Sweep> {
    vec![
        tree_sweep(
            "tree size, induction steps (T = 3,072, L = 256)",
            sheets::induction_steps,
            &[7, 8, 9, 10, 11, 12, LARGEST],
        ),
        tree_sweep(
            "tree size, beta steps (T = 3,072, L = 256)",
            sheets::beta_steps,
            &[7, 10, LARGEST],
        ),
        tree_sweep(
            "tree size, applications (T = 3,072, L = 256)",
            sheets::applications,
            &[7, 10, LARGEST],
        ),
    ]
}

fn tree_sweep(title: &'static str, build: Build, doublings: &[u32]) -> Sweep {
    let inputs = doublings.iter().map(|&d| {
        let sheet = build(d, 3072, 256);
        (sheets::large_nodes(d), admit("", sheet))
    });
    Sweep {
        title,
        size: "nodes",
        inputs: inputs.collect(),
    }
}

fn sweep(
    title: &'static str,
    size: &'static str,
    sizes: &[usize],
    build: fn(usize) -> Vec<u8>,
) -> Sweep {
    let inputs = sizes.iter().map(|&n| (n, admit("", build(n))));
    Sweep {
        title,
        size,
        inputs: inputs.collect(),
    }
}
