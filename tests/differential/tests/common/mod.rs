//! What several tests ask.

mod answers;

use answers::answer;
use differential::compare::Call;
use differential::generate::arrange::needed;
use differential::generate::derivation::Line;
use differential::generate::encode::{encode, Style};
use differential::generate::maker::Maker;
use differential::random::Random;

/// Whether the line is admitted behind what it rests on; if not, it is refused by 10.
pub fn is_admitted(maker: &mut Maker, line: Line) -> bool {
    let mut lines = maker.d.lines.clone();
    lines.push(line);
    let lines = needed(&lines, &[lines.len() - 1]);
    let style = Style {
        edition: maker.d.edition,
        ..Style::default()
    };
    let sheet = encode(&mut maker.d.terms, &lines, style, &mut Random::new(0));
    let answer = answer(&sheet, Call::Admit, 0);
    let refused = (answer.number, answer.values[0]) == (10, lines.len() - 1);
    assert!(answer.number == 0 || refused, "{answer:?}");
    !refused
}
