//! The list of `fielddiff` by what each line means, over all fields of both
//! files.

use super::*;
use reference::fielddiff;

/// All fields of a file, as far as they can be read, and the number that it is
/// refused with at the next one.
struct Fields {
    fields: Vec<(u32, u8, Vec<Vec<u16>>)>,
    refused: Option<u8>,
}

fn naive_fields(file: &[u8]) -> Fields {
    let (mut fields, mut at) = (Vec::new(), 5);
    loop {
        match naive_field(file, at) {
            Ok((field, cells)) => {
                let records = naive_list(&cells).unwrap();
                let records = records.into_iter().map(<[u16]>::to_vec).collect();
                fields.push((field.timestamp, field.f, records));
                at = field.next;
            }
            Err((number, _)) => {
                let refused = Some(number).filter(|&number| number != 54);
                return Fields { fields, refused };
            }
        }
    }
}

/// Every line that could stand there, in order, if it should.
fn naive_list_of(left: &Fields, right: &Fields) -> String {
    let mut text = String::new();
    let mut line = |stands: bool, line: String| {
        if stands {
            text += &(line + "\n");
        }
    };
    let [l, r] = [left, right].map(|side| side.fields.len());
    // Where a side is refused nothing more is listed.
    let ends = |side: &Fields| side.refused.map_or(usize::MAX, |_| side.fields.len());
    let end = ends(left).min(ends(right));
    for i in 0..l.max(r).min(end) {
        line(i >= r, format!("{i} only left"));
        line(i >= l, format!("{i} only right"));
        if i >= l || i >= r {
            continue;
        }
        let ((ts, f, a), (other_ts, other_f, b)) = (&left.fields[i], &right.fields[i]);
        line(ts != other_ts, format!("{i} ts {ts} {other_ts}"));
        line(f != other_f, format!("{i} f {f} {other_f}"));
        let (m, n) = (a.len(), b.len());
        line(m != n, format!("{i} records {m} {n}"));
        for j in 0..m.min(n) {
            for k in 0..a[j].len().min(b[j].len()) {
                let (x, y) = (a[j][k], b[j][k]);
                line(x != y, format!("{i} {j} {k} {x} {y}"));
            }
        }
    }
    if end < usize::MAX {
        let number = |side: &Fields| match side.refused {
            Some(number) if side.fields.len() == end => number.to_string(),
            _ => "-".to_string(),
        };
        line(
            true,
            format!("{end} refused {} {}", number(left), number(right)),
        );
    }
    text
}

#[test]
fn differences() {
    let mut r = Random::new(55);
    let mut alike = 0;
    for _ in 0..6_000 {
        let (left, right) = file_pair(&mut r);
        let [ours, theirs] = [&left, &right].map(|file| naive_fields(file));
        let text = fielddiff(&left, &right);
        assert_eq!(text, naive_list_of(&ours, &theirs));
        // Empty exactly when neither is refused and both hold equal fields.
        let refused = ours.refused.is_some() || theirs.refused.is_some();
        assert_eq!(text.is_empty(), !refused && ours.fields == theirs.fields);
        alike += text.is_empty() as usize;
    }
    assert!((500..5_000).contains(&alike));
}
