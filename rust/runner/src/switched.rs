//! Which gates a row of the constant columns switches on, by the original's paths: "A path product
//! multiplies, in the field, s for a 1 and 1−s for a 0, s the row's words in the constant buffer's
//! columns 0, 1, ...; an empty path's is 1."
use model::field::{mul, sub};

/// A gate's path, none for one without selector.
type Selection = Option<Vec<bool>>;

/// A row's path product; `word` gives its word in a column.
fn product(path: &[bool], word: impl Fn(usize) -> u64) -> u64 {
    let mut all = 1;
    for (column, left) in path.iter().enumerate() {
        all = mul(all, if *left { word(column) } else { sub(1, word(column)) });
        if all == 0 {
            break;
        }
    }
    all
}

/// The gate on the all-0 path; "where one gate is placed, its empty path counts as that path".
fn all_0(paths: &[Selection]) -> Option<usize> {
    paths.iter().position(|path| path.as_ref().is_some_and(|steps| !steps.contains(&true)))
}

/// Whether 02 refuses a row of this gate: it has no selector, and the all-0 path is not a kind 1
/// gate's.
pub fn barred(gates: &[[u64; 3]], paths: &[Selection], gate: usize) -> bool {
    paths[gate].is_none() && all_0(paths).is_none_or(|end| gates[end][0] != 1)
}

/// What is wrong with the gates that a circuit's rows switch on, if anything: a row whose gate is
/// placed switches on that gate and no other, one without selector the gate on the all-0 path;
/// "in every row no evaluated gate is on but the row's own".
pub fn wrong(
    gates: &[[u64; 3]],
    paths: &[Selection],
    rows: impl Iterator<Item = u64>,
    constants: &[Vec<u64>],
) -> Option<String> {
    let end = all_0(paths);
    for (r, own) in rows.map(|gate| gate as usize).enumerate() {
        if barred(gates, paths, own) {
            return Some(format!("row {r} is of gate {own}, and is not refused with 23"));
        }
        let on = if paths[own].is_some() { Some(own) } else { end };
        for (gate, path) in paths.iter().enumerate() {
            let Some(path) = path else { continue };
            let product = product(path, |column| constants[column][r]);
            let stray = product != 0 && gate != own && gates[gate][0] == 0;
            if stray || product != (on == Some(gate)) as u64 {
                let what = format!("the path product of gate {gate} is {product}");
                return Some(format!("row {r} of gate {own}: {what}"));
            }
        }
    }
    None
}
