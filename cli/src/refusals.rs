//! What is wrong with a source that the library refuses.
use crate::elements::{Fault, List};
use crate::input::RunName;
use crate::library::{Place, Refusal};
use crate::report::Item;
use crate::values::hex;

/// The library's refusal with what is wrong in words: where an element is to blame, what the walk
/// over the elements found there; for 1 and 2 the lengths.
pub fn explained(item: &Item, lists: &[(RunName, List)], mut refusal: Refusal) -> Refusal {
    let same = |f: &&Fault| {
        let place = Place { run: f.run, offset: f.offset };
        f.number == refusal.number && refusal.place == Some(place)
    };
    let fault = lists.iter().filter_map(|(_, list)| list.first_fault()).find(same);
    let what = match refusal.number {
        1 => too_long(item),
        2 => Some(format!("C has {} bytes, must be a multiple of 4", item.run(RunName::C).len())),
        _ => fault.map(|f| f.what.clone()),
    };
    if let Some(what) = what {
        refusal.what = what;
    }
    refusal
}

fn too_long(item: &Item) -> Option<String> {
    let long = item.source.runs().into_iter().find(|(name, run)| run.len() > name.longest());
    long.map(|(name, run)| format!("{name} has {} bytes, at most {}", run.len(), name.longest()))
}

/// The run and offset that a refusal names: run A and 0 where no element is to blame.
pub fn place(refusal: &Refusal) -> Place {
    refusal.place.unwrap_or(Place { run: RunName::A, offset: 0 })
}

/// `refused 4, run A at 14: TE metric (type 18) has length 4, must be 3`.
pub fn sentence(refusal: &Refusal) -> String {
    let Place { run, offset } = place(refusal);
    format!("refused {}, run {run} at {offset}: {}", refusal.number, refusal.what)
}

/// The line of the file where the element begins that is to blame.
pub fn line(item: &Item, refusal: &Refusal) -> Option<usize> {
    let place = refusal.place?;
    item.entry.run(place.run)?.line_of(place.offset)
}

/// The bytes around a fault: `A from 8: 10 08 00 00 [12 04 01 02 03 04]`.
pub fn around(item: &Item, refusal: &Refusal) -> Option<String> {
    let Place { run: name, offset } = refusal.place?;
    let run = item.run(name);
    let start = offset.saturating_sub(6);
    let end = run.len().min(offset + 12);
    let before: String = run[start..offset].iter().map(|b| format!("{b:02X} ")).collect();
    Some(format!("{name} from {start}: {before}[{}]", hex(&run[offset..end])))
}
