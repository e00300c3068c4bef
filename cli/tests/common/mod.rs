//! Links and runs at random, from the generator of the differential test.
use differential::generator::{link, Scene};
use differential::mutate::{damage, damage_link};
use differential::random::Random;
use differential::reference::link::Link;
use differential::runs::run;
use differential::{dense::dense_link, twins::twins};
use inspect::options::Mode;
use inspect::show::{Show, Status};

/// Runs a test with the stack that long BGP-LS runs take.
pub fn with_stack(test: fn()) {
    let thread = std::thread::Builder::new().stack_size(16 << 20).spawn(test).unwrap();
    if let Err(panic) = thread.join() {
        std::panic::resume_unwind(panic);
    }
}

/// A link: well-formed or odd, with sets that are nearly equal, with many groups, or damaged.
pub fn some_link(case: u64) -> Link {
    let random = &mut Random::new(7, case);
    let oddness = random.pick(&[0, 5, 30]);
    let scene = Scene::new(random, oddness);
    match case % 8 {
        0 => twins(&scene, random),
        1 if case % 80 == 1 => dense_link(random),
        2 | 3 => {
            let mut link = link(&scene, random);
            damage_link(&mut link, random);
            link
        }
        _ => link(&scene, random),
    }
}

/// A BGP-LS run, now and then damaged.
pub fn some_run(case: u64) -> Vec<u8> {
    let random = &mut Random::new(8, case);
    let oddness = random.pick(&[0, 5, 30]);
    let scene = Scene::new(random, oddness);
    let mut bytes = run(&scene, random);
    if case % 4 == 3 {
        damage(&mut bytes, true, random);
    }
    bytes
}

fn hex(bytes: &[u8]) -> String {
    bytes.iter().map(|b| format!("{b:02x}")).collect()
}

/// A link as a file.
pub fn file_of(link: &Link) -> String {
    format!("link random\nA {}\nB {}\nC {}\n", hex(&link.a), hex(&link.b), hex(&link.c))
}

/// A run as a file.
pub fn file_of_run(run: &[u8]) -> String {
    format!("link random\nBGP-LS {}\n", hex(run))
}

/// What is shown of a file, what is told as an error, and how it went.
pub fn shown(mode: Mode, file: &[u8]) -> (String, String, Status) {
    let (mut out, mut errors) = (Vec::new(), Vec::new());
    let mut show = Show::new(mode, &mut out, &mut errors).unwrap();
    show.bytes("random.link", file).unwrap();
    let status = show.finish().unwrap();
    (String::from_utf8(out).unwrap(), String::from_utf8(errors).unwrap(), status)
}
