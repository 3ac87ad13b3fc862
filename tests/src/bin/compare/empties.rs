//! A buffer of length 0 may have any pointer, null too: each service then answers, and leaves the other buffers, as it does with
//! an empty buffer that stands in memory.

use nest_tests::answer::Answer;
use nest_tests::noise::Noise;
use nest_tests::small_boards::PRINTED;

use crate::nest::{check_at, cut_at, read_at, row_at, run_at, save_at, Given};
use crate::report::{hexadecimal, Report};

/// Null, and two places where no byte can be read: the second, and the last of all.
const PLACES: [usize; 3] = [0, 1, usize::MAX];
/// None, one under which the job has no candidate, and the first that is refused.
const MARGINS: [u64; 3] = [0, 1, 64];

struct Service {
    name: &'static str,
    /// The bytes of each buffer of the call.
    buffers: Vec<Vec<u8>>,
    /// The service on these buffers, under this margin if it takes one.
    call: fn(&[Given], u64) -> Answer,
}

/// The services on the job that document 01 prints, and on its piece as an outline, each with buffers that are long enough.
fn services(noise: &mut Noise) -> [Service; 6] {
    let job = PRINTED.to_vec();
    let layout = vec![0, 0, 0, 0, 0, 0, 0, 0, 0, 0, 2, 0, 0, 0, 0, 0];
    let (numbers, saved, words, answer) = (noise.bytes(100), noise.bytes(33), noise.bytes(64), noise.bytes(16));
    let (outline, triangles) = (vec![0, 0, 2, 0, 2, 2, 0, 2], noise.bytes(72));
    // SAFETY of the calls: `asked` gives places in buffers of its own, or a length of 0.
    [
        Service { name: "read", buffers: vec![job.clone(), numbers], call: |b, _| unsafe { read_at(b[0], b[1]) } },
        Service { name: "save", buffers: vec![job.clone(), saved], call: |b, _| unsafe { save_at(b[0], b[1]) } },
        Service {
            name: "row",
            buffers: vec![job.clone(), words.clone()],
            call: |b, margin| unsafe { row_at(b[0], margin, 0, 0, 0, b[1]) },
        },
        Service {
            name: "check",
            buffers: vec![job.clone(), layout.clone()],
            call: |b, margin| unsafe { check_at(b[0], margin, b[1]) },
        },
        Service {
            name: "run",
            buffers: vec![job, layout, words, answer],
            call: |b, margin| unsafe { run_at(b[0], margin, 1_000_000, b[1], b[2], b[3]) },
        },
        Service { name: "cut", buffers: vec![outline, triangles], call: |b, _| unsafe { cut_at(b[0], b[1]) } },
    ]
}

/// What a call answers, and the buffers after it: those named by a bit of `empty` are given with length 0, at this place if there is one.
fn asked(service: &Service, margin: u64, empty: usize, place: Option<usize>) -> (Answer, Vec<Vec<u8>>) {
    let mut buffers = service.buffers.clone();
    let given: Vec<Given> = buffers
        .iter_mut()
        .enumerate()
        .map(|(i, buffer)| match (empty >> i & 1, place) {
            (0, _) => (buffer.as_mut_ptr(), buffer.len()),
            (_, None) => (buffer.as_mut_ptr(), 0),
            (_, Some(place)) => (place as *mut u8, 0),
        })
        .collect();
    ((service.call)(&given, margin), buffers)
}

/// Every service, under every margin, with every choice of buffers that are empty.
pub fn empty_buffers(noise: &mut Noise, report: &mut Report) {
    report.origin = "empty buffers".to_string();
    for service in services(noise) {
        for margin in MARGINS {
            for empty in 1..1 << service.buffers.len() {
                at_every_place(&service, margin, empty, report);
            }
        }
    }
}

fn at_every_place(service: &Service, margin: u64, empty: usize, report: &mut Report) {
    let (expected, left) = asked(service, margin, empty, None);
    for place in PLACES {
        report.note("calls with an empty buffer at null or where no byte can be read");
        let (got, now) = asked(service, margin, empty, Some(place));
        if got != expected || now != left {
            let name = service.name;
            let what = format!("{name}, buffers {empty:b} empty at {place:#x}: {got:?}, expected {expected:?}");
            report.mismatch_of(&what, &format!("margin {margin}, first buffer {}", hexadecimal(&service.buffers[0])));
        }
    }
}
