//! The peak of each program's resident memory on its largest input, and of its command's. It is the only
//! test of its process, since what this process has resident counts as well.

use programs::call::{WAYS, Way, run};
use programs::folder::Folder;
use programs::process::watch;
use programs::system::wait_for_status_and_peak;
use programs::{PROGRAMS, RECORD, REFERENCE, TEXT_LIMIT, texts};

const LIMIT_KIBIBYTES: i64 = 8 * 1_024;

/// The largest accepted reference text with its record, or the most readings, which are the longest output of
/// `judge`, and the most settings; and as many bytes as any program reads.
fn largest(name: &str) -> [Vec<Vec<u8>>; 2] {
    let heading = format!("REF,8{}\n", ",ORP,CND".repeat(4));
    let row = |number: usize| format!("POINT-{number:06}{}\n", ",-1999,<3999".repeat(4));
    let reference = [heading].into_iter().chain((0..256).map(row));
    let reference = reference.collect::<String>().into_bytes();
    let mut accepted = match name {
        "judge" => [REFERENCE, RECORD, &"\n".repeat(TEXT_LIMIT)]
            .map(Vec::from)
            .to_vec(),
        "alerts" => {
            let [settings, readings] = ["99,99\n".repeat(20), "\n".repeat(TEXT_LIMIT)];
            [REFERENCE, RECORD, &settings, &readings]
                .map(Vec::from)
                .to_vec()
        }
        _ => vec![reference.clone(), run("draw", &[reference])],
    };
    accepted.truncate(texts(name));
    [accepted, vec![vec![b'7'; TEXT_LIMIT + 1]; texts(name)]]
}

fn peak_kibibytes(way: Way, name: &str, texts: &[Vec<u8>]) -> i64 {
    let folder = Folder::new();
    let (last, before) = texts.split_last().expect("a text");
    let mut command = way.command(name, &folder.write_texts(before));
    let ((status, peak), output) = watch(&mut command, last, wait_for_status_and_peak);
    assert!(!output.is_empty());
    assert_eq!(status, way.status(name, &output));
    peak
}

#[test]
fn peak_resident_memory_is_within_8_mebibytes() {
    for name in PROGRAMS {
        for texts in largest(name) {
            let bytes = texts.concat().len();
            for way in WAYS {
                let peak = peak_kibibytes(way, name, &texts);
                println!("{way:?} {name}: at most {peak} KiB resident on {bytes} bytes");
                assert!(peak <= LIMIT_KIBIBYTES, "{way:?} {name}: {peak} KiB");
            }
        }
    }
}
