//! A disk that is full, and one that takes nothing: 2, what fits is done, and nothing half-written stays.

use crate::common::traces::{export, rows};
use crate::common::{skip, Ran, Scratch};

/// Files whose output has some 150 bytes, and between them one with 500,000.
fn week() -> Scratch {
    let scratch = Scratch::new();
    scratch.put("week/a.trc", rows(3));
    scratch.put("week/b.trc", rows(10_000));
    scratch.put("week/c.trc", rows(3));
    scratch
}

#[track_caller]
fn only_b_failed(ran: &Ran) {
    let (files, summary) = ran.objects();
    let statuses: Vec<&str> = files.iter().map(|file| file.text("status")).collect();
    assert_eq!(statuses, ["done", "failed", "done"], "{ran}");
    assert_eq!(files[1].text("error"), ran.failure_of("week/b.trc"));
    assert_eq!(
        (summary.number("done"), summary.number("failed")),
        (2.0, 1.0)
    );
}

/// Runs owl with so many blocks as the most that a file may have, of 512 or 1,024 bytes each. The signal that would end
/// it there is ignored, so that it gets an error as from a full disk.
fn limited(scratch: &Scratch, words: &str) -> Ran {
    scratch.shell(&format!("trap '' XFSZ; ulimit -f 8; exec \"$OWL\" {words}"))
}

#[test]
fn by_a_limit_on_the_size_of_files() {
    for jobs in [1, 4] {
        let scratch = week();
        let ran = limited(&scratch, &format!("convert week --json --jobs {jobs}")).ended(2);
        only_b_failed(&ran);
        assert!(
            ran.failure_of("week/b.trc").contains("File too large"),
            "{ran}"
        );
        assert_eq!(
            scratch.names("week"),
            ["a.asc", "a.trc", "b.trc", "c.asc", "c.trc"]
        );
        for name in ["week/a.asc", "week/c.asc"] {
            assert!(scratch.bytes(name) == export(&rows(3)).unwrap());
        }
    }
}

#[test]
fn leaves_what_was_to_be_replaced() {
    let scratch = week();
    for name in ["a", "b", "c"] {
        scratch.put(format!("week/{name}.asc"), "of yesterday");
    }
    only_b_failed(&limited(&scratch, "convert week --force --json").ended(2));
    assert_eq!(scratch.bytes("week/b.asc"), b"of yesterday");
    assert!(scratch.bytes("week/c.asc") == export(&rows(3)).unwrap());
    assert_eq!(scratch.names("week").len(), 6);
}

#[test]
fn stops_write_and_back_as_well() {
    let scratch = week();
    let ran = limited(
        &scratch,
        "write --version 1.2 week/a.trc week/b.trc week/c.trc --json",
    )
    .ended(2);
    only_b_failed(&ran);
    assert_eq!(scratch.names("week").len(), 5);
    scratch.put("b.asc", export(&rows(10_000)).unwrap());
    let ran = limited(&scratch, "back b.asc").ended(2);
    ran.failure_of("b.asc");
    assert_eq!(scratch.names(""), ["b.asc", "week"]);
}

#[test]
fn does_not_matter_where_nothing_is_written() {
    let scratch = week();
    scratch.owl("convert week").ended(0);
    let ran = limited(&scratch, "convert week --json").ended(0).quietly();
    assert_eq!(ran.objects().1.number("there"), 3.0);
    limited(&scratch, "check week").ended(0).quietly();
}

/// Runs a line of the shell in which `disk` is a small file system with these options; what is to be seen of it later must
/// be copied by that line. Nothing where none can be mounted.
fn on_a_disk(scratch: &Scratch, options: &str, line: &str) -> Option<Ran> {
    scratch.folder("disk");
    scratch.folder("copied");
    let mount = format!("mount -t tmpfs -o {options} owl disk");
    for namespaces in ["-rm", "-m"] {
        let trial = scratch.shell(&format!("unshare {namespaces} sh -c '{mount}'"));
        if trial.status == 0 {
            let script = format!("{mount} && {line}");
            let mut unshare = scratch.command("unshare");
            unshare
                .args([namespaces, "sh", "-c", &script])
                .env("OWL", crate::common::OWL);
            return Some(Ran::of(unshare.output().unwrap()));
        }
    }
    skip("no small file system could be mounted");
    None
}

const CONVERT: &str =
    "\"$OWL\" convert week -o disk --json --jobs 1; status=$?; cp -a disk/. copied; exit $status";

#[test]
fn of_a_small_file_system() {
    let scratch = week();
    let Some(ran) = on_a_disk(&scratch, "size=128k", CONVERT) else {
        return;
    };
    let ran = ran.ended(2);
    only_b_failed(&ran);
    assert!(
        ran.failure_of("week/b.trc")
            .contains("No space left on device"),
        "{ran}"
    );
    assert_eq!(scratch.names("copied"), ["a.asc", "c.asc"]);
    assert!(scratch.bytes("copied/c.asc") == export(&rows(3)).unwrap());
}

#[test]
fn without_room_for_more_files() {
    let scratch = week();
    // One for its folder, and one for an output.
    let Some(ran) = on_a_disk(&scratch, "nr_inodes=2", CONVERT) else {
        return;
    };
    let ran = ran.ended(2);
    let (files, _) = ran.objects();
    let statuses: Vec<&str> = files.iter().map(|file| file.text("status")).collect();
    assert_eq!(statuses, ["done", "failed", "failed"], "{ran}");
    assert_eq!(scratch.names("copied"), ["a.asc"]);
}

#[test]
fn that_may_only_be_read() {
    let scratch = week();
    let Some(ran) = on_a_disk(&scratch, "ro", CONVERT) else {
        return;
    };
    let ran = ran.ended(2);
    let (files, _) = ran.objects();
    assert!(
        files.iter().all(|file| file.text("status") == "failed"),
        "{ran}"
    );
    assert!(
        ran.failure_of("week/a.trc")
            .contains("Read-only file system"),
        "{ran}"
    );
}

#[test]
fn leaves_the_old_output_on_a_small_file_system() {
    let scratch = week();
    let line = format!(
        "printf yesterday >disk/b.asc; {}",
        CONVERT.replace("-o", "--force -o")
    );
    let Some(ran) = on_a_disk(&scratch, "size=128k", &line) else {
        return;
    };
    only_b_failed(&ran.ended(2));
    assert_eq!(scratch.bytes("copied/b.asc"), b"yesterday");
    assert_eq!(scratch.names("copied"), ["a.asc", "b.asc", "c.asc"]);
}
