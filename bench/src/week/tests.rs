//! The second implementation reads what was made, and refuses what was broken.

use super::*;
use crate::expert;

#[test]
fn every_file_holds_what_it_says() {
    let mut records = vec![0; 20 * 999_999];
    let mut lines = vec![0; 1_000_000];
    let (mut text, mut all) = (Vec::new(), 0);
    for plan in week(LEAST_MEGABYTES) {
        let made = plan.make(&mut text);
        all += text.len();
        let answer = expert::read(&text, &mut records);
        if let Some(fault) = plan.fault {
            assert_eq!(answer[0], fault.refusal(), "{}", plan.stem());
            continue;
        }
        let [version, start, rows] = [plan.version.into(), made.start, made.rows];
        let known = [0, 0, version, start, rows, made.first_step_back, 1];
        assert_eq!(answer, known, "{}", plan.stem());
        let records = &records[..20 * rows as usize];
        let marks = records.chunks(20).filter(|record| record[19] & 32 != 0);
        assert_eq!(marks.count() as u64, made.steps_back);
        let [number, _, _, exported, _] = expert::export(start, 1, records, &mut lines);
        assert_eq!((number, exported), (0, made.lines));
    }
    let asked = LEAST_MEGABYTES * 1_000_000;
    assert!(all.abs_diff(asked) < asked / 100, "{all} bytes");
}

#[test]
fn a_week_is_of_420_files_and_5_are_broken() {
    let week = week(400);
    assert_eq!(week.len(), 420);
    assert_eq!(week.iter().filter(|plan| plan.fault.is_some()).count(), 5);
    let names: Vec<String> = week.iter().map(Plan::stem).collect();
    assert!(names.is_sorted());
    let old = week.iter().filter(|plan| plan.version == 11);
    assert_eq!(old.count(), 70);
}

#[test]
fn the_largest_file_of_the_largest_week_is_within_the_limits() {
    let week = week(MOST_MEGABYTES);
    let old = week.iter().filter(|plan| plan.version == 11);
    let largest = old.max_by_key(|plan| plan.bytes).expect("there are some");
    let mut text = Vec::new();
    let made = largest.make(&mut text);
    assert!(text.len() >= largest.bytes, "{} rows", made.rows);
    assert!(text.len() <= 134_217_728 && made.rows <= 999_999);
}

#[test]
fn a_file_is_the_same_each_time() {
    let (mut one, mut other) = (Vec::new(), vec![7; 10]);
    let plan = &week(LEAST_MEGABYTES)[100];
    assert_eq!(plan.make(&mut one), plan.make(&mut other));
    assert_eq!(one, other);
}
