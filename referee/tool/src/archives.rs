//! The archive functions of both, on the same bytes.

use crate::entries::has;
use crate::events::age;
use crate::random::Random;
use crate::reached::Function;
use crate::run::{same, Run, Same};
use std::ops::Range;

/// Reads any bytes as an archive: old or new, check, places, figures, year sheets.
pub fn read(random: &mut Random, run: &mut Run, archive: &[u8]) -> Same {
    run.holds(None, archive);
    let replay = referee::replay(archive);
    let is_new = replay.ledger.is_new;
    same("is_new", &nedrulov::is_new(archive), &is_new)?;
    let checked = nedrulov::check(archive);
    let given = (checked.number, checked.index);
    same("check", &given, &referee::check(archive))?;
    run.reached
        .answered(Function::Check, is_new, checked.number);
    count(run, archive, is_new, given);
    for section in sections_to_ask(random, archive) {
        place(run, archive, is_new, section)?;
    }
    figures(run, archive, &replay)?;
    for year in years_to_ask(random, archive) {
        let sheet = nedrulov::year_sheet(archive, year);
        same("year sheet", &sheet, &referee::year_sheet(archive, year))?;
        let filled = sheet.iter().flatten().any(|&cell| cell != 0);
        run.reached
            .event("year sheet not all 0", age(is_new), filled);
    }
    Ok(())
}

/// Counts what the fourth byte decides.
fn count(run: &mut Run, archive: &[u8], is_new: bool, (number, index): (u64, usize)) {
    let kind_at = |index: usize| archive.get(entries_start(archive) + 32 * index);
    let reached = &mut run.reached;
    for (kind, name) in [
        (10, "kind 10 in an archive"),
        (11, "kind 11 in an archive"),
        (12, "kind 12 in an archive"),
    ] {
        let unknown = number == 2 && !is_new && kind_at(index) == Some(&kind);
        let known = number == 0 && is_new && has(entries_of(archive), kind);
        reached.event(name, "old, 2", unknown);
        reached.event(name, "new, accepted", known);
    }
    let refused = number != 0 && is_new;
    let short = archive.len() < 8;
    let name = "refused, but opens as new";
    reached.event(name, "4 to 7 bytes", refused && short);
    reached.event(name, "longer", refused && !short);
    if number == 8 && archive.starts_with(b"EFB") && !short {
        let [old, new] = [49, 50].map(|fourth| {
            let mut other = archive.to_vec();
            other[3] = fourth;
            referee::check(&other).0 == 0
        });
        let name = "8 by the fourth byte, else accepted";
        reached.event(name, "old", old);
        // One that could not be old.
        reached.event(name, "new", new && !old);
    }
}

/// The count of sections, as the header has it.
fn sections(archive: &[u8]) -> usize {
    let count = archive.get(4..6);
    count.map_or(0, |n| usize::from(u16::from_le_bytes([n[0], n[1]])))
}

fn entries_start(archive: &[u8]) -> usize {
    8 + 8 * sections(archive)
}

fn entries_of(archive: &[u8]) -> &[u8] {
    archive.get(entries_start(archive)..).unwrap_or(&[])
}

/// All sections and one past, or a few of many.
fn sections_to_ask(random: &mut Random, archive: &[u8]) -> Vec<usize> {
    let count = sections(archive);
    if count <= 16 {
        return (0..=count).chain([usize::MAX]).collect();
    }
    let any = random.below(count as u64) as usize;
    vec![0, 1, any, count - 1, count, count + 1, usize::MAX]
}

fn place(run: &mut Run, archive: &[u8], is_new: bool, section: usize) -> Same {
    let place = nedrulov::place(archive, section);
    run.reached.answered(Function::Place, is_new, place.number);
    let own = referee::section(archive, section).map(|part| span(archive, part));
    // With any refusal the part is empty.
    let expected = match own {
        Ok(range) => (0, 0, range.start, range.len()),
        Err((number, index)) => (number, index, 0, 0),
    };
    let given = (place.number, place.index, place.start, place.length);
    same(&format!("place of section {section}"), &given, &expected)?;
    let part =
        nedrulov::section(archive, section).map_err(|checked| (checked.number, checked.index));
    same(
        &format!("section {section}"),
        &part,
        &referee::section(archive, section),
    )
}

/// Where a part of the archive lies in it.
fn span(archive: &[u8], part: &[u8]) -> Range<usize> {
    let start = part.as_ptr() as usize - archive.as_ptr() as usize;
    start..start + part.len()
}

fn figures(run: &mut Run, archive: &[u8], replay: &referee::Replay) -> Same {
    let figures = nedrulov::figures(archive);
    run.reached
        .answered(Function::Figures, replay.ledger.is_new, figures.number);
    let panel = referee::panel(&replay.ledger);
    let given = (
        figures.number,
        figures.index,
        figures.accepted,
        figures.refused,
        figures.figure,
    );
    let expected = (
        replay.number,
        replay.index,
        replay.accepted,
        replay.refused,
        panel.1,
    );
    same("figures", &given, &expected)
}

/// Years around those of the first and the last entry, and years with no cell.
fn years_to_ask(random: &mut Random, archive: &[u8]) -> Vec<u64> {
    let length = archive.len();
    let year_at = |at: usize| {
        archive
            .get(at..at + 2)
            .map(|b| u64::from(b[0]) + 256 * u64::from(b[1]))
    };
    let last = length.checked_sub(28).and_then(year_at).unwrap_or(2026);
    let odd = random.pick(&[
        0,
        1,
        1_999,
        2_000,
        2_099,
        2_100,
        65_535,
        65_536 + 2_026,
        u64::MAX,
    ]);
    vec![last, last.saturating_sub(1), last + 1, odd]
}

/// Writes a list with both, with room exact, one short, one more and more; gives the archive, or nothing if refused.
pub fn write(
    random: &mut Random,
    run: &mut Run,
    is_new: bool,
    list: &[u8],
) -> Result<Vec<u8>, String> {
    run.holds(None, list);
    let sections = list.chunks(32).filter(|entry| entry[0] == 9).count() + 1;
    let roomy = list.len() + 8 + 8 * sections + 40;
    let (length, archive) = write_into(random, run, is_new, list, roomy)?;
    let rooms = [
        length,
        length.saturating_sub(1),
        length + 1,
        random.below(length as u64 + 1) as usize,
    ];
    for room in rooms {
        write_into(random, run, is_new, list, room)?;
    }
    Ok(archive)
}

/// The archive's length and bytes, both 0 and empty if refused.
fn write_into(
    random: &mut Random,
    run: &mut Run,
    is_new: bool,
    list: &[u8],
    room: usize,
) -> Result<(usize, Vec<u8>), String> {
    let before = pattern(random, room);
    let (mut ours, mut theirs) = (before.clone(), before.clone());
    let written = nedrulov::write(is_new, list, &mut ours);
    let own = referee::write(is_new, list, &mut theirs);
    let given = (written.number, written.index, written.length);
    same(
        &format!("write, {}, to {room} bytes", age(is_new)),
        &given,
        &(own.number, own.index, own.length),
    )?;
    count_written(run, is_new, list, &own);
    if ours != theirs {
        return Err(format!(
            "bytes written, {}, to {room} bytes differ",
            age(is_new)
        ));
    }
    // A refusal has length 0, so that all bytes must stay.
    if ours[own.length..] != before[own.length..] {
        return Err(format!("bytes past the archive changed, of {room}"));
    }
    ours.truncate(own.length);
    Ok((own.length, ours))
}

fn count_written(run: &mut Run, is_new: bool, list: &[u8], written: &referee::Written) {
    let (number, at) = (written.number, 32 * written.index);
    run.reached.answered(Function::Write, is_new, number);
    for (kind, name) in [
        (10, "kind 10 in a list to write"),
        (11, "kind 11 in a list to write"),
        (12, "kind 12 in a list to write"),
    ] {
        let unknown = number == 2 && !is_new && list.get(at) == Some(&kind);
        let known = number == 0 && is_new && has(list, kind);
        run.reached.event(name, "old, 2", unknown);
        run.reached.event(name, "new, accepted", known);
    }
}

/// Bytes that are not likely to be written by chance.
fn pattern(random: &mut Random, count: usize) -> Vec<u8> {
    let start = random.next() as usize;
    (0..count)
        .map(|at| (at.wrapping_mul(167).wrapping_add(start) >> 1) as u8)
        .collect()
}
