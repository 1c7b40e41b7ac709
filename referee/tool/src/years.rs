//! Cases (a): valid gas years, old or new, compared after every posting, then as an archive.

use crate::archives;
use crate::both::Both;
use crate::entries::for_old;
use crate::gas_year::{make, Plan, Planned};
use crate::holidays::plain_day;
use crate::random::Random;
use crate::run::{Run, Same};

pub fn case(random: &mut Random, run: &mut Run) -> Same {
    let plan = Plan {
        first_year: 2000 + random.below(100) as u16,
        months: random.pick(&[12, 12, 13]),
        suppliers: random.pick(&[1, 2, 3, 3, 4, 4, 5, 16]),
        is_new: random.one_in(2),
        wild: !random.one_in(5),
        refusals: random.one_in(2),
        holidays: random.one_in(2),
        letters: random.one_in(2),
    };
    let list = make(random, plan);
    let mut both = Both::fresh(plan.is_new);
    for planned in &list {
        let answer = both.post(run, &planned.bytes)?;
        if (answer.number == 0) != planned.valid {
            return Err(format!(
                "both answer {} where the plan says otherwise",
                answer.number
            ));
        }
    }
    archived(random, run, &list)
}

/// The list as archives, and what an old one can hold of it.
fn archived(random: &mut Random, run: &mut Run, list: &[Planned]) -> Same {
    let whole: Vec<u8> = list.iter().flat_map(|planned| planned.bytes).collect();
    in_both(random, run, &whole)?;
    for (name, kind) in [
        ("CONFISCATED accepted in a year's archive", 10),
        ("HOLIDAY accepted in a year's archive", 11),
        ("NOTICE accepted in a year's archive", 12),
    ] {
        let mut accepted = list.iter().filter(|planned| planned.valid);
        let posted = accepted.any(|planned| planned.bytes[0] == kind);
        run.reached.event(name, "new", posted);
    }
    let moved = list.iter().any(is_moved);
    let name = "MEASURE moved in a year's archive";
    run.reached.event(name, "new", moved);
    let rest = for_old(&whole);
    if rest != whole {
        in_both(random, run, &rest)?;
    }
    Ok(())
}

/// A MEASURE on another day than the calendar alone would have.
fn is_moved(planned: &Planned) -> bool {
    let [kind, _, _, _, low, high, month, day, ..] = planned.bytes;
    let year = u16::from_le_bytes([low, high]).into();
    let plain = plain_day(year, month.into()).map(|date| date.day());
    planned.valid && kind == 6 && plain != Some(day.into())
}

/// Writes a list as an old and as a new archive, and reads both.
fn in_both(random: &mut Random, run: &mut Run, list: &[u8]) -> Same {
    let old = archives::write(random, run, false, list)?;
    let new = archives::write(random, run, true, list)?;
    archives::read(random, run, &old)?;
    archives::read(random, run, &new)?;
    if old.is_empty() || new.is_empty() {
        return Ok(());
    }
    if old[..4] != *b"EFB1" || new[..4] != *b"EFB2" || old[4..] != new[4..] {
        return Err("an old and a new archive differ in more than the fourth byte".to_string());
    }
    // The rules differ, so their figures should do so now and then.
    let (by_old, by_new) = (nedrulov::figures(&old), nedrulov::figures(&new));
    let name = "one list in both";
    run.reached.event(name, "other figures", by_old != by_new);
    let year = u64::from(list[4]) + 256 * u64::from(list[5]);
    let sheets = [&old, &new].map(|archive| nedrulov::year_sheet(archive, year));
    run.reached
        .event(name, "other sheet", sheets[0] != sheets[1]);
    Ok(())
}
