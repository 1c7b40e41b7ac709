//! The movements as a journal of plain-text accounting, for hledger and ledger alike.

use super::show;
use crate::amounts::{gas, money};
use crate::archive::check;
use crate::entry::Kind;
use crate::failure::Failure;
use crate::movements::{Cause, Movement, Movements};
use crate::replay::Step;
use std::io::{self, Write};

const HEAD: &str = "\
; The movements of an archive. Gas in DTH, money in USD; (N) is the entry's place in the archive, counted from 0.
; Balances asserted after each month are those of the proved ledger.

commodity DTH
    format 1000.00 DTH

commodity USD
    format 1000.000 USD

";

// NN stands for the supplier's number.
const BANK: &str = "supplier:NN:bank";
const OWED: &str = "supplier:NN:owed";
const BILLS: &str = "company:bills:NN";

/// The account on the other side of a movement between a bank and no other bank.
const OTHER_SIDES: [(Cause, &str); 7] = [
    (Cause::Opening, "openings:NN"),
    (Cause::Delivery, "deliveries:NN"),
    (Cause::Sale, "company:sales:NN"),
    (Cause::Purchase, "company:purchases:NN"),
    (Cause::CashIn, "company:cash-ins:NN"),
    (Cause::CashOut, "company:cash-outs:NN"),
    (Cause::Forfeit, "company:forfeits:NN"),
];

pub fn write(archive: &[u8], out: &mut dyn Write) -> Result<(), Failure> {
    // Nothing is written of a refused archive.
    check(archive)?;
    out.write_all(HEAD.as_bytes())?;
    let mut movements = Movements::default();
    show(archive, |step| {
        for movement in movements.of(step) {
            write_movement(step, movement, out)?;
        }
        write_bills(step, &movements, out)?;
        match step.accepted() && step.entry.kind == Kind::CloseMonth {
            true => write_balances(step, &movements, out),
            false => Ok(()),
        }
    })?;
    Ok(())
}

fn of_supplier(account: &str, number: usize) -> String {
    account.replace("NN", &format!("{number:02}"))
}

fn write_movement(step: &Step, movement: Movement, out: &mut dyn Write) -> io::Result<()> {
    let Movement {
        account,
        cause,
        units,
    } = movement;
    if cause == Cause::Opening {
        declare(account, out)?;
    }
    let known = OTHER_SIDES.iter().find(|(known, _)| *known == cause);
    let other = match (cause, known) {
        (_, Some((_, other))) => of_supplier(other, account),
        (Cause::TransferTo(receiver), _) => of_supplier(BANK, receiver),
        // The giver's movement has written both sides of a transfer.
        _ => return Ok(()),
    };
    head(step, cause.name(), out)?;
    posting(&of_supplier(BANK, account), &gas(units), "DTH", out)?;
    posting(&other, &gas(-units), "DTH", out)?;
    writeln!(out)
}

/// Names a supplier's accounts, for those who read journals strictly.
fn declare(number: usize, out: &mut dyn Write) -> io::Result<()> {
    let other_sides = OTHER_SIDES.iter().map(|(_, account)| *account);
    for account in [BANK, OWED, BILLS].into_iter().chain(other_sides) {
        writeln!(out, "account {}", of_supplier(account, number))?;
    }
    writeln!(out)
}

fn write_bills(step: &Step, movements: &Movements, out: &mut dyn Write) -> io::Result<()> {
    for (account, mills) in movements.bills(step) {
        head(step, "bill", out)?;
        posting(&of_supplier(OWED, account), &money(mills), "USD", out)?;
        posting(&of_supplier(BILLS, account), &money(-mills), "USD", out)?;
        writeln!(out)?;
    }
    Ok(())
}

/// What the ledger holds after a month, asserted of what was posted.
fn write_balances(step: &Step, movements: &Movements, out: &mut dyn Write) -> io::Result<()> {
    if movements.enrolled().next().is_none() {
        return Ok(());
    }
    head(step, "balances after the month", out)?;
    for account in movements.enrolled() {
        let held = &step.after.accounts[account];
        let banked = format!("DTH = {} DTH", gas(held.bank));
        let owed = format!("USD = {} USD", money(held.owed));
        posting(&of_supplier(BANK, account), &gas(0), &banked, out)?;
        posting(&of_supplier(OWED, account), &money(0), &owed, out)?;
    }
    writeln!(out)
}

fn head(step: &Step, what: &str, out: &mut dyn Write) -> io::Result<()> {
    writeln!(out, "{} ({}) {what}", step.entry.date, step.index)
}

fn posting(account: &str, amount: &str, unit: &str, out: &mut dyn Write) -> io::Result<()> {
    writeln!(out, "    {account:<24}{amount:>18} {unit}")
}
