//! Counters of the partner lists that the comparison reached.

use crate::partners::{Question, MOST};
use crate::reached::Function;
use crate::run::Run;
use referee::{Account, Month, PartnerList};

const MONTHS: [&str; 12] = [
    "Jan", "Feb", "Mar", "Apr", "May", "Jun", "Jul", "Aug", "Sep", "Oct", "Nov", "Dec",
];

/// A question that passed its refusals, with what the limits leave.
struct Asked<'a> {
    accounts: &'a [Account; 16],
    month: Month,
    seller: usize,
    quantity: i64,
}

impl Asked<'_> {
    /// Units that the seller keeps above its minimum.
    fn kept(&self) -> i64 {
        let seller = &self.accounts[self.seller];
        seller.bank - self.quantity - (self.month.minimum() * seller.bcq) as i64
    }

    fn headroom(&self, account: usize) -> i64 {
        let account = &self.accounts[account];
        (self.month.maximum() * account.bcq) as i64 - account.bank
    }

    /// Units from the bank after the receipt to the maximum.
    fn left(&self, account: usize) -> i64 {
        self.headroom(account) - self.quantity
    }

    /// Places of the other open accounts.
    fn others(&self) -> impl Iterator<Item = usize> + '_ {
        (0..16).filter(|&place| place != self.seller && self.accounts[place].opened)
    }
}

/// A list on which both agree.
pub fn count(run: &mut Run, question: &Question, list: &PartnerList) {
    let Question {
        ledger,
        seller,
        quantity,
    } = question;
    let number = list.number;
    run.reached
        .answered(Function::Partners, ledger.is_new, number);
    count_refusal(run, question, number);
    if number == 20 {
        run.reached.partners_20(ledger);
    }
    if number == 0 {
        let asked = Asked {
            accounts: &ledger.accounts,
            month: ledger.date().expect("a date in range").month(),
            seller: *seller as usize,
            quantity: *quantity as i64,
        };
        let listed = list.accounts.map(|account| account as usize);
        count_length(run, &asked, list.count);
        count_limits(run, &asked);
        count_order(run, &asked, &listed[..list.count]);
    }
}

fn count_refusal(run: &mut Run, question: &Question, number: u64) {
    let Question {
        ledger,
        seller,
        quantity,
    } = question;
    let wrong_quantity = !(1..=MOST).contains(quantity);
    let closed = *seller < 16 && !ledger.accounts[*seller as usize].opened;
    for (column, met) in [
        ("4 over 6", number == 4 && wrong_quantity),
        ("6 over 20", number == 6 && !ledger.in_range()),
        ("20 over 21", number == 20 && !ledger.begun),
        ("21 over 24", number == 21 && closed),
    ] {
        let name = "a refusal that hides another";
        run.reached.event(name, column, met);
    }
    for (column, met) in [("16", *seller == 16), ("more", *seller > 16)] {
        run.reached
            .event("4 by a seller of", column, number == 4 && met);
    }
    for (column, met) in [
        ("0", *quantity == 0),
        ("10^9 + 1", *quantity == MOST + 1),
        ("more", *quantity > MOST + 1),
    ] {
        run.reached
            .event("6 by a quantity of", column, number == 6 && met);
    }
}

/// How many are listed, or why none is.
fn count_length(run: &mut Run, asked: &Asked, count: usize) {
    let open = asked.others().count();
    let fitting = asked.others().filter(|&place| asked.left(place) >= 0);
    let fitting = fitting.count();
    let keeps = asked.kept() >= 0;
    for (column, met) in [
        ("none, seller's minimum", !keeps && fitting > 0),
        ("none, nobody fits", keeps && fitting == 0 && open > 0),
        ("none, nobody else open", keeps && open == 0),
        ("one", count == 1),
        ("several", (2..15).contains(&count)),
        ("all fifteen", count == 15),
    ] {
        run.reached.event("listed", column, met);
    }
    let month = MONTHS[asked.month.number() as usize - 1];
    run.reached.event("listed some in", month, count > 0);
    let quantity = asked.quantity as u64;
    run.reached
        .event("listed some for", "1 unit", count > 0 && quantity == 1);
    run.reached
        .event("listed some for", "10^9", count > 0 && quantity == MOST);
}

/// Ends at the limits, where the other party's limit does not decide.
fn count_limits(run: &mut Run, asked: &Asked) {
    let fits = asked.others().any(|place| asked.left(place) >= 0);
    for (column, kept) in [("at its minimum", 0), ("1 below", -1)] {
        run.reached
            .event("seller ends", column, fits && asked.kept() == kept);
    }
    if asked.kept() < 0 {
        return;
    }
    for place in asked.others() {
        let left = asked.left(place);
        for (column, end) in [("at its maximum", 0), ("1 above", -1)] {
            run.reached.event("receiver ends", column, left == end);
        }
        let Account { bank, bcq, .. } = asked.accounts[place];
        let minimum = (asked.month.minimum() * bcq) as i64;
        for (column, met) in [
            ("from below 0", bank < 0),
            ("from below its minimum", 0 <= bank && bank < minimum),
            ("still below its minimum", bank + asked.quantity < minimum),
            ("with a BCQ of 0", bcq == 0),
        ] {
            run.reached
                .event("listed account", column, left >= 0 && met);
        }
    }
    let closed = (0..16).any(|place| !asked.accounts[place].opened && asked.left(place) >= 0);
    let name = "not listed, but would fit";
    run.reached.event(name, "not open", closed);
    let seller = asked.left(asked.seller) >= 0;
    run.reached.event(name, "seller", seller && fits);
}

/// Neighbours in the list.
fn count_order(run: &mut Run, asked: &Asked, listed: &[usize]) {
    for pair in listed.windows(2) {
        let [first, second] = [pair[0], pair[1]];
        let apart = asked.headroom(first) - asked.headroom(second);
        let [before, after] = [first, second].map(|place| &asked.accounts[place]);
        for (column, met) in [
            ("equal", apart == 0),
            (
                "equal, larger MDDQ second",
                before.mddq < after.mddq && apart == 0,
            ),
            ("1 apart, lower number first", apart == 1 && first < second),
            ("1 apart, lower number second", apart == 1 && first > second),
            ("larger bank first", apart > 0 && before.bank > after.bank),
        ] {
            run.reached.event("headroom of two listed", column, met);
        }
    }
}
