"""Entries and archives made without the library, for the tests of efbs."""

import struct
from datetime import date, timedelta

TERMS, ENROL, DELIVER, TRANSFER, TRADE, MEASURE, USAGE, CLOSE_DAY, CLOSE_MONTH, CONFISCATED, HOLIDAY, NOTICE = range(1, 13)
LAST_KIND = NOTICE
SOME_TERMS = (120_000, 480_000, 5_000_400, 150, 12_550, 32)
SOME_PRICES = (2_950, 3_120, 2_610, 415)
OLD, NEW = b"EFB1", b"EFB2"


def entry(day, kind, account=0, other=0, flags=0, words=()):
    """The 32 bytes of an entry; what is not used stays zero."""
    words = tuple(words) + (0,) * (6 - len(words))
    return struct.pack("<BBBBHBB6I", kind, account, other, flags, day.year, day.month, day.day, *words)


def archive(entries, opening=OLD):
    """The archive of a list, old or new: a section ends after each kind 9."""
    sections, section = [], []
    for raw in entries:
        section.append(raw)
        if raw[0] == CLOSE_MONTH:
            sections.append(b"".join(section))
            section = []
    if section:
        sections.append(b"".join(section))
    directory = b""
    offset = 8 + 8 * len(sections)
    for part in sections:
        directory += struct.pack("<II", offset, len(part))
        offset += len(part)
    return opening + struct.pack("<HH", len(sections), 0) + directory + b"".join(sections)


def beginning(day=date(2026, 4, 1), mdq=4_200, opening=1_000):
    """Terms and one supplier, account 0, which wants EFBS."""
    return [entry(day, TERMS, words=SOME_TERMS), entry(day, ENROL, flags=2, words=(mdq, opening))]


def measurement_day(day):
    """The 25th of the day's month, or the Monday after if on a weekend."""
    measured = day.replace(day=25)
    while measured.weekday() >= 5:
        measured += timedelta(days=1)
    return measured


def closing(day):
    if (day + timedelta(days=1)).day == 1:
        return entry(day, CLOSE_MONTH, words=SOME_PRICES)
    return entry(day, CLOSE_DAY)


def years(first, last, suppliers, draw):
    """Every day from first to last, deliveries drawn at random around what keeps a bank level; each April other terms."""
    entries = [entry(first, TERMS, words=SOME_TERMS)]
    accounts = range(suppliers)
    mdq = [1_000 + 2_300 * account for account in accounts]
    entries += [entry(first, ENROL, account, flags=2, words=(mdq[account], 1_000)) for account in accounts]
    day = first
    while day <= last:
        if (day.month, day.day) == (4, 1) and day > first:
            entries.append(entry(day, TERMS, words=SOME_TERMS[:3] + (draw.randrange(300),) + SOME_TERMS[4:]))
        for account in accounts:
            load = 20 * mdq[account]
            delivered = load + draw.randrange(-load // 2, load // 2)
            entries.append(entry(day, DELIVER, account, words=(delivered, load)))
        if day == measurement_day(day):
            entries += [entry(day, MEASURE, account, words=(mdq[account],)) for account in accounts]
        end = closing(day)
        if end[0] == CLOSE_MONTH:
            entries += [entry(day, USAGE, account, words=(5 * mdq[account],)) for account in accounts]
        entries.append(end)
        day += timedelta(days=1)
    return entries


def filled(accounts, last):
    """From April 2026 on: each bank grows by 150 Dth a day to some 94 percent of its BCQ in January, and stays as it is."""
    day = date(2026, 4, 1)
    entries = [entry(day, TERMS, words=SOME_TERMS)]
    entries += [entry(day, ENROL, account, flags=2, words=(4_200, 1_300_000)) for account in accounts]
    while day <= last:
        delivered = 95_228 if day < date(2027, 2, 1) else 80_000
        entries += [entry(day, DELIVER, account, words=(delivered, 80_000)) for account in accounts]
        if day == measurement_day(day):
            entries += [entry(day, MEASURE, account, words=(4_200,)) for account in accounts]
        end = closing(day)
        if end[0] == CLOSE_MONTH:
            entries += [entry(day, USAGE, account, words=(9,)) for account in accounts]
        entries.append(end)
        day += timedelta(days=1)
    return entries


def with_confiscations(entries, told):
    """The list with (day, account, units) told before the closing of the day, in their order."""
    made = []
    for raw in entries:
        if raw[0] in (CLOSE_DAY, CLOSE_MONTH):
            made += [entry(day, CONFISCATED, account, words=(units,)) for day, account, units in told
                     if entry(day, raw[0])[4:8] == raw[4:8]]
        made.append(raw)
    return made


def any_day(draw):
    return date(2000, 1, 1) + timedelta(days=draw.randrange(36_525))


def near(draw, low, high):
    """A number of a range, often one of its ends."""
    return draw.choice((low, high, draw.randint(low, high)))


def named_words(draw):
    """The three words of a holiday: a date, or numbers around those of dates and around what has room."""
    day = any_day(draw)
    edges = (0, 1, 9, 10, 12, 13, 31, 99, 100, 999, 1_000, 2_000, 2_099, 2_100, 9_999, 10_000, 65_536 + 2_026, 2**31, 2**32 - 1)
    words = [day.year, day.month, day.day]
    return [draw.choice((word, word, draw.choice(edges), draw.randrange(2**32))) for word in words]


def any_entry(draw, last_kind=CLOSE_MONTH):
    """An entry that is right by itself, whatever a ledger would say to it."""
    day, account, gas = any_day(draw), draw.randrange(16), 10**9
    kind = draw.randint(TERMS, last_kind)
    if kind == TERMS:
        no_notice = near(draw, 1, 10**7)
        words = (no_notice, near(draw, no_notice, 10**8), near(draw, no_notice, 100 * no_notice), near(draw, 0, 9_999))
        return entry(day, kind, words=words + (near(draw, 0, 10**5), near(draw, 0, 10**5)))
    if kind == ENROL:
        return entry(day, kind, account, flags=draw.randrange(4), words=(near(draw, 0, 300_000), near(draw, 0, gas)))
    if kind == DELIVER:
        return entry(day, kind, account, words=(near(draw, 0, gas), near(draw, 0, gas)))
    if kind in (TRANSFER, NOTICE):
        other = draw.choice([receiver for receiver in range(16) if receiver != account])
        if kind == NOTICE:
            return entry(day, kind, account, other, draw.randrange(2), (near(draw, 1, gas),))
        return entry(day, kind, account, other, words=(near(draw, 1, gas),) * 2)
    if kind == TRADE:
        return entry(day, kind, account, flags=draw.randrange(2), words=(near(draw, 1, gas),))
    if kind == MEASURE:
        return entry(day, kind, account, words=(near(draw, 0, 300_000),))
    if kind == USAGE:
        return entry(day, kind, account, words=(near(draw, 0, 10**8),))
    if kind == CLOSE_DAY:
        return entry(day, kind)
    if kind == CONFISCATED:
        return entry(day, kind, account, words=(near(draw, 0, gas),))
    if kind == HOLIDAY:
        return entry(day, kind, words=named_words(draw))
    return entry(day, kind, words=[near(draw, 0, 10**5) for _ in range(4)])
