"""The calendar: times YYYY-MM-DDThh:mm:ss as seconds since the year 1 began, and back."""
import bisect
import itertools
import re

YEARS = range(1, 10000)
MONTHS = range(1, 13)
DAY = 86400
FORM = re.compile(rb'([0-9]{4})-([0-9]{2})-([0-9]{2})T([0-9]{2}):([0-9]{2}):([0-9]{2})')


def leap(year):
    return year % 400 == 0 if year % 100 == 0 else year % 4 == 0


def month_length(year, month):
    if month == 2:
        return 29 if leap(year) else 28
    return 30 if month in (4, 6, 9, 11) else 31


# The days before each year, and before the year after the last.
DAYS_BEFORE = [0, *itertools.accumulate(365 + leap(year) for year in YEARS)]


def seconds_of(text):
    """The seconds before a time; none where the text is no time."""
    found = FORM.fullmatch(text)
    if not found:
        return None
    year, month, day, hour, minute, second = map(int, found.groups())
    if year not in YEARS or month not in MONTHS or not 1 <= day <= month_length(year, month):
        return None
    if hour > 23 or minute > 59 or second > 59:
        return None
    days = DAYS_BEFORE[year - 1] + sum(month_length(year, m) for m in range(1, month)) + day - 1
    return days * DAY + hour * 3600 + minute * 60 + second


def time_text(seconds):
    """The time after so many seconds; none where the last year is over."""
    days, rest = divmod(seconds, DAY)
    if days >= DAYS_BEFORE[-1]:
        return None
    year = bisect.bisect_right(DAYS_BEFORE, days)
    days -= DAYS_BEFORE[year - 1]
    month = 1
    while days >= month_length(year, month):
        days -= month_length(year, month)
        month += 1
    return b'%04d-%02d-%02dT%02d:%02d:%02d' % (
        year, month, days + 1, rest // 3600, rest // 60 % 60, rest % 60)
