"""Compares the console's `time` and `stamp` with Python's zoneinfo for Europe/Paris, and prints how many agreed."""
import datetime as dt
import subprocess
import sys
import zoneinfo

LAST = 52_595_939
ORIGIN = dt.datetime(2000, 1, 1, tzinfo=dt.timezone.utc)
PARIS = zoneinfo.ZoneInfo("Europe/Paris")
MINUTE = dt.timedelta(minutes=1)
WINTER, SUMMER = 60, 120


def label(stamp):
    """Local time, its day number, minute of day and summer mark."""
    local = (ORIGIN + stamp * MINUTE).astimezone(PARIS)
    day = local.date().toordinal() - dt.date(2000, 1, 1).toordinal()
    return local, day, local.hour * 60 + local.minute, int(local.dst() != dt.timedelta(0))


def moment_line(stamp):
    local, day, minute, mark = label(stamp)
    date = local.date().isoformat()
    return f"moment {stamp} day {day} date {date} weekday {local.isoweekday()} minute {minute} mark {mark}"


def stamp_line(day, minute, mark):
    """The stamp with this label, found by trying the two that can have it."""
    for offset in (WINTER, SUMMER):
        stamp = day * 1440 + minute - offset
        if 0 <= stamp <= LAST and label(stamp)[1:] == (day, minute, mark):
            return f"stamp {stamp}"
    return "refused 16 side 0 place 0"


def changes():
    """The stamps at which the mark changes, found hour by hour."""
    before = label(0)[3]
    for stamp in range(60, LAST + 1, 60):
        mark = label(stamp)[3]
        if mark != before:
            yield stamp
        before = mark


def cases():
    around = list(changes())
    if len(around) != 200:
        sys.exit(f"Python finds {len(around)} changes, not 200")
    stamps = set(range(0, LAST + 1, 60)) | {LAST}
    for change in around:
        stamps.update(range(change - 180, change + 181))
    for stamp in sorted(stamps):
        yield f"time {stamp}", moment_line(stamp)
        _, day, minute, mark = label(stamp)
        yield f"stamp {day} {minute} {mark}", f"stamp {stamp}"
        yield f"stamp {day} {minute} {1 - mark}", stamp_line(day, minute, 1 - mark)
    # the hour that each spring leaves out
    for change in around:
        _, day, minute, mark = label(change)
        if mark == 1:
            for left_out in range(minute - 60, minute):
                for either in (0, 1):
                    yield f"stamp {day} {left_out} {either}", "refused 16 side 0 place 0"


def main():
    commands, expected = zip(*cases())
    script = "\n".join(commands) + "\n"
    run = subprocess.run([sys.argv[1]], input=script, stdout=subprocess.PIPE, text=True, check=True)
    answers = run.stdout.splitlines()
    if len(answers) != len(expected):
        print(f"{len(expected)} commands got {len(answers)} answers")
    wrong = [row for row in zip(commands, expected, answers) if row[1] != row[2]]
    for command, want, got in wrong[:20]:
        print(f"{command}: Python says '{want}', the console '{got}'")
    agreed = sum(want == got for want, got in zip(expected, answers))
    print(f"{agreed} of {len(expected)} answers agree")
    sys.exit(0 if agreed == len(expected) == len(answers) else 1)


main()
