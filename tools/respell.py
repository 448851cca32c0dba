#!/usr/bin/env python3
"""Spells the definitions, lemmas and fields of specs/ and proofs/ in snake case.

usage: python3 tools/respell.py        at the top of the repository, once, after the toolchain's port.py

It reads the antt files, the clauses of the sources and the must-fail edits. A lemma that would get the name of its
definition gets `_lem`. The names of goals, and of what the sources declare, stay as they are.
"""
import os
import re

# old name, new name
NAMES = dict(
    row.split()
    for row in """
    all-equal all_equal
    all-orders all_orders
    apart-rest apart_rest
    append-none append_none
    atPeak at_peak
    autumn-place autumn_place
    before-autumn before_autumn
    before-spring before_spring
    blank-kept blank_kept
    blankSeason blank_season
    blankSlot blank_slot
    bytes-sound bytes_sound
    bytesIn bytes_in
    carried-lawful carried_lawful
    change-day-at change_day_at
    changeDay change_day
    changeDays change_days
    choices-sound choices_sound
    commonDate common_date
    compatible-kept compatible_kept
    compatible-more compatible_more
    compatible-push compatible_push
    count-bounds count_bounds
    date-below date_below
    date-in-year date_in_year
    date-lawful date_lawful_lem
    date-none date_none
    date-number date_number_lem
    date-parts date_parts
    date-sound date_sound_lem
    date-valid date_valid
    dateFields date_fields
    dateLawful date_lawful
    dateNumber date_number
    dateOf date_of
    datePlan date_plan
    dateReading date_reading
    dateSound date_sound
    dateTables date_tables
    day-bound day_bound
    day-fills day_fills
    day-from day_from
    day-in-month day_in_month
    day-in-year day_in_year
    day-is day_is
    day-of-date day_of_date
    day-of-month-bound day_of_month_bound
    day-of-month-is day_of_month_is
    day-of-month-same day_of_month_same
    day-of-month-within day_of_month_within
    day-of-year-is day_of_year_is
    day-parts day_parts
    day-same day_same
    day-to day_to
    day-within day_within
    dayAt day_at
    dayFields day_fields
    dayInMonth day_in_month
    dayNumber day_number
    dayOf day_of
    dayOfMonth day_of_month
    dayOfYear day_of_year
    every-at every_at
    every-from every_from
    every-row every_row
    field-fault field_fault
    field-none field_none
    field-on field_on
    field-stop field_stop
    filled-all filled_all
    first-append first_append
    first-from first_from
    first-start first_start
    firstWrong first_wrong
    found-fault found_fault
    from-autumn from_autumn
    from-midnight from_midnight
    from-spring from_spring
    fromMidnight from_midnight
    holds-from holds_from
    in-month in_month
    in-range in_range
    in-turn in_turn
    is-order is_order
    isRead is_read
    january-first january_first
    label-bounds label_bounds
    label-found label_found
    label-local label_local
    label-summer label_summer
    labelFields label_fields
    laid-by-map laid_by_map
    laid-by-order laid_by_order
    laid-lawful laid_lawful
    laid-ruled laid_ruled
    laid-told laid_told
    last-all last_all
    last-is last_is
    last-keeps last_keeps
    last-next last_next
    last-no last_no
    last-started last_started_lem
    last-sunday last_sunday_lem
    last-sundays last_sundays
    last-yes last_yes
    lastBegun last_begun
    lastStarted last_started
    lastSunday last_sunday
    late-rest late_rest
    late-stop late_stop
    leap-is leap_is
    leapYear leap_year
    left-in-december left_in_december
    local-is local_is
    local-next local_next
    localOf local_of
    minute-is minute_is
    minute-same minute_same
    minuteOf minute_of
    misformed-fault misformed_fault
    momentOf moment_of
    month-at-least month_at_least
    month-at-most month_at_most
    month-bound month_bound
    month-day-of-date month_day_of_date
    month-from month_from
    month-is month_is
    month-lawful month_lawful
    month-more month_more
    month-none month_none
    month-of-date month_of_date
    month-parts month_parts
    month-same month_same
    month-sound month_sound_lem
    month-to month_to
    month-within month_within
    monthFields month_fields
    monthLength month_length
    monthOf month_of
    monthPlan month_plan
    monthReading month_reading
    monthSound month_sound
    monthStart month_start
    monthTables month_tables
    months-fill months_fill
    months-fit months_fit
    months-rise months_rise
    next-not next_not
    next-year next_year
    no-fault no_fault
    no-stamp no_stamp
    none-parts none_parts
    not-later not_later
    of-date of_date
    of-day of_day
    of-month of_month
    of-stamp of_stamp
    offPeak off_peak
    one-date one_date
    one-moment one_moment
    one-stamp one_stamp
    orderNo order_no
    orderedOver ordered_over
    ordersAfter orders_after
    overlap-at overlap_at
    overlap-none overlap_none
    overlaps-kept overlaps_kept
    overlaps-push overlaps_push
    period-from period_from
    period-kept period_kept
    period-to period_to
    periodAt period_at
    periodLawful period_lawful
    periodOf period_of
    periodOn period_on
    plainDay plain_day
    plainLabels plain_labels
    planned-lawful planned_lawful
    profile-parts profile_parts
    profile-sound profile_sound_lem
    profileIn profile_in
    profileSound profile_sound
    profiles-sound profiles_sound
    profilesIn profiles_in
    replyOf reply_of
    rising-from rising_from
    rising-more rising_more
    rising-parts rising_parts
    rising-row rising_row
    ruled-cond ruled_cond
    same-hour same_hour
    same-summer same_summer
    season-date season_date
    season-parts season_parts
    season-week season_week
    seasonFields season_fields
    seasonIn season_in
    seasons-are seasons_are
    seasons-fill seasons_fill
    seasons-fill-the-year seasons_fill_the_year
    seasons-rise seasons_rise
    seasons-sound seasons_sound
    slot-parts slot_parts
    slot-period slot_period
    slot-periods slot_periods
    slot-start slot_start
    slotFields slot_fields
    slotIn slot_in
    slots-fill slots_fill
    slots-fill-the-day slots_fill_the_day
    slots-rise slots_rise
    some-from some_from
    spring-place spring_place
    spring-summer spring_summer
    spring-winter spring_winter
    stamp-is stamp_is
    stamp-same stamp_same
    startLawful start_lawful
    summer-between summer_between
    summer-intervals summer_intervals
    summer-is summer_is
    summer-over summer_over
    summer-same summer_same
    summer-year summer_year
    summerAt summer_at
    summerFrom summer_from
    summerUntil summer_until
    then-on then_on
    then-stop then_stop
    too-late too_late
    underOrder under_order
    up-to up_to_lem
    used-are used_are
    week-kept week_kept
    weekAmong week_among
    weekLawful week_lawful
    weekOf week_of
    weekOn week_on
    weekday-is weekday_is
    weekdayFields weekday_fields
    weekdayOf weekday_of
    weekdayPlan weekday_plan
    weekdayReading weekday_reading
    weeks-sound weeks_sound
    weeksIn weeks_in
    wideAt wide_at
    within-hour within_hour
    year-between year_between
    year-from year_from
    year-holds year_holds
    year-is year_is
    year-of-date year_of_date
    year-start year_start_lem
    year-started year_started
    year-to year_to
    yearLength year_length
    yearOf year_of
    yearStart year_start
    years-is years_is
""".strip().split("\n")
)

# a lemma that shares its name with a field of another file
IN_FILE = {"crates/calendars/specs/Lawful.antt": {"from-midnight": "from_midnight_lem"}}

NAME = re.compile(r"[^\s(){}\[\],;.:λ\"⌜⌝«»`|@∥]+")
# what Rattle makes: a goal, or a step of a function's code
MADE = re.compile(r"\b(goal|given|need|c|w|l)\.$")


def respelled(line, names):
    out, end = [], 0
    for m in NAME.finditer(line):
        new = names.get(m.group(0))
        if new is None or MADE.search(line[: m.start()]):
            continue
        out += [line[end : m.start()], new]
        end = m.end()
    return "".join(out) + line[end:]


def is_comment(line):
    return line.lstrip().startswith("//")


def turned(path, text):
    names = NAMES | IN_FILE.get(path, {})
    lines = []
    for line in text.split("\n"):
        if not is_comment(line):
            line = respelled(line, names)
            if path.endswith(".edit") and "file: specs/" in text and not line.startswith("file:"):
                line = re.sub(r"(?<=\w) \.(?=\w)", ".", line)
        lines.append(line)
    return "\n".join(lines)


def main():
    for folder, _, files in os.walk("crates"):
        for name in sorted(files):
            path = os.path.join(folder, name)
            if name.endswith((".antt", ".rt", ".edit")):
                with open(path, encoding="utf-8") as f:
                    old = f.read()
                new = turned(path, old)
                if new != old:
                    with open(path, "w", encoding="utf-8") as f:
                        f.write(new)


main()
