"""Times as people enter them: a clock time in UTC, now, or some minutes later than the time that stands there."""
import re
from datetime import datetime, timedelta, timezone

CLOCK = re.compile(r"([01]?\d|2[0-3]):?([0-5]\d)Z?", re.ASCII)
LATER = re.compile(r"([+-])(\d{1,3})", re.ASCII)
BEFORE = timedelta(hours=4)


class BadTime(ValueError):
    """Why a text is no time."""


def instant(text: str, now: datetime, stands: str | None) -> str:
    """The instant that a text means: `10:20`, `1020`, `now`, or `+5`, from the time that stands there.

    A clock time is that of the 24 hours that began 4 hours ago. BadTime, where it is none of these.
    """
    now = now.replace(second=0, microsecond=0)
    if text.strip().lower() == "now":
        return written(now)
    later = LATER.fullmatch(text.strip())
    if later:
        if stands is None:
            raise BadTime("there is no time yet that could be moved")
        minutes = int(later[2]) * (1 if later[1] == "+" else -1)
        return written(
            datetime.strptime(stands, "%Y-%m-%dT%H:%M:%SZ").replace(tzinfo=timezone.utc) + timedelta(minutes=minutes)
        )
    clock = CLOCK.fullmatch(text.strip())
    if not clock:
        raise BadTime("write a time as 10:20, in UTC")
    moment = now.replace(hour=int(clock[1]), minute=int(clock[2]))
    first = now - BEFORE
    while moment < first:
        moment += timedelta(days=1)
    while moment >= first + timedelta(days=1):
        moment -= timedelta(days=1)
    return written(moment)


def written(moment: datetime) -> str:
    return moment.strftime("%Y-%m-%dT%H:%M:00Z")
