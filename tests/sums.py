"""The last lines of a script: what it left out, and how many passed and failed.

'N left out: WHY' counts rows, trees, inputs or single checks; there is no such line where nothing was left out. The last line is
'N passed, M failed'. ./test adds up both.
"""
LEFT = {}


def left_out(count, why):
    """Counts what isn't run, and why."""
    if count:
        LEFT[why] = LEFT.get(why, 0) + count


def summed(passed, failed):
    """Prints the last lines; the status to end with."""
    if LEFT:
        parts = [why if len(LEFT) == 1 else f"{why} ({count})" for why, count in LEFT.items()]
        print(f"{sum(LEFT.values())} left out: {'; '.join(parts)}")
    print(f"{passed} passed, {failed} failed", flush=True)
    return 1 if failed else 0
