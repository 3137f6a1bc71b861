"""What run.py writes into docs/peers.md: the table of all peers, the tests that matter most, and the peers' calls."""
import re
import textwrap
from collections import defaultdict
from pathlib import Path

from peers.matters import MATTERS
from vectors import VERSION

TOP = str(Path(__file__).resolve().parents[1])
PAGE = f"{TOP}/docs/peers.md"
BEGIN, END = "<!-- what peers/run.py writes -->\n", "<!-- until here -->\n"
HEAD = ("| Reader | Version | Invalid, taken | Valid, refused | Acceptable | As DER | In BER | Other value | Nothing "
        "| Crashes |\n|---|---|---|---|---|---|---|---|---|---|\n")


def of(count, whole):
    return f"{count} of {whole}" if whole else "none asked"


def row(about, counts):
    """The row of a peer in the table."""
    invalid, valid, acceptable = (counts[it] for it in ("invalid", "valid", "acceptable"))
    crashes = sum(it["crashed"] for it in counts.values())
    told = [acceptable[it] for it in ("as DER", "in BER", "as another value", "taken")]
    wrong = [of(it["wrong"], it.total()) for it in (invalid, valid)]
    cells = [about["name"], about["version"], *wrong, acceptable.total(), *told, crashes]
    return f"| {' | '.join(map(str, cells))} |\n"


def shown(test):
    """What a test shows, without the field that it shows it at."""
    return re.sub(r", at .*", "", test["comment"].partition("; new: ")[2])


def fails(test, told):
    """Whether an outcome is a failure of a reader."""
    return told in ("wrong", "crashed", "as another value") or told == "taken" and "der" not in test


def failed(given, all_found, outcome):
    """The readers that were asked each test, and whether each fails it."""
    found = defaultdict(dict)
    for about, answers in all_found:
        for key, answer in answers.items():
            found[key][about["name"]] = fails(given[key], outcome(given[key], answer))
    return found


def test_of(matter, given, found):
    """The test of what matters that most readers fail, the shortest of them."""
    shown_by = [key for key in found if key[0] in matter.kinds.split() and
                re.search(matter.pattern, given[key]["comment"])]
    return min(shown_by, key=lambda key: (-sum(found[key].values()), len(given[key]["document"]), key))


def by_whom(readers):
    """Who fails a test, or, where that are most, who doesn't."""
    failing, right = ([it for it, is_failing in readers.items() if is_failing == which] for which in (True, False))
    if not failing or not right:
        return f"all {len(failing)}" if failing else f"none of {len(right)}"
    names = "; ".join(failing) if len(failing) <= len(right) else f"all but {'; '.join(right)}"
    return f"{len(failing)} of {len(readers)}: {names}"


def matter_text(matter, given, found):
    """An item of those that matter most: the test, what is due, and who fails it."""
    key = test_of(matter, given, found)
    test = given[key]
    does = "Written as another value" if "der" in test else "Taken"
    due = "; ".join(test.get("clauses", [])) or ("sound, in BER" if "der" in test else "no clause: it isn't counted")
    return wrapped(f"{key[0]} {key[1]}, {shown(test)} ({due}): {matter.why}. {does} by {by_whom(found[key])}.")


def wrapped(text):
    """An item of a list, in lines."""
    how = {"subsequent_indent": "  ", "break_long_words": False, "break_on_hyphens": False}
    return textwrap.fill(f"- {text}", 120, **how) + "\n"


def crashes(given, all_found, outcome):
    """The tests that readers died at, by the readers and what the tests show."""
    for about, answers in all_found:
        found = defaultdict(list)
        for key, answer in answers.items():
            if outcome(given[key], answer) == "crashed":
                found[shown(given[key])].append(f"{key[0]} {key[1]}")
        yield from (wrapped(f"{about['name']} {about['version']}: {what}: {', '.join(numbers)}.")
                    for what, numbers in found.items())


def text_of(given, all_found, outcome, counted):
    """What the page has between its marks."""
    rows = "".join(row(about, counted(given, answers)) for about, answers in all_found)
    found = failed(given, all_found, outcome)
    matters = "".join(matter_text(it, given, found) for it in MATTERS)
    calls = "".join(wrapped(f"{it['name']}: {it['call']} ({', '.join(it['kinds'])}).") for it, _ in all_found)
    died = "".join(crashes(given, all_found, outcome)) or "None.\n"
    return (f"\nVectors {VERSION}.\n\n{HEAD}{rows}\n## The crashes\n\n{died}\n"
            f"## The twenty that matter most\n\n{matters}\n## The calls\n\n{calls}\n")


def takes_invalid(given, answers, outcome):
    """Whether a peer takes an invalid document."""
    return any(outcome(given[key], it) == "wrong" and given[key]["result"] == "invalid" for key, it in answers.items())


def write(given, all_found, outcome, counted):
    """Writes the page; the number of README has to be changed by hand, and is told."""
    written = text_of(given, all_found, outcome, counted)
    with open(PAGE, encoding="utf-8") as file:
        head, _, rest = file.read().partition(BEGIN)
    with open(PAGE, "w", encoding="utf-8") as file:
        file.write(f"{head}{BEGIN}{written}{END}{rest.partition(END)[2]}")
    taking = sum(takes_invalid(given, answers, outcome) for _, answers in all_found)
    print(f"{taking} of {len(all_found)} readers take an invalid document")
