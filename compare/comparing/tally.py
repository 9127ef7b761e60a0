"""Counts of what was compared, by question, by kind of sheet and by number of refusal."""

from collections import Counter, defaultdict

from checker.kinds import kinds_of

from .judge import LIMITS, items, judge, refusal_of, text_of

OUTCOMES = ("agree", "listed", "silent", "differ")
ON_SHEETS = ("verdict", "resolve", "get", "as_path", "schema_name", "item_name", "is_supertype",
             "supertype", "list", "number_of", "set_at", "from_path", "listing")
NUMBERS = range(1, 18)  # of refusal


class Tally:
    """The counts of one run."""

    def __init__(self):
        self.outcomes = defaultdict(Counter)
        self.kinds = Counter()
        self.refusals = Counter()
        self.items = Counter()
        self.limits = Counter()
        self.costly = 0
        self.sheets = set()
        self.asked = set()
        self.port = Counter()

    def enter(self, question, rust, checker):
        """Judges one question."""
        asked, *words = question.split(" ")
        outcome = judge(question, rust, checker)
        number, _ = refusal_of(asked, checker) or (None, 0)
        self.outcomes[asked][outcome] += 1
        self.refusals[number] += 1
        self.costly += rust == "silent costly"
        if outcome == "listed":
            self.limits[number] += 1
        if asked == "listing" and number is None:
            self.items.update(_refused_items(text_of(checker)))
        if asked in ON_SHEETS:
            self.asked.add(words[0])
        if asked in ON_SHEETS and outcome == "agree":
            self._enter_sheet(words[0])
        if asked == "verdict" and outcome == "silent":
            self.kinds[f"refused with {number}, and not read by the Rust's shim"] += 1
        return outcome

    def _enter_sheet(self, sheet):
        if sheet not in self.sheets:
            self.sheets.add(sheet)
            self.kinds.update(kinds_of(sheet))

    def enter_port(self, port, checker):
        """Judges one answer of the port."""
        outcome = "agree" if port == checker else "differ"
        self.port[outcome] += 1
        return outcome

    def total(self, outcome):
        """How many questions had this outcome."""
        return sum(counts[outcome] for counts in self.outcomes.values())

    def compared(self):
        """Both the Rust and the checker spoke, or the port and the checker."""
        return self.total("agree") + self.total("differ") + sum(self.port.values())

    def differ(self):
        """Of these, the ones that differ."""
        return self.total("differ") + self.port["differ"]

    def report(self):
        """Prints the counts."""
        print("by question: agree, listed, silent, differ")
        for asked, counts in self.outcomes.items():
            print(f"  {asked:13}", *(f"{counts[outcome]:7}" for outcome in OUTCOMES))
        print("by number of refusal, as the checker answers")
        for number, count in sorted(self.refusals.items(), key=_number_first):
            print(f"  {count:7} {'not refused' if number is None else number}")
        print("items of listings by number of refusal")
        for number, count in sorted(self.items.items()):
            print(f"  {count:7} {number}")
        missing = [number for number in NUMBERS if not self.refusals[number] + self.items[number]]
        print("numbers of refusal that were not met:", *missing or ["none"])
        print(f"different sheets asked, valid and damaged: {len(self.asked)}")
        print(f"by kind of sheet; different sheets on which both agree: {len(self.sheets)}")
        for kind, count in sorted(self.kinds.items()):
            print(f"  {count:7} {kind}")
        print(f"listed differences, not counted as compared: {self.total('listed')}")
        for number, count in sorted(self.limits.items(), key=_number_first):
            print(f"  {count:7} {LIMITS.get(number, 'a listing with such an item')}")
        print(f"the checker alone answers: {self.total('silent')}, "
              f"{self.costly} of them since the Rust would take too long")
        print("not compared with the Rust: the numbers 1 to 5, 12 and 15, places other than "
              "those of 6 and 8, short buffers and workspaces")


def _refused_items(text):
    told = (item[0].split(" ") for item in items(text))
    return [int(words[3]) for words in told if words[2] == "refused"]


def _number_first(entry):
    return entry[0] or 0
