"""Lists of requests for tools/fits: random ones, such as are not run, and what the model makes of a list.

A list is its text here, of which the lines alone are looked at that have more than a comment: the words of the arena,
then "A 12", "free A" or "report".
"""

from collections import namedtuple

from . import cases, model

FITS = {"first fit": cases.ALLOC, "best fit": cases.ALLOC_BEST, "next fit": cases.ALLOC_NEXT}
NUMBERS = ["free words", "largest request", "live blocks", "free chunks"]
REASONS = {model.ZERO: "Zero", model.TOO_LARGE: "TooLarge", model.NO_ROOM: "NoRoom"}

# What the table has: a request with a cell for each fit, which is a block and its granted words or one word, and the
# rover; or a report with the four numbers of each fit. What the drawing has at a report: a heading, and each fit's
# strip, with its numbers and what was refused since the last report.
Made = namedtuple("Made", "number told cells rover")
Reported = namedtuple("Reported", "numbers")
Moment = namedtuple("Moment", "heading strips")
Strip = namedtuple("Strip", "name chunks rover numbers refused")

# A chunk of a strip: the name of its block, or None where it is free, where it starts, and its size.
Chunk = namedtuple("Chunk", "name start size")

# A list with much in it: a mark of the byte order, a report before all requests, labels with little room or none, one
# refusal that is too wide to be told, many of them, none after these, and a name that is asked for again, and refused.
LONG_NAME, MANY = 90 * "L", "".join(f"N{at} 997\n" for at in range(20))
MUCH = (f"\ufeff1000 words\nreport\nA 16\nB 24\nC 40\nD 2\nfree B\nreport\n{LONG_NAME} 997\nreport\n{MANY}report\n"
        "free N0\nfree A\nA 997\nfree A\nreport\nE 4\n")

# Lists that show less; the last one has a thousand requests.
SHORT = ["64 words\nA 24\nB 6\nfree A\nC 16\nD 16\n", "6 words", "6 words\nreport\nreport\n",
         "  96   words # an arena\n\n#\nreport\nA\t7\r\nreport", "8 words\nA 1\nB 1\nfree B\nB 9\n",
         "16384 words\nA 16380\nA2 4294967295\nfree A2\nfree A\nA_third 0\n", "64 words\nA 4\nfree A\nA 61\nfree A\n",
         "6 words\n" + 500 * "A 2\nfree A\n"]

# Lists that are not run, each with what is said of it: one of each kind, and others.
BAD = [
    ("", "no line says how many words"), ("A 12\n", "line 1: 'A 12' does not say"),
    ("97 words\n", "line 1: no arena has 97 words"), ("96 words\nA twelve\n", "line 2: 'A twelve' is neither"),
    ("96 words\nfree 12\n", "line 2: 'free 12' is neither"), ("96 words\nA 4294967296\n", "line 2: nobody can ask"),
    ("96 words\nA 2\n\nA 4\n", "line 4: A is asked for already"), ("96 words\nfree A\n", "line 2: A is not asked for"),
]
MORE_BAD = [
    ("# 96 words\n\n", "no line says how many words"), ("96\n", "line 1: '96' does not say"),
    ("\n# here\n96 Words\n", "line 3: '96 Words' does not say"), ("9e1 words\n", "line 1: '9e1 words' does not say"),
    ("\n4 words\n", "line 2: no arena has 4 words"), ("16386 words\n", "line 1: no arena has 16386 words"),
    ("999999999999 words\n", "line 1: no arena has 99"), ("96 words\nA\n", "line 2: 'A' is neither"),
    ("96 words\nA 12 13\n", "line 2: 'A 12 13' is neither"), ("96 words\nA -2\n", "line 2: 'A -2' is neither"),
    ("96 words\n12 A\n", "line 2: '12 A' is neither"), ("96 words\n96 words\n", "line 2: '96 words' is neither"),
    ("96 words\nfree\n", "line 2: 'free' is neither"), ("96 words\nreport 12\n", "line 2: 'report 12' is neither"),
    ("96 words\n\u00c4 12\n", "line 2: '\u00c4 12' is neither"),
    ("96 words\nA \uff11\n", "line 2: 'A \uff11' is neither"),
    ("96 words\nA 1234567890123\n", "line 2: 'A 1234567890123' is neither"),
    ("96 words\nA 2\nfree a\n", "line 3: a is not asked for"),
    ("96 words\nA 2\nfree A\nfree A # twice\n", "line 4: A is not asked for, or is freed already"),
]


class Run:
    """The model's run of a list under one fit."""

    def __init__(self, fit, words):
        self.fit = fit
        self.words = cases.answer_to(cases.Case(cases.START, 0, 0, [0] * words)).words
        self.held = {}
        self.rover = 0
        self.refused = []

    def make(self, call, block, asked):
        """Makes a call on the arena."""
        answer = cases.answer_to(cases.Case(call, block, asked, self.words))
        self.words = answer.words
        return answer

    def cell(self, told):
        """Makes a request, and gives what the table has of it."""
        name, asked = told.split(" ")
        if name == "free":
            return "freed" if asked in self.held and self.make(cases.FREE, self.held.pop(asked), 0) else "-"
        answer = self.make(FITS[self.fit], self.rover, int(asked))
        if FITS[self.fit] == cases.ALLOC_NEXT:
            self.rover = answer.fields[2]
        if answer.code != model.DONE:
            self.refused.append(f"{told} ({REASONS[answer.code]})")
            return REASONS[answer.code]
        self.held[name] = answer.fields[0]
        return answer.fields[:2]

    def numbers(self):
        """The four numbers of a report."""
        return self.make(cases.REPORT, 0, 0).fields

    def stand(self):
        """What has to be alike under each fit for one strip to show all of them."""
        return self.words, self.held, self.refused

    def strip(self, name):
        """The strip of this fit, called so; what is refused from now on goes with the next one."""
        live, gaps = model.live_and_gaps(self.words)
        names = {block - model.HEADER: held for held, block in self.held.items()}
        chunks = [Chunk(names.get(start), start, size) for start, size in sorted(live + gaps)]
        refused, self.refused = self.refused, []
        return Strip(name, chunks, self.rover if self.fit == "next fit" else None, self.numbers(), refused)


def steps_in(text):
    """The words of the arena and what the other lines say, with one space between words; a report ends them."""
    lines = [" ".join(line.split("#")[0].split()) for line in text.removeprefix("\ufeff").splitlines()]
    first, *steps = [line for line in lines if line]
    return int(first.split(" ")[0]), steps + ["report"] * (steps[-1:] != ["report"])


def heading_of(number, since):
    """The heading of a report after so many requests: it has those that were made since the last one."""
    return f"After request {number}" + ": " * bool(since) + ", ".join(since) if number else "Before the first request"


def run_of(text):
    """What the model makes of a list: the rows of the table, and the moments of the drawing."""
    words, steps = steps_in(text)
    runs = [Run(fit, words) for fit in FITS]
    rows, moments, number, since = [], [], 0, []
    for told in steps:
        if told != "report":
            number += 1
            since.append(told)
            rows.append(Made(number, told, [run.cell(told) for run in runs], runs[-1].rover))
            continue
        rows.append(Reported([run.numbers() for run in runs]))
        alike = all(run.stand() == runs[0].stand() for run in runs)
        strips = [run.strip("all three" if alike else run.fit) for run in runs]
        moments.append(Moment(heading_of(number, since), strips[-1:] if alike else strips))
        since = []
    return rows, moments


def rows_in(table):
    """The rows of a table that was printed."""
    lines = [line.split() for line in table.split("\n")[4:] if line]
    rows = []
    while lines:
        fields = lines.pop(0)
        if not fields[0].isdigit():
            numbers = [fields, *(lines.pop(0) for at in range(len(NUMBERS) - 1))]
            rows.append(Reported(list(zip(*(map(int, line[2:]) for line in numbers)))))
            continue
        number, name, asked, *rest = fields
        cells = [(int(rest.pop(0)), int(rest.pop(0))) if rest[0].isdigit() else rest.pop(0) for fit in FITS]
        rows.append(Made(int(number), f"{name} {asked}", cells, *map(int, rest)))
    return rows


def random_list(random):
    """A list of some requests on an arena of up to 200 words, now and then of more, with reports in it."""
    words = 2 * random.randrange(3, 100) if random.random() < 0.9 else random.choice([6, 8, 1000, 16384])
    usual = max(words // random.choice([6, 10, 16]), 2)
    lines, held, count = [f"{words} words"], [], 0
    for _ in range(random.randrange(60)):
        kind = random.random()
        if kind < 0.1:
            lines.append(random.choice(["report", "", "# a pause", "report # now"]))
        elif held and kind < 0.5:
            lines.append(f"free {held.pop(random.randrange(len(held)))}")
        else:
            count += 1
            held.append(random.choice(["N{}", "Name{}", "trace_{}"]).format(count))
            large = random.choice([random.randint(usual, 3 * usual)] * 9 + [words - 4, words - 3, 0])
            lines.append(f"{held[-1]} {random.choice([random.randint(1, usual), large])}")
    return "\n".join(lines) + random.choice(["", "\n"])
