"""What each line of spfc means and what helps: the tables of spfc-explain and of docs/ADMINISTRATORS.md."""

import re
from collections.abc import Iterable, Mapping
from dataclasses import dataclass


@dataclass(frozen=True)
class Entry:
    """What something means, and what helps; both as the documents have them, with marks for code."""

    meaning: str
    help: str

    @property
    def plain(self) -> "Entry":
        """The same for a terminal, without the marks."""
        return Entry(self.meaning.replace("`", ""), self.help.replace("`", ""))


_NO_LIST = 'such a policy has no list of networks: take the term out, or see "A policy with macros"'
_COPY = (
    "give a gathered file, or a copy with only the names that the policy asks for and their answers, the TXT records "
    "of the domain, and everything at or below the names of the chain"
)

CAUSES: Mapping[str, Entry] = {
    "norecord": Entry("the domain has no SPF record", "write one, or compile another domain"),
    "outside": Entry(
        "an answer is outside the zones that were read, or below a delegation: with TERM 0 the answer for NAME, with "
        'another TERM one that this term asks for (see "Gather")',
        "read that zone too; if you use a gathered file, gather with the options that you compile with",
    ),
    "lookups": Entry(
        "the term is one lookup too many",
        "use fewer includes; or `--lookups` up to 20, to read what receivers no longer follow; above 20 see "
        '"Over 20 lookups"',
    ),
    "voids": Entry(
        "the term got one void answer too many", "take out names that no longer exist; or read with `--voids`"
    ),
    "exchanges": Entry("an `mx` term has too many exchanges", "`--exchanges`, or networks in place of `mx`"),
    "syntax": Entry("the record breaks the grammar", "correct it; receivers give a permanent error"),
    "records": Entry("the name has more than one SPF record", "leave one"),
    "missing": Entry(
        "an included or redirected name is not a legal name, or has no SPF record",
        "take the term out, receivers give a permanent error; if you wrote the zones by hand, check that the file has "
        "the name",
    ),
    "alias": Entry("aliases go on after 8 steps, or in a circle", "correct the aliases"),
    "target": Entry("the name that `a`, `mx` or `exists` asks for is not a legal name", "correct the term"),
    "sender": Entry(
        "the term needs the sender's address (`%{s}`, `%{l}`, `%{o}`)",
        _NO_LIST,
    ),
    "helo": Entry(
        "the term needs the name that the sending host gives (`%{h}`)",
        _NO_LIST,
    ),
    "address": Entry(
        "the term needs the address itself (`%{i}`) in another form than `exists:%{ir}.NAME`, or NAME is longer than "
        "189 characters",
        _NO_LIST,
    ),
    "reverse": Entry(
        "the term needs the name of the address (`ptr`, `%{p}`)",
        _NO_LIST,
    ),
}

LINES: Mapping[str, Entry] = {
    "refused ADDRESS CAUSE NAME TERM": Entry(
        "some address has no verdict: ADDRESS is the least of these", "see below, by CAUSE"
    ),
    "refused alias DOMAIN": Entry(
        "the domain itself is an alias (a CNAME record), so it can have no TXT record",
        "publish at the target, or put records in place of the alias",
    ),
    "refused taken K NAME": Entry(
        "a record already exists at or below the name of the K-th record after the first", "choose another `--label`"
    ),
    "too big": Entry(
        "the list does not fit into 11 records of this size, or the domain's other texts leave no room for the first",
        'a larger `--size`, or fewer other texts at the domain; see "Size, and the other TXT records"',
    ),
    "usage": Entry(
        "the arguments are not a job: an option that the command does not take, that comes after a zone word, or that "
        "is given twice, a number out of range, a label that does not begin with `_`, a final dot on DOMAIN, no zone "
        "word, two of one origin or more than 64 (with `compare`, on either side of `with`), or LABEL10.DOMAIN longer "
        "than 253 characters",
        "correct the arguments; `spfc help COMMAND` has the synopsis",
    ),
    "no file FILE": Entry(
        "there is no such file",
        "correct the path; one that does not begin with `/` is relative to the current folder",
    ),
    "long file FILE": Entry(
        "the file has more than 8,388,608 bytes",
        _COPY,
    ),
    "too many records ORIGIN": Entry("with this zone there are more than 65,536 different records", _COPY),
    "bad zone FILE LINE KIND": Entry(
        "the entry that begins on this line is the first that is broken or has no meaning", "see below, by KIND"
    ),
    "bad list FILE LINE": Entry(
        "FILE is not a list that `keep` wrote: this line is the first that does not have the form of a kept list, "
        "which is line 1 for an empty file",
        "write the list anew with `keep`, and do not change it by hand",
    ),
    "alias and other ORIGIN NAME": Entry(
        "NAME has two different CNAME records, or a CNAME record and an A, AAAA, MX, TXT or NS record",
        "remove the alias or the rest",
    ),
    "read fault FILE": Entry(
        "the file could not be read, for example because it is a folder", "name a file that you may read"
    ),
}

REASONS: Mapping[str, Entry] = {
    "no zone LINE KIND": Entry(
        "the file is not a master file: the entry that begins on this line is the first that is broken or has no "
        "meaning",
        "see the table by KIND below",
    ),
    "no chain": Entry(
        "the records of the file are not a chain: 1 to 11 TXT records at the domain, LABEL1, LABEL2 and so on, in this "
        "order, of `ip4`, `ip6` and `all` terms, each leading to the next by `redirect`",
        "take other records out of the file; a record with `a`, `mx` or `include` is not flat: compile it",
    ),
    "no verdict ADDRESS": Entry(
        "this is the least address to which the file gives another verdict than the zones",
        "run `check` for it, over the zones and over the file. Do not publish: the file is wrong, or it was made from "
        "other zones",
    ),
    "no table LINE": Entry(
        "the verdicts are right, but the table does not show that no list is shorter: this line is misspelled, "
        "misplaced, wrong or missing",
        "ask for the whole fragment with its comments, or make a table yourself: compile the file as the zone of the "
        "domain",
    ),
    "no terms": Entry(
        "the verdicts are right, and the table shows that the list is too long",
        "compile the zones, or accept the longer list",
    ),
    "no records": Entry(
        "a record takes more room than `--size` allows, or the list would fit into fewer records",
        "give the size that the file was made for; otherwise compile the zones",
    ),
}
"""Why `verify` does not accept a file."""

WATCHED: Mapping[str, Entry] = {
    "fresh": Entry(
        "each question of the list is answered as it was; if the list is whole, as `keep` wrote it, the policy gives "
        "every address the outcome that it gave",
        "the policy asks for nothing; use `verify` to check the published records",
    ),
    "stale NAME KIND": Entry(
        "this is the first question of the list whose answer has changed",
        "gather again, compile, and `compare` with the published records: a changed answer need not change a verdict",
    ),
}
"""What `stale` says of a kept list that is one."""

QUESTIONS: Mapping[str, Entry] = {
    "A": Entry("the IPv4 addresses of a name, or for `exists` whether it has any", "`a`, `mx` of its hosts, `exists`"),
    "AAAA": Entry("the IPv6 addresses of a name", "`a`, `mx` of its hosts"),
    "MX": Entry("the mail hosts of a name", "`mx`"),
    "TXT": Entry("the record of a name", "the policy itself, `include`, `redirect`"),
    "REVERSE4": Entry(
        "for each IPv4 address whether its four numbers, the last first, prepended to the name have an A record",
        "`exists:%{ir}.NAME`",
    ),
    "REVERSE6": Entry(
        "for each IPv6 address whether its 32 hexadecimal digits, the last first, prepended to the name have an A "
        "record",
        "`exists:%{ir}.NAME`",
    ),
}
"""What a question of each kind asks for, and which terms ask it."""

_FLAT = "write the zone out flat first: `named-compilezone -o flat example.com zone`"
_OUT = "take these records out of the copy"
_CORRECT = "correct the entry that begins on that line"

KINDS: Mapping[str, Entry] = {
    "BadEscape": Entry(
        "a backslash is followed by neither three digits up to 255 nor a character that may be escaped", _CORRECT
    ),
    "OpenQuote": Entry(
        "a line or the file ends inside quotes", "close the quotes on the same line; a long text is several strings"
    ),
    "StrayParen": Entry("a closing parenthesis has no opening one", _CORRECT),
    "OpenParen": Entry("the file ends inside parentheses", "close them: the entry begins on that line"),
    "Include": Entry("the file includes another one (`$INCLUDE`)", _FLAT),
    "UnknownDirective": Entry("a directive other than `$ORIGIN` and `$TTL`, such as `$GENERATE`", _FLAT),
    "BadTtl": Entry(
        "a TTL is not a number of seconds or of weeks, days, hours, minutes and seconds, or there are two", _CORRECT
    ),
    "BadName": Entry("a name has an empty label, one of more than 63 octets, or more than 255 octets", _CORRECT),
    "BadData": Entry("the data do not fit the type, such as a wrong address, or too many or too few words", _CORRECT),
    "NoOwner": Entry(
        "the first record of the file begins with a blank, so it has no owner",
        "write its owner at the beginning of the line",
    ),
    "NoType": Entry("a record has no type after its owner, TTL and class", _CORRECT),
    "Class": Entry("a class other than IN, or a second class", _OUT),
    "Dname": Entry(
        "a DNAME record",
        f"{_OUT}; if the policy asks for a name below it, write in the answers of that name, or gather",
    ),
    "TypeNumber": Entry(
        "a type that spfc reads is written as a number (`TYPE16`), or data are in the form `\\#`", _FLAT
    ),
    "LongText": Entry(
        "a string of a TXT record has more than 255 octets, or all have more than 65,535",
        "cut the text into strings of 255 octets",
    ),
}

STATUSES: Mapping[int, Entry] = {
    6: Entry(
        "the output or the line could not be written whole",
        "check the disk or the pipe, and use nothing of what was written",
    ),
    7: Entry(
        "there was not enough memory; no output and no line of a refusal was written",
        "run it on a machine with more memory, or read fewer records",
    ),
    9: Entry("an argument is not valid UTF-8; nothing was written", "correct the arguments"),
    125: Entry("the build of the program failed, or a try", "see the messages above"),
}


def markdown(heads: tuple[str, str, str], rows: Iterable[tuple[str, Entry]]) -> str:
    """A table of the documents."""
    lines = [f"| {' | '.join(heads)} |", "|---|---|---|"]
    lines += [f"| `{key}` | {entry.meaning} | {entry.help} |" for key, entry in rows]
    return "\n".join(lines) + "\n"


_VERDICTS = ("pass", "fail", "softfail", "neutral")
_OUTCOME = re.compile(r"(?P<way>none|permerror|temperror|open) (?P<cause>[a-z]+) (?P<name>\S+) (?P<term>\d+)")
_REFUSED = re.compile(r"refused (?P<address>[0-9a-f.:]+) (?P<cause>[a-z]+) (?P<name>\S+) (?P<term>\d+)")
_PLACES = {"K": r"\d+", "LINE": r"\d+", "FILE": r".+"}


@dataclass(frozen=True)
class Line:
    """A line: its form as the tables have it, and the words in the places of the form."""

    text: str
    form: str
    words: dict[str, str]

    @property
    def cause(self) -> str | None:
        """The cause, where the line has one."""
        return self.words.get("CAUSE")


OUTCOME, VERDICT = "OUTCOME CAUSE NAME TERM", "VERDICT"


def read_line(text: str) -> Line | None:
    """The line, where spfc prints such a one."""
    if text in _VERDICTS:
        return Line(text, VERDICT, {})
    for pattern, form in ((_REFUSED, "refused ADDRESS CAUSE NAME TERM"), (_OUTCOME, OUTCOME)):
        found = pattern.fullmatch(text)
        if found and found["cause"] in CAUSES:
            return Line(text, form, {key.upper(): value for key, value in found.groupdict().items()})
    for form in (*LINES, *REASONS, *WATCHED):
        if (found := re.fullmatch(_pattern(form), text)) and "CAUSE" not in form:
            return Line(text, form, found.groupdict())
    return None


def _pattern(form: str) -> str:
    """The form with a group for each place in capitals."""
    words = (f"(?P<{word}>{_PLACES.get(word, r'[^ ]+')})" if word.isupper() else word for word in form.split())
    return " ".join(words)
