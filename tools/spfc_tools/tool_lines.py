"""What each line of the tools around spfc means and what helps: the table of spfc-explain for its own family."""

import re
from collections.abc import Mapping
from dataclasses import dataclass

from spfc_tools.refusals import Entry

_AGAIN = "run the tool again later, or ask another resolver by `@SERVER`"
_FIRST_SIGHT = "read the policy: a final dot may be missing in the zone, or a name may be misspelled or gone"
_REVIEW = "nothing has to be done if the first line of the night is `same`; else look at the change before you publish"
_WORDS = "mend the words; `--help` prints the synopsis"
_LINE = "see what `spfc-explain` says of that line"

TOOL_LINES: Mapping[str, Entry] = {
    # spfc-gather
    "no answer NAME KIND: WHY; give the zone as a file: ZONE": Entry(
        "a list of senders by address is read by zone transfer, and no server transfers its zone",
        "ask the firm for the zone or for the right to transfer it, and name its file",
    ),
    "no answer NAME KIND: WHY": Entry(
        "no name server answered this question; WHY is how the last try failed",
        f"{_AGAIN}; if the name is gone for good, take the term out of the policy",
    ),
    "no reply from SERVERS": Entry(
        "no name server replied to any question",
        "see that a name server runs at this address and port (`-p PORT`), and that no firewall is between",
    ),
    "not asked: whether NAME to NAME are free": Entry(
        "the file was gathered without these names, so it does not say whether a chain may use them",
        "gather with the same `--label`, and without `--no-names`",
    ),
    "not asked: NAME KIND": Entry(
        "the policy asks this question, and the file was gathered without it",
        "gather again, with the options with which you compile",
    ),
    "contradiction: WHY": Entry(
        "the answers of DNS cannot all be true at once",
        f"{_AGAIN}; servers of one zone may have different versions of it",
    ),
    "more than N questions": Entry("the policy asks for more than any real policy does", "see where its includes lead"),
    "no end after N rounds": Entry(
        "the answers lead to further questions without an end", "see where its includes and redirects lead"
    ),
    "FILE is not the text of one SPF record": Entry(
        "the file has no text that begins with `v=spf1`, or has more than one line",
        "write the text of the record alone into it, as one line without quotes",
    ),
    "FILE is not the text of one SPF record: WHY": Entry(
        "the file nearly has the text of a record", "write the text alone into it, as one line without quotes"
    ),
    "no name server SERVER: WHY": Entry("the name or address of the server leads to no address", "mend `@SERVER`"),
    "FILE could not be written: WHY": Entry(
        "the file is not written, and an older one is as it was", "see to the folder, its rights and the disk"
    ),
    "FILE is no zone of ORIGIN: WHY": Entry(
        "the file cannot be read as a zone of this origin", "mend the entry, or name another file"
    ),
    "there is no program spfc here; WHY": Entry("the program was not found", "install it, or name it by `SPFC`"),
    "PROGRAM has no command COMMAND": Entry("the program is older than the tools", "install both anew"),
    "PROGRAM has no command COMMAND, which OPTION needs": Entry(
        "the program is older than the tools", "install both anew"
    ),
    "spfc does not take these words: WORDS": Entry("spfc prints `usage` for these words", _WORDS),
    "spfc deps does not take these words: WORDS": Entry("spfc prints `usage` for these words", _WORDS),
    "spfc COMMAND wrote no list": Entry("the program does not fit the tools", "install both anew"),
    "spfc COMMAND ended with N: LINE": Entry("spfc, which the tool ran, refused its input", _LINE),
    "expected WHAT, got WORD": Entry("a word of the command line is wrong", _WORDS),
    "argument OPTION: WHY": Entry("the option has no value, or one that it does not take", _WORDS),
    "unrecognized arguments: WORDS": Entry("the tool has no such options or words", _WORDS),
    "the following arguments are required: WORDS": Entry("words are missing", _WORDS),
    "FILE: REASON": Entry("the file cannot be read", "mend the path, or see to the rights of the file"),
    # warnings
    "NAME has no address, and a term a or mx asks for its addresses": Entry(
        "the term matches no host, so mail from there gets no `pass`", _FIRST_SIGHT
    ),
    "NAME has no mail exchanger, and a term mx asks for its exchangers": Entry(
        "the term matches no host, so mail from there gets no `pass`", _FIRST_SIGHT
    ),
    "NAME has no SPF record": Entry(
        "receivers take no TXT record of the domain for an SPF record", "write one, or name another domain"
    ),
    "the policy of NAME passes no address": Entry(
        "no mail of the domain passes, wherever it comes from",
        "nothing, if the domain sends no mail; else see which term lacks its addresses",
    ),
    # spfc-nightly
    "same DOMAIN": Entry(
        "what is published gives each address the verdict that the policy gives it today", "nothing has to be done"
    ),
    "changed DOMAIN": Entry(
        "some address has another verdict by what is published than by the policy",
        "look at the lines that follow, and publish the records that were written",
    ),
    "refused DOMAIN": Entry(
        "the policy has no flat records today, or more addresses would lose their pass than `--max-lost` allows",
        "see the line on standard error, or the lines that follow; what is published stays as it is",
    ),
    "unknown DOMAIN": Entry(
        "DNS did not answer, so nothing is known of this night", "see the lines that follow; wait for the next night"
    ),
    "COUNT, the least ADDRESS, from VERDICT to VERDICT": Entry(
        "these addresses have the first verdict by what is published, and the second by the policy",
        "see whether that is meant, before you publish",
    ),
    "N addresses lose their pass": Entry(
        "they pass by what is published, and not by the policy, and are more than `--max-lost` allows",
        "see which include has lost them, and raise `--max-lost` if that is meant",
    ),
    "answered otherwise: NAME KIND": Entry("DNS answers the question otherwise than it did", _REVIEW),
    "asked besides: NAME KIND": Entry("the policy asks this question since the last night", _REVIEW),
    "not asked any more: NAME KIND": Entry("the policy does not ask this question any more", _REVIEW),
    "the kept list does not count: WHY": Entry(
        "the list is damaged, or is of another domain or other options, so no change of answers is known",
        "nothing: the list is written anew unless the night is refused or unknown",
    ),
    "published: LINE": Entry("what is published does not compile: LINE is why", _LINE),
    "the zone of DOMAIN is not to be a file: WHY": Entry(
        "DNS is to say what is published, and not a file", "leave out the zone word of the domain"
    ),
}
"""The lines of spfc-gather and spfc-nightly, without the name of the tool in front."""

_UNCHANGED = "nothing was changed; correct this, and call again"
_CALL_AGAIN = "call again as before: it goes on where it was; or call with `--undo`"
_ADVICE = Entry("it says what to do about the line before it", "do so")
_KEY = "write the key file anew, as `tsig-keygen` does, with `chmod 600`"
_SERVERS = "wait until the servers agree, or name some by `--servers`"
_CHAIN = "compile with the other `--label`: `_spfa` and `_spfb` by turns"

PUBLISH_LINES: Mapping[str, Entry] = {
    "published DOMAIN: these records are there": Entry("every server has these records", "nothing has to be done"),
    "published DOMAIN": Entry("every server has the new records", "take the old ones out later, by `--sweep`"),
    "undone DOMAIN": Entry("every server has the old record again", "nothing has to be done"),
    "swept DOMAIN": Entry("the names of the old chain are taken out", "nothing has to be done"),
    "taken out: NAME": Entry("no server has this name any more", "nothing has to be done"),
    "to be taken out from TIME by --sweep: NAMES": Entry(
        "resolvers may still remember the record that leads to these names", "call with `--sweep` after that time"
    ),
    # refused before anything was changed
    "the servers of NAME disagree in which zone it is": Entry("they name different zones", _SERVERS),
    "SERVER and SERVER have different TXT records at NAME": Entry("the servers do not agree yet", _SERVERS),
    "the servers have different TXT records at NAME": Entry("the servers do not agree yet", _SERVERS),
    "ZONE has more than N servers: name some by --servers": Entry("too many servers would be read", _SERVERS),
    "there is no address of the name server HOST: name one by --primary": Entry(
        "the name of the server leads to no address", "name an address by `--primary`"
    ),
    "there is no address of the name server HOST": Entry(
        "the name of the server leads to no address", "correct the name"
    ),
    "no name server of ZONE has an address that this machine can reach": Entry(
        "the servers of the zone cannot be read from here", "call from another machine, or name some by `--servers`"
    ),
    "NAME is an alias at SERVER": Entry("no TXT record may be at a CNAME record", "publish at the target"),
    "lexicon is not installed: apt install lexicon": Entry("this way needs lexicon", "install it"),
    "a publication is not finished": Entry("an earlier call was ended half way", _CALL_AGAIN),
    "another publication was begun, and is not finished (FILE)": Entry(
        "an earlier call was ended half way", _CALL_AGAIN
    ),
    "another call works with FILE: wait for its end": Entry("two calls for one domain run at once", "wait for its end"),
    "there is no state file FILE: nothing was published from here": Entry(
        "`--undo` and `--sweep` need the state that a publication leaves", "name it by `--state`"
    ),
    "FILE is the state of NAME: name another by --state": Entry("the state is of another domain", "name another file"),
    "the state file FILE cannot be read": Entry("the file is damaged or locked away", "see to its rights"),
    "FILE is not a state file of spfc-publish: it is left as it is": Entry(
        "it has something else", "name another file"
    ),
    "NAME is a name of the chain that is published now": Entry("the new chain would change the old one", _CHAIN),
    "NAME is in use: it is not taken out": Entry("the published chain leads to it", "nothing has to be done"),
    "NAME has N SPF records: TEXT": Entry("receivers take two records for a permanent error", "leave one"),
    "the SPF record of NAME is that of a wildcard: write one at NAME first": Entry(
        "a wildcard answers for the domain", "write the record at the domain itself"
    ),
    "FILE has no TXT record at NAME": Entry("the file is no fragment of the domain", "compile one"),
    "FILE has other records at NAME than one TXT record": Entry("the file is no fragment", "compile one"),
    "FILE is not a master file of NAME: WHY": Entry("the file is no fragment of the domain", "compile one"),
    "FILE is not the fragment of this policy": Entry("`spfc verify` does not accept it", "compile it anew"),
    "FILE has NUMBER keys: expected one, as tsig-keygen writes it": Entry("one key is needed", _KEY),
    "FILE has a key without an algorithm that is known, or without a secret": Entry("the key cannot be used", _KEY),
    "FILE has a key whose name or secret cannot be read": Entry("the key cannot be used", _KEY),
    "FILE cannot be read as a key file": Entry("it has not the form of BIND's key files", _KEY),
    "FILE can be read by others than its owner: chmod N FILE": Entry("the secret is not secret", _KEY),
    "FILE is not a plain file": Entry("a folder, a link or a device has this name", "name a plain file"),
    "--undo and --sweep need WHAT": Entry("the way to change the zone is not named", _WORDS),
    "expected WHAT": Entry("the words do not fit together", _WORDS),
    # changed in part
    "there now: WHAT": Entry("this is what the servers have now", _CALL_AGAIN),
    "what is there now is not known: WHAT": Entry("a server did not answer", _CALL_AGAIN),
    "could not WHAT: WHY": Entry("the change was not made, or it is not known whether it was", _CALL_AGAIN),
    "not there after N seconds: WHAT": Entry("a server does not have the new record yet", _CALL_AGAIN),
    "not replaced after N seconds: WHAT": Entry("a server still has the old record", _CALL_AGAIN),
    "the TXT records at NAME change while they are replaced": Entry("someone else works on them", _CALL_AGAIN),
    "NAME has the new record, and these TXT records are gone: TEXT": Entry(
        "the way replaced more than the SPF record", "put these texts back"
    ),
    "NAME is still there: call again": Entry("a server still has the name", _CALL_AGAIN),
    "the old record was put back": Entry("the domain is as it was", _UNCHANGED),
    "the old record is not back yet": Entry("a server still has the new record", _CALL_AGAIN),
    "what was added is taken out again": Entry("the zone is as it was", _UNCHANGED),
    "nothing was taken out": Entry("the zone is as it was", _UNCHANGED),
    "nothing was changed": Entry("the zone is as it was", _UNCHANGED),
    "SERVER has at NAME TEXT": Entry("another record is there than was expected", "see who wrote it"),
    # advice
    "leave one": _ADVICE,
    "put them back": _ADVICE,
    "wait until the servers agree": _ADVICE,
    "call again, or with --undo": _ADVICE,
    "call as before to finish it, or with --undo": _ADVICE,
    "compile with another --label, such as WORDS": _ADVICE,
    "take it out (--sweep, if it is of an earlier chain), or WHAT": _ADVICE,
    "--policy FILE names WHAT": _ADVICE,
    "NAME has TEXT": Entry("these are the SPF records that the servers have at the domain", _CALL_AGAIN),
}
"""The lines of spfc-publish, without its name in front."""

_TOOL = re.compile(r"(?:spfc(?:-\w+)?: )?(?:warning: )?")
_PLACE = re.compile(r"[A-Z]+")
_PLACES = {
    "NAME": r"\S+",
    "DOMAIN": r"[^ ]+",
    "KIND": r"[A-Z]+[46]?",
    "COMMAND": r"[a-z]+",
    "N": r"\d+",
    "COUNT": r"\d+ address(?:es)?",
    "ADDRESS": r"[0-9a-f.:]+",
    "VERDICT": r"pass|fail|softfail|neutral",
    "OPTION": r"-\S+",
    "REASON": r"No such file or directory|Is a directory|Not a directory|Permission denied|Input/output error",
}
_FORMS = {"SPF", "TXT", "BIND"}
"""Words in capitals that do not stand for others."""


@dataclass(frozen=True)
class ToolLine:
    """A line of a tool, what it means and what helps, and the line of spfc that is in it, if there is one."""

    text: str
    entry: Entry
    inner: str


def without_tool(text: str) -> str:
    """The line without the name of the tool that printed it."""
    prefix = _TOOL.match(text)
    return text[prefix.end() :] if prefix else text


def read_tool_line(text: str) -> ToolLine | None:
    """The line, if a tool prints such a one."""
    bare = without_tool(text)
    for form, entry in (*TOOL_LINES.items(), *PUBLISH_LINES.items()):
        if found := re.fullmatch(_pattern(form), bare):
            groups = found.groupdict()
            return ToolLine(bare, entry.plain, groups.get("LINE") or groups.get("WHY") or "")
    return None


def _pattern(form: str) -> str:
    """The form with a group for each place in capitals."""
    seen: set[str] = set()

    def group(found: re.Match[str]) -> str:
        place = found[0]
        if place in _FORMS:
            return place
        pattern = _PLACES.get(place, r".+")
        if place in seen:
            return f"(?:{pattern})"
        seen.add(place)
        return f"(?P<{place}>{pattern})"

    return _PLACE.sub(group, re.escape(form).replace(r"\ ", " "))
