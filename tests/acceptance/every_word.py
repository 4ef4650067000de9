#!/usr/bin/env python3
"""docs/MESSAGES.md has an entry for each word of the program, and no other.

The words are said here, section by section, as the rules of the office have them. They are compared
with the page, and with the texts of the program's definitions (crates/*/specs), both ways. The
statuses are compared with what bin/officed and the unit of systemd say of them.
"""
import re
import sys

from harness import check, loaded, script, text_of

DHCP = """offer ack declined released dhcp-short dhcp-long dhcp-not-request dhcp-hardware
dhcp-cookie dhcp-option-cut dhcp-no-type dhcp-overload no-site not-served request-form part-cut
relay-mismatch not-a-modem no-relay-pool unknown-modem serial-mismatch other-server pool-full
no-record not-your-address""".split()
DEVICES = """cpe-offer cpe-ack cpe-declined cpe-released not-served cpe-form cpe-no-pool
cpe-suspended cpe-offline cpe-other-server cpe-limit cpe-pool-full cpe-no-record
cpe-not-yours""".split()
QUERIES = "query-relay query-form query-active query-unassigned query-unknown".split()
TFTP = """form write mode again no-lease agreement name full oack block unknown stale-ack done
peer-error""".split()
FAULTS = """head body too-long no-path no-method not-json field value header width import-field
too-many site no-row no-subscriber no-class tree pool-size pool-overlap relay-taken no-hub pool-has-leases
has-modems class-in-use hub-in-use device-overlap batch-differs limit""".split()
TOLD = ["illegal operation", "access violation", "octet only", "no lease", "no longer agreed",
        "file not found", "too many transfers", "unknown transfer"]
ENDS = [f"{word} refused" for word in ("words", "tables", "keeper", "link", "memory", "source")]
REFUSED = """too-long cut no-end after-end early-pad no-mic twice-mic mic-length header width field
too-many batch-differs limit not-empty""".split() + ["row"]
KEYS = "site subscriber add-on modem class pool lease held batch hub pool-hub device-pool device".split()
STATUSES = [str(status) for status in range(12)] + ["70", "129", "130", "131", "137", "143"]
ANSWERS = ['{"ok":true}', '{"rows":}', '{"fault":}', '{"at":,"fault":}', '"state":"offered"',
           '"state":"bound"', '"state":"declined"']
# Each section of the page, its words, and the column that has them.
SECTIONS = {
    "DHCP": DHCP, "Devices": DEVICES, "Queries": QUERIES, "Time": ["sent"], "TFTP": TFTP,
    "Ticks": ["again closed"],
    "Clerks in the log": ["wait", "200", "busy", "closed", ""],
    "Each service": ["memory", "keeper", "link"], "The last line": ENDS, "Statuses": STATUSES,
    "What jobs write": ["cm good", "cm bad", "cmts good", "cmts bad", "rows",
                        "drill offers acks files blocks octets"],
    "What jobs refuse": REFUSED, "What clerks are answered": ANSWERS,
    "Faults of clerks": FAULTS, "Keys of rows": KEYS,
}
# Where the program's definitions say them: a section's words are all that the pattern finds.
DEFINED = {
    "DHCP": [("off_lease_rules", "Words", r'^word_text .*codes "([^"]*)"')],
    "Devices": [("off_cpe_rules", "Words", r'^device_text .*codes "([^"]*)"')],
    "Queries": [("off_query_rules", "Words", r'^query_text .*codes "([^"]*)"')],
    "Time": [("off_book", "Time", r'codes "time ([^"]*)"')],
    "TFTP": [("off_transfer_rules", "Words", r'^tftp_text .*codes "([^"]*)"')],
    "Ticks": [("off_transfer_rules", "Words", r'codes "tick (again) " .*codes "( closed) "')],
    "Clerks in the log": [("off_book", "Http", r'codes "http (\w+)"'),
                          ("off_book", "Http", r'words = codes "(200)"'),
                          ("off_book", "Http", r'words = decimal \(status_of f\) .*codes "( )"')],
    "Each service": [("off_book", "Step", r'^(?:WantedMemory|KeeperFailed).*codes " (\w+)"'),
                     ("off_book", "Run", r'codes " (link)"')],
    "The last line": [("off_jobs", "Ending", r'codes "([^"]* refused)(?: |\\n)"')],
    "What jobs write": [("off_jobs", "Text", r'codes "(cmt?s? \w+)\\n'),
                        ("off_jobs", "Text", r'\\n(cmt?s? \w+)\\n"'),
                        ("off_import_job", "Telling", r'codes "(rows) "'),
                        ("off_drill_rules", "Numbers",
                         r'codes "(drill )" .*codes "( offers )" .*codes "( acks )"'
                         r' .*codes "( files )" .*codes "( blocks )" .*codes "( octets )"')],
    "What jobs refuse": [("off_jobs", "Text", r'^read_fault_words .*codes "([^"]*)"'),
                         ("off_jobs", "Text", r'^mic_fault_words .*codes "([^"]*)"'),
                         ("off_jobs", "Ending", r'refused_as own \(codes "([^"]*)"\)'),
                         ("off_import_rules", "Faults", r'^fault_words \w+ = codes "([^"]*)"'),
                         ("off_import_rules", "Faults", r'^fault_words \(.*?codes "([^"]*)"'),
                         ("off_import_job", "Telling", r'codes " (row) "'),
                         ("off_drill_job", "Telling", r'refused_as 9 \(codes "([^"]*)"\)'),
                         ("off_import_job", "Telling", r'^broken_words .*codes "([^"]*)"'),
                         ("off_clerk_rules", "Faults", r'Limit kind most\) = answer \d+ \(codes "([^"]*)"')],
    "Faults of clerks": [("off_clerk_rules", "Faults", r'answer \d+ \(codes "([^"]*)"'),
                         ("off_import_rules", "Faults", r'^fault_word [^=]*= codes "([^"]*)"')],
    "Keys of rows": [("off_defs", "KeyText", r'^key_text_of .*?codes "([^"]*)"')],
}


def bare(word):
    """A word without what stands for a number, a name or a key."""
    return " ".join(re.sub(r"\b[A-Z]+\b", "", word).split())


def words_of(row):
    """The words of a row of a table: what stands in its first column between backquotes."""
    first = row.strip("|").split("|")[0].strip()
    return re.findall(r"`([^`]*)`", first) or re.findall(r"\d+", first)


def sections():
    """The words of each section of the page, and the rows that have them."""
    found, rows, name = {}, {}, ""
    for line in text_of("docs", "MESSAGES.md").splitlines():
        if line.startswith("## "):
            name = line[3:]
        elif line.startswith("| `") or re.match(r"\| \d", line):
            found.setdefault(name, []).extend(bare(word) for word in words_of(line))
            rows.setdefault(name, []).append(line)
    return found, rows


def defined(name):
    found = set()
    for crate, page, form in DEFINED[name]:
        # A definition that is laid out over several lines is read as one.
        text = re.sub(r"\n\s+", " ", text_of("crates", crate, "specs", f"{page}.antt"))
        for words in re.findall(form, text, re.M):
            found.add(bare("".join(words)))
    return found


def compare(found, rows):
    check(list(found) == list(SECTIONS), f"the sections: {list(found)}")
    for name, words in SECTIONS.items():
        told = found.get(name, [])
        check(sorted(told) == sorted(words), f"{name}: {set(told) ^ set(words) or 'a word twice'}")
        for row in rows.get(name, []):
            cells = [cell.strip() for cell in row.strip().strip("|").split(" | ")]
            check(all(cells[2:]) and len(cells) > 1, f"{name}: each has its text: {row}")
        if name in DEFINED:
            check(defined(name) == set(words), f"{name} as defined: {defined(name) ^ set(words)}")


def told_to_clients(rows):
    """The TFTP errors, each beside its word, are those of the definitions."""
    text = " ".join(text_of("crates", "off_transfer_rules", "specs", "Steps.antt").split())
    form = r'code = (\d); text = codes "([^"]*)"; word = word\.(\w+)'
    known = {(code, said) for code, said, _ in re.findall(form, text)}
    shown = set(re.findall(r"\| (\d) `([^`]*)` \|", "\n".join(rows["TFTP"])))
    check(shown == known, f"what clients are told: {shown ^ known}")
    check({said for _, said in shown} == set(TOLD), "and by the rules")


def statuses(rows):
    page = text_of("docs", "CLERK_API.md")
    for row in rows["Faults of clerks"]:
        word, status = (cell.strip(" `") for cell in row.strip("|").split("|")[:2])
        check(f"| `{word}` | {status} |" in page, f"{word} has the status of CLERK_API")
    check("exit 70" in text_of("bin", "officed"), "bin/officed ends with 70")
    unit = text_of("packaging", "officed.service")
    check("RestartPreventExitStatus=1 2 10\n" in unit, "the unit tries again but for 1, 2 and 10")


def helpers():
    """The helpers know the same words."""
    counts, clerk = loaded("office-counts"), loaded("office-clerk")
    check([end.decode() for end in counts.ENDS] == ENDS, "office-counts knows the last lines")
    check(set(clerk.FAULTS) == set(FAULTS), "office-clerk knows the faults")
    text = text_of("crates", "off_book", "specs", "Step.antt")
    services = set(re.findall(r'^service_word .*= codes "(\w+)"', text, re.M))
    check({each.decode() for each in counts.SERVICES} == services, f"the services: {services}")


def main():
    found, rows = sections()
    compare(found, rows)
    told_to_clients(rows)
    statuses(rows)
    helpers()
    links = re.findall(r"\]\(#([\w-]+)\)", text_of("docs", "MESSAGES.md"))
    names = {name.lower().replace(" ", "-") for name in SECTIONS}
    check(set(links) <= names, f"links without a section: {set(links) - names}")
    print(f"{sum(map(len, SECTIONS.values()))} words in {len(SECTIONS)} sections")


if __name__ == "__main__":
    sys.exit(script(main, needs_program=False))
