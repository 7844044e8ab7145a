"""The command line."""

import argparse
import json
import os
import signal
import sys

from . import report
from .console import Console, default_program, refusal_of
from .explain import Explanation
from .inputs import Complaints, Progress, Stop, labels
from .judging import judge
from .numbers import Wrong, as_number, numbers, segments, shown
from .records import MOST_PROVIDERS, filing, gathered, why_refused
from .routes import ROLES, Roles, Route, Routes, role_of

PASSED, FAILED, BAD_INPUT = 0, 1, 2

DESCRIPTION = """\
Says which routes of a RIB are Valid, Invalid or Unknown by ASPA records, and why; what one path is judged by; and what a
new record would change."""

EPILOG = f"""\
records     rpki-client's or Routinator's JSON, or lines `CUSTOMER: PROVIDER PROVIDER`. Each file is a source.
routes      MRT TABLE_DUMP_V2 (with mrtparse or bgpdump installed), what `bgpdump -m` writes, or lines
            `PREFIX|NEIGHBOUR|PATH`, with sets as {{64500,64501}}.
            Files may be packed with gzip or bzip2; - is standard input. # begins a comment in plain lines.
roles       what the neighbour is to us: {', '.join(ROLES)}.
@FILE       stands for the arguments in FILE, one on each line.

marks       64501 <x- 64500: AS64500's records do not list AS64501; <?-: AS64500 has no record; -x> and -?> are said of the
            number on the left. In a downstream path (from a provider or in mutual transit) two hops are marked.

exit status 0; 1 if some route is Invalid or without a verdict (--fail-on), with --what-if if some route becomes so; 2 for
            bad input: a line that cannot be read is told on standard error, and the others are reported.

Each verdict, with its places and its gap, is the answer of the proved console. This program, which reads the files, hands
them over and words the answers, is tested and not proved."""


def parser():
    p = argparse.ArgumentParser(
        prog="aspa-check", description=DESCRIPTION, epilog=EPILOG, fromfile_prefix_chars="@",
        formatter_class=argparse.RawDescriptionHelpFormatter,
    )
    many = {"nargs": "+", "action": "extend", "default": [], "metavar": "FILE"}
    p.add_argument("--records", help="ASPA records, up to eight files", **many)
    p.add_argument("--slurm", help="local exceptions: filters leave public records out, assertions become overrides", **many)
    p.add_argument("--assertions", choices=("override", "add"), default="override",
                   help="whether an assertion hides its customer's public records, or is added to them (as RFC 8416 has it)")
    p.add_argument("--skip-refused", action="store_true",
                   help="go on without the customers of whom the filter refuses a list: they count as having no record, unless an"
                   " assertion hides that list")
    p.add_argument("--routes", help="routes, any number of files", **many)
    p.add_argument("--role", action="append", default=[], metavar="AS=ROLE", help="the role of a neighbour; with --explain, ROLE alone")
    p.add_argument("--default-role", metavar="ROLE", help="the role of every other neighbour")
    p.add_argument("--summary", action="store_true", help="counts only, no line for each route")
    p.add_argument("--explain", metavar="PATH", help="tell how one path is judged, hop by hop")
    p.add_argument("--neighbour", metavar="AS", help="with --explain: who sent it; else the path's first number")
    p.add_argument("--svg", metavar="FILE", help="with --explain: draw it")
    p.add_argument("--what-if", action="append", default=[], metavar="CHANGE",
                   help="which routes change their verdict if 'AS64500: 64501 64502' is published, or by 'withdraw AS64500'")
    p.add_argument("--json", action="store_true", help="the same as JSON")
    p.add_argument("--fail-on", choices=("invalid", "unknown", "never"), default="invalid", help="what makes the exit status 1")
    p.add_argument("--console", metavar="PROGRAM", default=None, help="the console (else $ASPA_CONSOLE, else target/bin/console)")
    p.add_argument("--quiet", action="store_true", help="no progress on standard error")
    return p


def main(arguments, out=None):
    p = parser()
    options = p.parse_args(arguments)
    if out is None:
        out = sys.stdout
        # A file's name may be any bytes.
        if hasattr(out, "reconfigure"):
            out.reconfigure(errors="backslashreplace")
    try:
        status = run(p, options, out)
        out.flush()
        return status
    except OSError as e:
        # Nothing more is written, also when the program ends.
        os.dup2(os.open(os.devnull, os.O_WRONLY), sys.stdout.fileno())
        if isinstance(e, BrokenPipeError):
            # Whoever read the report has seen enough.
            return 128 + signal.SIGPIPE
        print(f"aspa-check: {e}", file=sys.stderr)
        return BAD_INPUT
    except (Stop, Wrong) as e:
        print(f"aspa-check: {e}", file=sys.stderr)
        return BAD_INPUT
    except KeyboardInterrupt:
        return 128 + signal.SIGINT


def run(p, options, out):
    if bool(options.routes) == (options.explain is not None):
        p.error("--routes or --explain is wanted, and not both")
    if options.explain is None and (options.svg or options.neighbour):
        p.error("--svg and --neighbour go with --explain")
    if options.explain is not None and (options.what_if or options.summary):
        p.error("--what-if and --summary go with --routes")
    if not options.records and not options.slurm:
        p.error("there are no records: --records FILE")
    if [*options.records, *options.slurm, *options.routes].count("-") > 1:
        p.error("standard input can be read once")
    program = options.console or default_program()
    if not os.path.exists(program):
        raise Stop(f"{program} is not there: ./prove check console proves and builds it")
    changes = {}
    for customer, providers in map(change, options.what_if):
        if customer in changes:
            raise Wrong(f"--what-if names AS{customer} twice")
        changes[customer] = providers
    complaints = Complaints()
    with Console(program) as console:
        records = gathered(console, options.records, options.slurm, options.assertions, complaints)
        if records.refused and not options.skip_refused:
            for refused in records.refused:
                print(f"aspa-check: {report.refused_in_words(refused)}", file=sys.stderr)
            raise Stop("the filter refuses these records; --skip-refused goes on without their customers")
        if options.explain is not None or changes:
            # The report on routes has them in its heading.
            for refused in records.refused:
                print(f"aspa-check: {report.left_out_in_words(refused)}", file=sys.stderr)
        if complaints.all:
            raise Stop("a record that cannot be read might be any customer's: nothing is judged")
        if options.explain is not None:
            return explain(p, options, console, records, out)
        return check(options, console, records, changes, complaints, out)


def worst(options, verdicts):
    """The exit status for routes of these verdicts."""
    failing = {"never": (), "invalid": ("Invalid", "no verdict"), "unknown": ("Invalid", "no verdict", "Unknown")}[options.fail_on]
    return FAILED if any(verdict in failing for verdict in verdicts) else PASSED


# ---- one path


def explain(p, options, console, records, out):
    path = segments(options.explain.strip())
    first = next((number for _, held in path for number in held), None)
    if options.neighbour is None and first is None:
        p.error("--neighbour is wanted for an empty path")
    neighbour = as_number(options.neighbour) if options.neighbour is not None else first
    roles, bare = roles_of(options)
    role = bare or roles.get(neighbour) or (role_of(options.default_role) if options.default_role else None)
    if role is None:
        p.error("--role ROLE is wanted with --explain")
    told = Explanation(console, records, Route(neighbour, role, path))
    if options.json:
        json.dump(told.as_json(), out, indent=1)
        out.write("\n")
    else:
        for line in told.lines():
            print(line, file=out)
    if options.svg:
        try:
            with open(options.svg, "w", encoding="utf-8", errors="backslashreplace") as file:
                file.write(told.svg())
        except OSError as e:
            raise Stop(f"{options.svg}: {e.strerror}") from e
    return worst(options, [told.route.answer.verdict])


def roles_of(options):
    """The roles by neighbour, and the one that was given alone."""
    roles, bare = {}, None
    for text in options.role:
        number, equals, name = text.partition("=")
        if equals:
            neighbour = as_number(number.strip())
            if roles.setdefault(neighbour, role_of(name.strip())) != role_of(name.strip()):
                raise Wrong(f"AS{neighbour} has two roles")
        elif options.explain is None or bare is not None:
            raise Wrong(f"--role {shown(text)} is not AS=ROLE")
        else:
            bare = role_of(text.strip())
    return roles, bare


# ---- a RIB


def check(options, console, records, changes, complaints, out):
    progress = Progress(options.quiet)
    roles = Roles(roles_of(options)[0], role_of(options.default_role) if options.default_role else None)
    routes = Routes(roles, complaints, progress)
    names = labels(options.routes)
    for path, name in zip(options.routes, names):
        routes.read(path, name)
    if roles.missing:
        missing = ", ".join(f"AS{number}" for number in sorted(roles.missing)[:20])
        more = f" and {len(roles.missing) - 20} more" if len(roles.missing) > 20 else ""
        raise Stop(f"no role is given for {missing}{more}: --role AS=ROLE, or --default-role ROLE")
    judge(console, records, routes.different, progress)
    if changes:
        status = what_if(options, console, records, changes, routes, complaints, out, progress)
    else:
        status = tell(options, records, routes, names, complaints, out)
    if complaints.all:
        print(f"aspa-check: bad lines, which are in no count: {len(complaints.all)}", file=sys.stderr)
        return BAD_INPUT
    return status


def tell(options, records, routes, names, complaints, out):
    lines = () if options.summary else report.not_valid(records, routes)
    table = report.counted(routes)
    if options.json:
        held = (report.route_as_json(records, prefix, route) for prefix, route in routes if route.answer.verdict != "Valid")
        report.write_json(out, report.head_as_json(records, routes, complaints), "not_valid", () if options.summary else held)
    else:
        for line in [*report.heading(records, routes, names), "", *report.table_in_words(table)]:
            print(line, file=out)
        for i, line in enumerate(lines):
            print(line if i else f"\n{line}", file=out)
    return worst(options, [verdict for verdict, count in report.summed(table).items() if count])


# ---- what if


def change(text):
    """`AS64500: 64501 64502`, the list that would be published, or `withdraw AS64500`."""
    words = text.split()
    if len(words) == 2 and words[0] == "withdraw":
        return as_number(words[1]), None
    customer, colon, rest = text.partition(":")
    if not colon:
        raise Wrong(f"--what-if {shown(text)} is neither 'CUSTOMER: PROVIDER PROVIDER' nor 'withdraw CUSTOMER'")
    return as_number(customer.strip()), tuple(sorted(set(numbers(rest))))


def what_if(options, console, records, changes, routes, complaints, out, progress):
    other = records.changed(changes)
    for customer, providers in changes.items():
        if customer in records.silenced:
            raise Stop(f"--what-if AS{customer}: it has an assertion, which is left out with a list that is refused: mend that first")
        # With --assertions add an override has the new list too.
        overrides = [record.providers for record in other.overrides.get(customer, ())]
        for held in overrides if providers is None else [providers, *overrides]:
            row = refusal_of(console.ask(["empty", filing("file", 0, customer, held[: MOST_PROVIDERS + 1])])[1])
            if row:
                raise Stop(f"--what-if AS{customer}: {why_refused(customer, held, row)} (row {row})")
    other.notes = list(notes_on(records, changes))
    # Only paths that hold one of the customers can be judged otherwise: the law that the batches rest on.
    after = {
        index: Route(route.neighbour, route.role, route.segments)
        for index, route in enumerate(routes.different) if not set(changes).isdisjoint(route.merged)
    }
    judge(console, other, list(after.values()), progress)
    found = list(report.changed_routes(routes, after))
    if options.json:
        head = {"what_if": options.what_if, "notes": other.notes, "bad_lines": complaints.all, "routes": len(routes), "changed": len(found)}
        held = ({"before": route.answer.verdict, **report.route_as_json(other, prefix, new)} for prefix, route, new in found)
        report.write_json(out, head, "changes", () if options.summary else held)
    else:
        for text in options.what_if:
            print(f"What if {text}", file=out)
        for note in other.notes:
            print(f"Note: {note}", file=out)
        print(f"{len(found):,} of {len(routes):,} routes change their verdict", file=out)
        for line in () if options.summary else report.changes_in_words(other, routes, after):
            print(line, file=out)
    return worst(options, [new.answer.verdict for _, _, new in found])


def notes_on(records, changes):
    for customer, providers in changes.items():
        if customer in records.filtered:
            yield f"a filter ({records.filtered[customer]}) leaves out the public record of AS{customer}: nothing changes"
        elif customer in records.overrides and customer not in records.asserted:
            yield f"AS{customer} has an override ({records.overrides[customer][0].label}), which hides its public record: nothing changes"
        elif providers is None and customer not in records.public:
            yield f"AS{customer} has no record to withdraw"
