#!/usr/bin/python3
"""Makes the reports of groups, level by level, and prints the verdict on the union; see merge.sh.

    merge.py            all groups without a report that counts, then the verdict
    merge.py GROUP..    these groups' reports alone

A group's report is made once all its windows have an answer. Where its merge is refused, its members' reports go to the
next level as they are, so that the last merge says what one merge of all reports would.
"""

import os
import signal
import subprocess
import sys
import tempfile
from collections.abc import Mapping, Sequence
from pathlib import Path

sys.dont_write_bytecode = True
from answers import Answers, write
from groups import UNION, Merge
from rasters import CannotCut

VERDICTS, REFUSED, FAILED = (0, 1), 2, 3


def merged(*words: object) -> tuple[int, str]:
    """Status and line of a merge."""
    run = subprocess.run(
        [os.environ["DRAIN"], "merge", *map(str, words)], stdout=subprocess.PIPE, text=True, check=False
    )
    return run.returncode if run.returncode >= 0 else FAILED, run.stdout.rstrip("\n")


def join(answers: Answers, group: Merge) -> None:
    """Makes a group's report, if it has none that counts and its windows have answers."""
    if not answers.is_whole(group) or not answers.fault(group):
        return
    (answers.out / "work").mkdir(exist_ok=True)
    with tempfile.TemporaryDirectory(dir=answers.out / "work", prefix=f"{group.name}.") as folder:
        work = Path(folder)
        answers.begin(group, work)
        status, line = merged("--report", work / "report", *answers.taken(group))
        is_refused = status == REFUSED and line.startswith("refused ")
        if not is_refused and not (status in VERDICTS and line and (work / "report").exists()):
            sys.exit(f"{group.name}: {line} (status {status})")
        if is_refused:
            print(f"{group.name}: {line} (status {status})", file=sys.stderr)
        write(work / "line", [line])
        answers.keep(group, work)


def distances(env: Mapping[str, str]) -> str:
    """Over which distances slopes were compared."""
    if widths := env.get("WIDTHS"):
        return f"widths by row, {widths}"
    return f"spacing {env['SPACING']}" if env.get("SPACING") else "square cells"


def verdict(answers: Answers) -> int:
    """Prints the verdict, and on standard error how far apart cells are. If a report can't be read, it is made again next
    time."""
    print(f"slopes: {distances(os.environ)}", file=sys.stderr)
    reports, sinks = answers.taken(answers.merges[UNION]), os.environ.get("SINKS", "")
    status, line = merged(*(["--sinks", sinks] if sinks else []), *reports)
    match line.split(" "):
        case ["refused", "BadReport", index, *_]:
            report = reports[int(index)]
            print(f"{report} is no report: judge its window again", file=sys.stderr)
            (report.parent.parent / "inputs" / report.name).unlink(missing_ok=True)
    if line:
        print(line)
    return status


def main(names: Sequence[str]) -> int:
    answers = Answers(os.environ)
    if not names:
        answers.tell_missing()
    for group in answers.groups:
        if not names or group.name in names:
            join(answers, group)
    return 0 if names else verdict(answers)


if __name__ == "__main__":
    signal.signal(signal.SIGTERM, lambda *_: sys.exit(128 + signal.SIGTERM))
    try:
        sys.exit(main(sys.argv[1:]))
    except (CannotCut, OSError) as error:
        print(f"merge.py: {error}", file=sys.stderr)
    except SystemExit as end:
        if isinstance(end.code, int):
            raise
        print(end, file=sys.stderr)
    sys.exit(FAILED)
