"""A caller of the package with types, which `mypy --strict` accepts: tests/wheel_tests.py checks and runs it."""
import sys
from typing import Iterator, Optional

import igesolid


def failing(path: str, engine: Optional[igesolid.Engine] = None) -> Iterator[str]:
    """What each solid of a file that isn't closed says of itself."""
    with igesolid.read(path, engine) as file:
        for solid in file.solids:
            verdict: igesolid.Verdict = solid.verdict
            if not verdict.is_closed:
                rules = [rule.name for rule in solid.where.rules]
                hints = [hint.name for hint in solid.where_all.hints]
                yield f"{solid.number}: {verdict}; {' '.join(rules)}; {' '.join(hints)}"


def mended(path: str) -> bytes:
    """The first solid of a file, mended; the whole file, with its lines put right, if it can't be read as it is."""
    try:
        return igesolid.read(path).solids[0].mend()
    except igesolid.BadFile as fault:
        line: int = fault.line
        print(f"line {line} {fault.reason}", igesolid.layout(path), end="")
        return igesolid.relayout(path)
    except (igesolid.NotMended, igesolid.NoExtract) as fault:
        raise SystemExit(fault.status) from fault


if __name__ == "__main__":
    for it in failing(sys.argv[1]):
        print(it)
    print(len(mended(sys.argv[1])))
