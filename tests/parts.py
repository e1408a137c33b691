"""The parts of the tests, by name: what each tests, and its checks (see Part). A further part is a further line of PARTS."""
import os

import argument_tests
import arm_tests
import arrival_tests
import browser_tests
import c_file_tests
import certificate_tests
import check_tests
import compact_tests
import costs
import examples
import extract_tests
import faults
import freecad_tests
import fresh
import fuzz
import gallery
import hook_tests
import hostile
import largest_tests
import junit_tests
import launcher
import layers
import library_tests
import limits
import no_examples
import node_tests
import odd
import open_tests
import orient_tests
import packages
import pages
import picture_tests
import protections
import quoted
import real_solids
import repair
import rows
import running_tests
import sample_tests
import sarif_tests
import theorem
import trusted
import web_tests
import wheel_tests
import where
import where_json_tests
import windows_tests
import wrong_changes
from part import BY_NAME, LARGE, Part
from programs import FORMS, REPAIR_FORMS, TOP


def of_program(*functions):
    """Checks of igesolid on texts."""
    return lambda context: (check for function in functions for check in function(context.program()))


def of_shells(module):
    """Checks of surfaces made at random and of the examples."""
    return lambda context: module.checks(context.program(), examples.named())


def both(context):
    """igesolid and igesolid-repair, each with the forms of its commands."""
    yield context.runner(), FORMS
    yield context.repair_runner(), REPAIR_FORMS


def of_tables(*tables):
    """Checks of every command of both programs on inputs that a table makes."""
    return lambda context: (
        check for table in tables for runner, forms in both(context) for check in table(runner, context.new_folder(), forms)
    )


def of_rights(checks):
    """The same, where a command or a right may be missing."""
    return lambda context: (
        check for runner, forms in both(context) for check in checks(runner, context.new_folder, forms, context.skipped)
    )


def of_both(checks):
    """Checks of both programs."""
    return lambda context: checks(context.new_folder(), *context.programs[:2])


def of_repair(checks):
    """Checks of what is made, and of what igesolid says of it."""
    return lambda context: checks(context.new_folder(), context.programs.igesolid, context.programs.repair)


def of_pages(context):
    yield from pages.checks(context.new_folder(), TOP, *context.programs[:3], FORMS)
    yield from no_examples.checks(TOP, context.programs)
    yield from gallery.checks(context.new_folder(), *context.programs[1:3])
    for module in (quoted, theorem, trusted, layers):
        yield from module.checks(TOP)


def remedies(context):
    """Its modules stand on bench/, which a copy of the repository may lack."""
    import remedy_tests

    return remedy_tests.checks(context.programs)


PARTS = (
    Part("rows", "worked rows (tests/rows), the certificates of the examples, and lines of a million numbers", of_program(rows.checks)),
    Part("rows-judged", "the worked rows by the second checker", lambda context: rows.by_the_second_checker()),
    Part("extract", "each solid of the examples, extracted", of_program(extract_tests.checks)),
    Part("certificates", "certificates and books of the examples, verified and upgraded", of_program(certificate_tests.checks)),
    Part("certificates-changed", "certificates and books changed at random, beside the second checker", of_program(certificate_tests.changes)),
    Part("open", "open shells, made at random and of the examples, beside the second checker", of_shells(open_tests)),
    Part("orient", "orientations, likewise", of_shells(orient_tests)),
    Part("compact", "compact files, likewise", of_shells(compact_tests)),
    Part("samples", "samples of 3, 100 and 200, and words that aren't UTF-8", of_program(sample_tests.checks, argument_tests.checks)),
    Part("arrivals", "files and certificates that arrive in pieces", of_program(arrival_tests.checks)),
    Part("uses", "solids of the most loop uses", of_program(largest_tests.uses)),
    Part("where", "igesolid-where, beside the second checker", of_both(where.checks)),
    Part("where-more", "200 more cases", of_both(where.more_checks), LARGE),
    Part("where-json", "where --json: its text again, its schema, and the command in a copy of the repository", where_json_tests.checks),
    Part("repair", "igesolid-repair: harmed files, and files changed at random, beside the second checker", of_repair(repair.checks)),
    Part("repair-more", "2,000 more cases, and files of the greatest size", of_repair(repair.more_checks), LARGE),
    Part("pictures", "marks", of_both(picture_tests.checks)),
    Part("picture", "the geometry of pages, under node", lambda context: node_tests.checks(context.skipped)),
    Part("browser", "pages in headless Chromium", lambda context: browser_tests.checks(context.new_folder(), context.programs, context.skipped), LARGE),
    Part("pages", "README and docs: what they say of the programs, the sources and the examples", of_pages),
    Part("launcher", "the launcher and dist/, in a copy of the repository", lambda context: launcher.checks(context.clone(), FORMS, context.skipped)),
    Part("packages", "the installer and the Debian package, likewise", lambda context: packages.checks(context.clone(), context.skipped), LARGE),
    Part("completion", "completion in bash, zsh and fish, likewise", lambda context: packages.completions(context.clone(), context.skipped)),
    Part("check", "igesolid check, the Python package and the recipes of docs/MANY.md, likewise", lambda context: check_tests.checks(context.clone(), context.skipped)),
    Part("junit", "igesolid check --junit, read back by junitparser", lambda context: junit_tests.checks(context.clone(), context.skipped), LARGE),
    Part("sarif", "igesolid check --sarif, by a schema under jsonschema", lambda context: sarif_tests.checks(context.clone(), context.skipped), LARGE),
    Part("pre-commit", "the hook for pre-commit, in a repository of parts", lambda context: hook_tests.checks(context.clone(), context.skipped), LARGE),
    Part("wheels", "wheels and the source distribution of the Python package, each in a venv; types", wheel_tests.checks, LARGE),
    Part("freecad", "the add-on for FreeCAD, at each failing example, and in a window that nobody sees", freecad_tests.checks, LARGE),
    Part("remedies", "200 files of solids broken in known ways: where, mend and mended, beside the second checker, and by the judges of bench/remedies", remedies),
    Part("wrong-changes", "changes of a shell that break a clause of Fits, by the second checker; and that the program wrong_changes reads the same", wrong_changes.checks),
    Part("library", "the library for C: programs that use it, threads, a heap with a cap, and each example", library_tests.checks),
    Part("arm", "the programs and the library for aarch64 under qemu-user, and a processor below the kit's baseline", arm_tests.checks, LARGE),
    Part("c-file", "the library as one C file, by each compiler and for other machines: 2,700 answers; and packaging/c/translate beside node", c_file_tests.checks, LARGE),
    Part("windows", "the program and the library for Windows under wine: 2,700 answers, names and failures", windows_tests.checks, LARGE),
    Part("web", "the page for browsers in headless Chromium", web_tests.checks, LARGE),
    Part("clusters", "the recipe for Slurm and check --dask, on clusters of this machine", lambda context: check_tests.clusters(context.clone(), context.skipped), LARGE),
    Part("testing", "tests/run itself, its choice of the programs, and that .ci/run has every part", lambda context: running_tests.checks(context, PARTS)),
    Part("fresh", "README's first commands in a fresh clone, without the kit", fresh.checks, BY_NAME),
    Part("cuts", "files cut at one byte in five, certificates at each, and files changed in one place", of_tables(*hostile.TABLES)),
    Part("cuts-more", "files cut at the other bytes", of_tables(*hostile.MORE_TABLES), LARGE),
    Part("faults", "each call of the C library failing in turn, on three small files", of_rights(faults.checks)),
    Part("faults-more", "the same on two more", of_rights(faults.more_checks), LARGE),
    Part("limits", "limits of the system", of_tables(*limits.TABLES)),
    Part("odd", "odd files and outputs", of_rights(odd.checks)),
    Part("endless", "files of 164 MB, and files without an end", of_tables(limits.file_limit, odd.endless), LARGE),
    Part("certificates-held", "certificates of 537 MB for the commands that hold them", of_program(largest_tests.held_certificates), LARGE),
    Part("certificates-passed", "the same for verify, which needs no memory for them", of_program(largest_tests.verified_certificates), LARGE),
    Part("real-solids", "solids that Open CASCADE makes and reads back, by bench/real", real_solids.checks, LARGE),
    Part("costs", "how the instructions grow on files whose records many solids share, by bench/hostile --check", costs.checks, LARGE),
    Part("protections", "the protections of the program's headers", of_tables(*protections.TABLES)),
    Part("fuzz", "2,000 inputs changed at random, beside the second checker and the baseline", lambda context: fuzz.checks(context, 2_000, 1, 1)),
    Part("fuzz-more", "20,000 others", lambda context: fuzz.checks(context, 20_000, 2, len(os.sched_getaffinity(0))), LARGE),
)
