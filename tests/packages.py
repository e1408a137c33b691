"""The installer and the Debian package, each into a folder of its own."""
import os
import re
import shlex
import shutil
import subprocess

import clone
import command_table
from libraries import shipped
from programs import DIST

INSTALLED = (
    "bin/igesolid", "lib/igesolid/BUILT", "lib/igesolid/commands.tsv", "lib/igesolid/launcher/causes.sh", "share/man/man1/igesolid.1",
    "share/bash-completion/completions/igesolid", "share/zsh/site-functions/_igesolid", "share/fish/vendor_completions.d/igesolid.fish",
    *(f"lib/igesolid/{name}" for name in command_table.programs()),
    *(f"lib/igesolid/companion/{row.words.split()[0]}" for row in command_table.of_kind("python")),
    "lib/igesolid/companion/page.html", "lib/igesolid/python/igesolid/pictures/iges.py", "lib/igesolid/python/igesolid/check/html_report.py",
)  # fmt: skip
PAGES = (
    *(f"docs/{name}.md" for name in ("THEOREM", "PROOFS", "COMMANDS", "FORMAT", "CERTIFICATE")),
    "README.md", "docs/GALLERY.md", "docs/images/page.png", "docs/images/bolt.webp", "examples/gallery/bolt.igs.gz",
    "examples/cube.igs", "examples/README.md", "examples/no/README.md", "examples/no/fail_pair.igs", "examples/occt/05_sphere.igs",
)  # fmt: skip


def files_in(folder):
    return sorted(str(it.relative_to(folder)) for it in folder.rglob("*") if not it.is_dir())


def certifies(copy, root):
    """Whether what is installed below a folder certifies an example that is installed there, without the kit."""
    wanted = subprocess.run([copy.program, "certify", copy.top / "examples" / "cube.igs", "1"], stdout=subprocess.PIPE).stdout
    return copy.run(root / "bin" / "igesolid", "certify", "cube.igs", "1", cwd=root / "share" / "doc" / "igesolid" / "examples") == (0, wanted, "")


def draws(copy, root):
    """Whether what is installed below a folder makes a page of an example that is installed there."""
    status, text, error = copy.run(root / "bin" / "igesolid", "page", "fail_pair.igs", "1", cwd=root / "share" / "doc" / "igesolid" / "examples" / "no")
    return (status, text[:15], error) == (1, b"<!doctype html>", "")


def installs(copy):
    prefix = copy.folder / "a prefix"
    status, text, error = copy.run("./install", prefix)
    yield "install", (status, error) == (0, "") and text.decode().startswith(f"igesolid is installed in {prefix}\n")
    found = files_in(prefix)
    for name in [*INSTALLED, *(f"share/doc/igesolid/{page}" for page in PAGES)]:
        yield f"install: {name}", name in found
    yield "install: it certifies", certifies(copy, prefix)
    yield "install: it draws", draws(copy, prefix) and files_in(prefix) == found
    own, installed = (copy.run(at, "--version")[1].decode().splitlines() for at in ("./igesolid", prefix / "bin" / "igesolid"))
    yield "install: --version", installed[:3] == own[:3] and installed[3].endswith("/lib/igesolid/igesolid")
    yield "install: --built", copy.run(prefix / "bin" / "igesolid", "--built")[0] == 125
    status, text, _ = copy.run(prefix / "bin" / "igesolid", "--help")
    yield "install: --help names the pages", status == 0 and f"Documentation: {prefix}/share/doc/igesolid\n" in text.decode()
    where = prefix / "lib" / "igesolid" / "igesolid-where"
    where.rename(prefix / "elsewhere")
    cube = copy.top / "examples" / "cube.igs"
    status, _, error = copy.run(prefix / "bin" / "igesolid", "where", cube)
    yield "install: a missing program is named", status == 125 and "/igesolid-where is missing or not executable: install igesolid again" in error
    yield "install: the other one runs", copy.run(prefix / "bin" / "igesolid", "solids", cube) == (0, b"1\n", "")
    (prefix / "elsewhere").rename(where)
    yield "install: a second time", copy.run("./install", prefix)[0] == 0 and files_in(prefix) == found
    kept = prefix / "share" / "doc" / "igesolid" / "notes"
    kept.write_text("of somebody else\n")
    yield "uninstall", copy.run("./install", "--uninstall", prefix)[0] == 0
    yield "uninstall: what others put there stays", files_in(prefix) == ["share/doc/igesolid/notes"]
    yield "uninstall: a second time", copy.run("./install", "--uninstall", prefix)[0] == 1
    shutil.rmtree(prefix)
    home = copy.folder / "home"
    yield "install: without a prefix", copy.run("./install", HOME=home)[0] == 0 and certifies(copy, home / ".local")
    yield "uninstall: without a prefix", copy.run("./install", "--uninstall", HOME=home)[0] == 0 and list((home / ".local").iterdir()) == []
    stage = copy.folder / "stage"
    yield "install: DESTDIR", copy.run("./install", "/usr", DESTDIR=stage)[0] == 0 and certifies(copy, stage / "usr")
    shutil.rmtree(stage)


LIBRARY = "lib/libigesolid.a", "lib/libigesolid.so.1", "lib/libigesolid.so", "include/igesolid.h", "lib/pkgconfig/igesolid.pc", "share/igesolid/igesolid-web.html"
CALLER = """#include <igesolid.h>
int main(void) {
    igesolid_text text = IGESOLID_NO_TEXT;
    return (int)igesolid_run((const uint8_t *)"solids", 6, text.bytes, 0, text.bytes, 0, &text);
}
"""


def libraries(copy, skipped):
    """The library for C: where it is installed, what pkg-config says of it, and its packages."""
    if None in (shipped("libigesolid-x86_64-linux.a"), shipped("libigesolid-x86_64-linux.so"), shipped("igesolid.wasm")):
        skipped("the library for C, installed: dist/ holds none of these sources")
        return
    # dist/ as it is, where the copy has what the kit that is played made.
    shutil.rmtree(copy.top / "dist")
    shutil.copytree(DIST, copy.top / "dist")
    prefix = copy.folder / "prefix-for-c"
    status, text, error = copy.run("./install", prefix)
    found = files_in(prefix)
    yield "install: with the library", (status, error) == (0, "") and b"library" not in text.split(b"\n", 1)[1]
    for name in LIBRARY:
        yield f"install: {name}", name in found
    program, source = copy.folder / "caller", copy.folder / "caller.c"
    source.write_text(CALLER)
    if shutil.which("gcc") is None or shutil.which("pkg-config") is None:
        skipped("the library by pkg-config: gcc or pkg-config isn't installed")
    else:
        where = {"PKG_CONFIG_PATH": prefix / "lib" / "pkgconfig"}
        words = shlex.split(copy.run("pkg-config", "--cflags", "--libs", "igesolid", **where)[1].decode())
        yield "install: by pkg-config", copy.run("gcc", "-Wall", "-Wextra", "-Werror", source, *words, "-o", program)[0] == 0
        yield "install: it runs", copy.run(program, LD_LIBRARY_PATH=prefix / "lib")[0] == 2
    yield "uninstall: with the library", copy.run("./install", "--uninstall", prefix)[0] == 0 and files_in(prefix) == []
    if shutil.which("dpkg-deb") is None:
        skipped("the Debian packages of the library: dpkg-deb isn't installed")
        return
    made = [copy.run("packaging/deb-library", copy.folder, SOURCE_DATE_EPOCH=1_700_000_000) for _ in range(2)]
    yield "package: of the library", [it[0] for it in made] == [0, 0] and made[0][1].decode().count("\n") == 2
    if made[0][0] != 0:
        return
    root = copy.folder / "library root"
    for package in made[0][1].decode().split("\n")[:-1]:
        yield f"package: {os.path.basename(package)}", copy.run("dpkg-deb", "--extract", package, root)[0] == 0
    at = "usr/lib/x86_64-linux-gnu"
    wanted = *(f"{at}/{name}" for name in ("libigesolid.a", "libigesolid.so", "libigesolid.so.1", "pkgconfig/igesolid.pc")), "usr/include/igesolid.h"
    yield "package: what the library's have", set(wanted) <= set(files_in(root))
    main = copy.run("packaging/deb", copy.folder, SOURCE_DATE_EPOCH=1_700_000_000)[1].decode().strip()
    yield "package: the library is in no other", b"libigesolid" not in copy.run("dpkg-deb", "--contents", main)[1]
    shutil.rmtree(root)
    copy.ship(copy.program)


def packages(copy, skipped):
    if shutil.which("dpkg-deb") is None:
        skipped("the Debian package: dpkg-deb isn't installed")
        return
    status, text, error = copy.run("packaging/deb", copy.folder, SOURCE_DATE_EPOCH=1_700_000_000)
    yield "package", (status, error) == (0, "")
    if status != 0:
        return
    package = text.decode().strip()
    whole = open(package, "rb").read()
    copy.run("packaging/deb", copy.folder, SOURCE_DATE_EPOCH=1_700_000_000)
    yield "package: the same bytes again", open(package, "rb").read() == whole
    needs = copy.run("dpkg-deb", "--field", package, "Depends")[1].decode()
    yield "package: needs the C library alone", re.fullmatch(r"libc6 \(>= 2\.[0-9]+\)\n", needs) is not None
    yield "package: recommends Python", copy.run("dpkg-deb", "--field", package, "Recommends")[1] == b"python3 (>= 3.8)\n"
    root = copy.folder / "root"
    if os.geteuid() == 0:
        # dpkg knows of one package there, the C library of this machine.
        (root / "var" / "lib" / "dpkg" / "info").mkdir(parents=True)
        (root / "var" / "lib" / "dpkg" / "updates").mkdir()
        (root / "var" / "lib" / "dpkg" / "status").write_bytes(copy.run("dpkg-query", "--status", "libc6")[1])
        installed = copy.run("dpkg", f"--root={root}", "--force-script-chrootless", "--install", package)
        yield "package: installed", installed[0] == 0 and b"install ok installed" in copy.run("dpkg-query", f"--admindir={root}/var/lib/dpkg", "--status", "igesolid")[1]
    else:
        yield "package: unpacked", copy.run("dpkg-deb", "--extract", package, root)[0] == 0
    yield "package: it certifies", certifies(copy, root / "usr")
    yield "package: it draws", draws(copy, root / "usr")
    if os.geteuid() == 0:
        copy.run("dpkg", f"--root={root}", "--force-script-chrootless", "--purge", "igesolid")
        yield "package: removed", not (root / "usr").exists() or files_in(root / "usr") == []
    shutil.rmtree(root)
    yield from reproduced(copy, skipped)
    if shutil.which("lintian") is None:
        skipped("the Debian package's look by lintian, which isn't installed")
    else:
        yield "package: lintian", copy.run("lintian", "--allow-root", "--fail-on", "error,warning", package)[0] == 0


def reproduced(copy, skipped):
    """Two clones of a commit make the same bytes, at different times, with different rights; so do files with other dates."""
    if shutil.which("git", path=clone.PLAIN_PATH) is None:
        skipped("packages of one commit: git isn't installed")
        return
    copy.run("git", "init", "--quiet")
    copy.run("git", "add", "--all")
    own = "-c", "user.name=tests", "-c", "user.email=tests@localhost"
    copy.run("git", *own, "commit", "--quiet", "--message=all", GIT_COMMITTER_DATE="1700000000 +0000")
    other = copy.folder / "another clone"
    copy.run("git", "clone", "--quiet", copy.top, other, limit=lambda: os.umask(0o077))
    packages = []
    for top in (copy.top, other):
        (top / "made").mkdir()
        environment = copy.environment()
        environment.pop("SOURCE_DATE_EPOCH", None)
        done = subprocess.run([top / "packaging" / "deb", top / "made"], stdout=subprocess.PIPE, env=environment, timeout=clone.SECONDS)
        packages.append(open(done.stdout.decode().strip(), "rb").read())
    yield "package: the same bytes of one commit", packages[0] == packages[1]
    shutil.rmtree(other)
    shutil.rmtree(copy.top / "made")
    shutil.rmtree(copy.top / ".git")


# A line to complete, without its first word, and what is offered for its last word: all of it, or one of many.
COMPLETED = (
    (("certi",), {"certify"}),
    (("verify", "examples/two_solids.i"), {"examples/two_solids.igs"}),
    (("certify", "examples/two_solids.igs", ""), {"1", "11", "all"}),
    (("where", "examples/two_solids.igs", "1", ""), {"all"}),
    (("mend", "examples/two_solids.igs", ""), {"1", "11"}),
    (("mend", "examples/two_solids.igs", "1", ""), {"1", "2", "3", "4", "5", "6"}),
    (("where", "--"), {"--json"}),
    (("where", "--json", "examples/two_solids.i"), {"examples/two_solids.igs"}),
    (("where", "--json", "examples/two_solids.igs", ""), {"1", "11"}),
    (("--vers",), {"--version"}),
)
BY_BASH = """. "$1"; shift
COMP_WORDS=(igesolid "$@"); COMP_CWORD=$#
_igesolid
printf '%s\\n' "${COMPREPLY[@]}"
"""
BY_ZSH = """source_file=$1; shift
_describe() { print -l ${commands%%:*} }
_files() { print -l -- $words[CURRENT]*(N) }
compadd() { shift; print -l -- $* }
words=(igesolid "$@"); CURRENT=$#words
complete_words() { . $source_file }
complete_words
"""


def completed(copy, shell, script, words):
    """What the completion of a shell offers for the last of these words; where it offers all words, those that begin so."""
    folder = copy.folder / "path"
    if shell == "fish":
        line = " ".join(["igesolid", *words])
        status, text, error = copy.run("fish", "-c", f"source '{script}'; complete -C '{line}'", PATH=f"{folder}:{clone.PLAIN_PATH}", HOME=folder)
    else:
        options = ["-f"] if shell == "zsh" else ["--norc"]
        text_of = {"bash": BY_BASH, "zsh": BY_ZSH}[shell]
        status, text, error = copy.run(shell, *options, "-c", text_of, shell, script, *words, PATH=f"{folder}:{clone.PLAIN_PATH}")
    offered = {line.split("\t")[0] for line in text.decode().splitlines()}
    return {it for it in offered if it.startswith(words[-1])}, error


def completions(copy, skipped):
    """What each shell offers: commands, files and the numbers of a file's solids."""
    (copy.folder / "path").mkdir()
    (copy.folder / "path" / "igesolid").symlink_to(copy.top / "igesolid")
    for shell in ("bash", "zsh", "fish"):
        status, text, error = copy.run("packaging/completions", shell)
        yield f"completion: {shell}", (status, error) == (0, "")
        if shutil.which(shell, path=clone.PLAIN_PATH) is None:
            skipped(f"the completion of {shell}, which isn't installed")
            continue
        script = copy.folder / "completion"
        script.write_bytes(text)
        for words, wanted in COMPLETED:
            yield f"completion: {shell}: {words}", completed(copy, shell, script, words) == (wanted, "")
        for row in command_table.of_kind("command", "python"):
            command = row.words.split()[0]
            yield f"completion: {shell}: {command}", command in completed(copy, shell, script, (command,))[0]
    yield "completion: of no shell", copy.run("packaging/completions", "csh")[0] == 2
    shutil.rmtree(copy.folder / "path")


def pages(copy, skipped):
    if shutil.which("groff") is None:
        skipped("the man page: groff isn't installed")
    else:
        status, _, error = copy.run("groff", "-man", "-ww", "-Tascii", "man/igesolid.1")
        yield "man page: no warnings", (status, error) == (0, "")


def checks(copy, skipped):
    yield from installs(copy)
    yield from libraries(copy, skipped)
    yield from packages(copy, skipped)
    yield from pages(copy, skipped)
