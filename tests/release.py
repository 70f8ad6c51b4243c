#!/usr/bin/env -S python3 -B
"""Makes a release of PROGRAM by tools/release, installs the archive and the package into empty roots, and runs the program there.

    tests/release.py PROGRAM

The release is made as one of an unproved build, since nobody knows here whether PROGRAM is proved. Where this runs as root, the program
is run with the root as its own, with no more of the system in it than the libraries that it asks for. Each refusal of tools/release is
tried too. Without dpkg-deb nothing is, and that is said. Prints what is wrong, and as its last line 'N passed, N failed'.
"""
import gzip
import hashlib
import os
import re
import shutil
import subprocess
import sys
import tempfile

TOP = os.path.dirname(os.path.dirname(os.path.abspath(__file__)))
RELEASE = f"{TOP}/tools/release"
GOOD, YES = f"{TOP}/tests/evidence/row-yes-2", "yes transactions=1 inputs=2 outputs=3\n"

passed = failed = 0


def expect(holds, what):
    global passed, failed
    if holds:
        passed += 1
    else:
        failed += 1
        print(f"FAILED: {what}")


def run(*words, **settings):
    done = subprocess.run(list(map(str, words)), capture_output=True, text=True, timeout=300, **settings)
    return done.returncode, done.stdout, done.stderr


def read(path):
    with open(path, "rb") as file:
        return file.read()


def version():
    return re.search(r"^## (\S+)", read(f"{TOP}/CHANGELOG.md").decode(), re.M)[1]


def made(program, out):
    """The release's folder: its names, and their checksums."""
    status, said, text = run(RELEASE, "--unproved", program, "--out", out)
    named = f"{version()}~unproved"
    machine = run("dpkg", "--print-architecture")[1].strip()
    names = [f"eoscheck-{named}-linux-{os.uname().machine}.tar.gz", f"eoscheck_{named}_{machine}.deb"]
    expect((status, text) == (0, "") and sorted(os.listdir(out)) == sorted([*names, "SHA256SUMS"]), f"a release: {status} {said}{text}")
    expect(said == "".join(f"{out}/{name}\n" for name in [*names, "SHA256SUMS"]), f"what is said: {said}")
    sums = "".join(f"{hashlib.sha256(read(f'{out}/{name}')).hexdigest()}  {name}\n" for name in names)
    expect(read(f"{out}/SHA256SUMS").decode() == sums, "the checksums")
    return [f"{out}/{name}" for name in names]


def runs_there(root, program, what):
    """The installed program answers in its root."""
    expect(read(f"{root}/{program}") == read(original), f"{what}: the program is another")
    expect(os.stat(f"{root}/{program}").st_mode & 0o7777 == 0o755, f"{what}: the program's mode")
    shutil.copytree(GOOD, f"{root}/evidence")
    if os.geteuid() == 0:
        for library in re.findall(r"(/\S+) \(0x", run("ldd", original)[1]):
            os.makedirs(f"{root}/{os.path.dirname(library)}", exist_ok=True)
            shutil.copy(library, f"{root}/{library}")
        said = run("chroot", root, f"/{program}", "check", "/evidence")
    else:
        said = run(f"./{program}", "check", "evidence", cwd=root)
    # what watches an unproved build's memory says that it misses /proc
    told = re.sub(r"==\d+==WARNING: reading executable name failed.*\n", "", said[2])
    expect((*said[:2], told) == (0, YES, ""), f"{what}: {said}")


def build_is_told(text, what):
    lines = text.decode().splitlines()
    digest = hashlib.sha256(read(original)).hexdigest()
    expect(lines[0] == f"eoscheck {version()}~unproved" and lines[-1] == f"sha256 of the program: {digest}", f"{what}: BUILD is {lines}")
    expect(any(it.startswith("proved: NO: ") for it in lines) and any(it.startswith("kit: ") for it in lines), f"{what}: BUILD is {lines}")
    commit = run("git", "-C", TOP, "rev-parse", "HEAD")[1].strip() if os.path.exists(f"{TOP}/.git") else "unknown"
    expect(any(it.startswith(f"commit: {commit}") for it in lines), f"{what}: BUILD is {lines}")
    asked = sorted(set(re.findall(r"GLIBC_([0-9.]+)", run("readelf", "-V", original)[1])), key=lambda it: [*map(int, it.split("."))])
    wanted = f"GNU's C library from {asked[-1]} on" if asked else "nothing else"
    expect(any(it.startswith("needs: ") and it.endswith(wanted) for it in lines), f"{what}: BUILD is {lines}, not {wanted}")
    return asked[-1] if asked else None


def pages_stand(root, man, completions, ending=""):
    """The manual pages and completions are those of the repository."""
    for name in os.listdir(f"{TOP}/docs/man"):
        text = read(f"{root}/{man}/{name}{ending}")
        expect((gzip.decompress(text) if ending else text) == read(f"{TOP}/docs/man/{name}"), f"the page {name}")
    for name, path in completions.items():
        expect(read(f"{root}/{path}") == read(f"{TOP}/completions/{name}"), f"the completion {name}")


def archive_installed(path):
    root = f"{scratch}/archive"
    os.mkdir(root)
    expect(run("tar", "xzf", path, "-C", root)[0] == 0, "the archive is unpacked")
    top = os.path.basename(path).removesuffix(".tar.gz")
    expect(os.listdir(root) == [top], f"the archive has {os.listdir(root)}")
    runs_there(root, f"{top}/eoscheck", "the archive")
    build_is_told(read(f"{root}/{top}/BUILD"), "the archive")
    pages_stand(f"{root}/{top}", "man", {name: f"completions/{name}" for name in os.listdir(f"{TOP}/completions")})
    expect(read(f"{root}/{top}/LICENSE") == read(f"{TOP}/LICENSE"), "the archive's licence")
    status, said, _ = run(f"{root}/{top}/tools/collect.sh", "--help")
    expect(status == 0 and said.startswith("Collects the evidence"), "the archive's collect.sh")
    owners = {line.split()[1] for line in run("tar", "tvzf", path)[1].splitlines()}
    expect(owners == {"root/root"}, f"the archive's files are of {owners}")


def package_installed(path):
    root = f"{scratch}/package"
    for folder in ("info", "updates", "triggers"):
        os.makedirs(f"{root}/var/lib/dpkg/{folder}")
    open(f"{root}/var/lib/dpkg/status", "w", encoding="utf-8").close()
    # The empty root has no C library; its script-less package is unpacked and set up all the same.
    words = ["dpkg", f"--root={root}", "--force-not-root", "--force-depends", f"--log={scratch}/log", "-i", path]
    status, said, text = run(*words)
    expect(status == 0, f"the package isn't installed: {said}{text}")
    expect(run("dpkg", f"--root={root}", "-s", "eoscheck")[1].startswith("Package: eoscheck\nStatus: install ok installed\n"), "the package's status")
    expect(run("dpkg", f"--root={root}", "-V", "eoscheck")[:2] == (0, ""), "the package's sums")
    runs_there(root, "usr/bin/eoscheck", "the package")
    library = build_is_told(read(f"{root}/usr/share/doc/eoscheck/BUILD"), "the package")
    pages_stand(root, "usr/share/man/man1", {
        "_eoscheck": "usr/share/zsh/vendor-completions/_eoscheck",
        "eoscheck.bash": "usr/share/bash-completion/completions/eoscheck",
        "eoscheck.fish": "usr/share/fish/vendor_completions.d/eoscheck.fish",
    }, ".gz")
    expect(read(f"{root}/usr/share/doc/eoscheck/copyright") == read(f"{TOP}/LICENSE"), "the package's licence")
    expect(gzip.decompress(read(f"{root}/usr/share/doc/eoscheck/changelog.gz")) == read(f"{TOP}/CHANGELOG.md"), "the package's changes")
    fields = {it: run("dpkg-deb", "-f", path, it)[1].strip() for it in ("Package", "Version", "Depends", "Description")}
    expect(fields["Package"] == "eoscheck" and fields["Version"] == f"{version()}~unproved" and ", not proved" in fields["Description"],
           f"the package says {fields}")
    expect(not library or fields["Depends"].startswith(f"libc6 (>= {library})"), f"the package needs {fields['Depends']}, not {library}")


def refused(what, line, *words, **settings):
    out = f"{scratch}/refused"
    status, said, text = run(RELEASE, *words, "--out", out, **settings)
    expect((status, said) == (2, "") and re.fullmatch(f"release: {line}\n", text), f"{what}: {status} {said}{text}")
    expect(not os.path.lexists(out) and not any(it.startswith(".release.") for it in os.listdir(scratch)), f"{what} leaves {os.listdir(scratch)}")


def refusals():
    refused("no program", "no program .*/none: give one that stands there", "--unproved", f"{scratch}/none")
    refused("the script", ".*/eoscheck isn't a program for Linux: .*", "--unproved", f"{TOP}/eoscheck")
    refused("another program", "the program says 'true .*', and CHANGELOG.md .*: write its entry, .*", "--unproved", shutil.which("true"))
    status, _, text = run(RELEASE, "--unproved", original, "--out", scratch)
    expect(status == 2 and text == f"release: {scratch} is there already: move it away, or give another by --out\n", f"a folder that is there: {text}")
    status, _, text = run(RELEASE, "--unproved", original, "--out", f"{scratch}/none/out")
    expect(status == 2 and text.startswith(f"release: {scratch}/none/out can't be made: "), f"no room: {text}")
    os.mkdir(f"{scratch}/bin")
    for name in ("env", "python3"):
        os.symlink(shutil.which(name), f"{scratch}/bin/{name}")
    refused("without dpkg-deb", "dpkg-deb isn't here: it is of Debian's package dpkg", "--unproved", original,
            env={**os.environ, "PATH": f"{scratch}/bin"})


def not_proved():
    """A program without the kit's mark is no release: in a copy of what tools/release reads, where the program's sources are others."""
    copy = f"{scratch}/copy"
    for name in ("tools", "docs", "completions", "crates/eoscheck", "crates/eos_base"):
        shutil.copytree(f"{TOP}/{name}", f"{copy}/{name}", ignore=shutil.ignore_patterns("out"))
    for name in ("CHANGELOG.md", "README.md", "LICENSE"):
        shutil.copy(f"{TOP}/{name}", copy)
    with open(f"{copy}/crates.txt", "w", encoding="utf-8") as file:
        file.write("eos_base: bytes thiserror\neoscheck: eos_base\n")
    words = [f"{copy}/tools/release", "--out", f"{scratch}/unmarked"]
    status, _, text = run(*words)
    expect(status == 2 and text == "release: no proved program stands: call ./eoscheck --prove, or give another by --unproved PROGRAM\n", f"nothing proved: {text}")
    os.makedirs(f"{copy}/crates/eoscheck/out")
    shutil.copy(original, f"{copy}/crates/eoscheck/out/eoscheck")
    if not shutil.which("rt"):
        print("no rt: a program without a mark was not tried")
        return
    for mark in (None, "0" * 128):
        if mark:
            with open(f"{copy}/crates/eoscheck/out/eoscheck.stamp", "w", encoding="utf-8") as file:
                file.write(mark)
        status, _, text = run(*words)
        expect(status == 2 and "isn't marked as proved of these sources" in text and not os.path.exists(f"{scratch}/unmarked"), f"a mark {mark}: {text}")


def main():
    global original, scratch
    original = os.path.abspath(sys.argv[1])
    if not shutil.which("dpkg-deb"):
        print("skipped: releases: no dpkg-deb (Debian's dpkg)")
        print("0 passed, 0 failed")
        return
    with tempfile.TemporaryDirectory() as scratch:
        os.chmod(scratch, 0o755)
        archive, package = made(original, f"{scratch}/release")
        expect([read(it) for it in made(original, f"{scratch}/again")] == [read(archive), read(package)], "a second release has other bytes")
        archive_installed(archive)
        package_installed(package)
        refusals()
        not_proved()
    print(f"{passed} passed, {failed} failed")
    sys.exit(1 if failed else 0)


if __name__ == "__main__":
    main()
