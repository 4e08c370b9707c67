"""Builds the crate's driver: the crate ocb3 0.2.0 as it is, over its dependencies from Debian's packages. Nothing is installed on the machine."""

import hashlib
import os
import re
import shutil
import subprocess
import tempfile
from pathlib import Path

from script import Trouble, say

HERE = Path(__file__).resolve().parent
DRIVER = HERE / "crate-driver"
PACKAGES = HERE / "packages.txt"
CRATE_SHA256 = "29ca9f406e53bba0059238624cb95b89fd7683f40bfa793d2b18f9ed7c800f4b"  # of src/lib.rs of ocb3 0.2.0
LEAST_CARGO = (1, 89)  # what the aes crate asks for
KEYRING = "/usr/share/keyrings/debian-archive-keyring.gpg"
# cargo takes every crate from the folder vendor/ and nothing from the network
CARGO_CONFIG = '[source.crates-io]\nreplace-with = "debian"\n\n[source.debian]\ndirectory = "vendor"\n\n[net]\noffline = true\n'


def add_options(options):
    options.add_argument("--crate", metavar="FILE", type=Path, required=True, help="src/lib.rs of the crate ocb3 0.2.0")
    options.add_argument("--debs", metavar="FOLDER", type=Path, help="take Debian's packages from this folder and nothing from the network")
    options.add_argument("--newer", action="store_true", help="take sid's version where the one in packages.txt is gone from it")
    options.add_argument("--build", metavar="FOLDER", type=Path, default=HERE.parent / "target" / "compare",
                         help="where to build; a second run takes what is there (default: target/compare)")


def driver(options):
    """The command that runs the driver, built where it is not yet."""
    crate = crate_text(options.crate)
    compiler = check_tools()
    folder = options.build.resolve()
    folder.mkdir(parents=True, exist_ok=True)
    program, stamp = folder / "target/debug/crate-driver", folder / "made-of"
    made_of = fingerprint(compiler)
    if not (program.exists() and stamp.exists() and stamp.read_text() == made_of):
        stamp.unlink(missing_ok=True)
        exact = vendor(folder, options)
        compile_driver(folder, crate)
        if exact:
            stamp.write_text(made_of)
    return [str(program)]


def crate_text(path):
    if not path.is_file():
        raise Trouble(f"no file {path}: --crate wants src/lib.rs of the crate ocb3 0.2.0")
    text = path.read_bytes()
    found = hashlib.sha256(text).hexdigest()
    if found != CRATE_SHA256:
        raise Trouble(f"{path} is not src/lib.rs of ocb3 0.2.0: its sha256 is {found}, not {CRATE_SHA256}")
    return text


def check_tools():
    """The compiler's version line."""
    for tool, package in (("cargo", "cargo"), ("rustc", "rustc"), ("cc", "gcc"), ("dpkg-deb", "dpkg")):
        if shutil.which(tool) is None:
            raise Trouble(f"the program {tool} is missing (Debian's package {package})")
    version = subprocess.run(["cargo", "--version"], capture_output=True, text=True, check=False).stdout
    found = re.match(r"cargo (\d+)\.(\d+)", version)
    if not found or tuple(map(int, found.groups())) < LEAST_CARGO:
        raise Trouble(f"cargo {'.'.join(map(str, LEAST_CARGO))} or later is needed; here is '{version.strip()}'")
    return subprocess.run(["rustc", "--version"], capture_output=True, text=True, check=False).stdout


def fingerprint(compiler):
    files = [PACKAGES, *sorted(path for path in DRIVER.rglob("*") if path.is_file())]
    return hashlib.sha256(b"\0".join([compiler.encode(), *(path.read_bytes() for path in files)])).hexdigest() + "\n"


# ---- the dependencies ----


def wanted_packages():
    """Package, version, and sha256 of the crate in it."""
    lines = (line.split() for line in PACKAGES.read_text().splitlines())
    return [line for line in lines if line and not line[0].startswith("#")]


def vendor(folder, options):
    """Fills the folder vendor/ with the crates. True where each is the recorded one."""
    debs, unpacked, crates = folder / "debs", folder / "unpacked", folder / "vendor"
    debs.mkdir(exist_ok=True)
    missing = [(package, version) for package, version, _ in wanted_packages() if not deb_of(debs, package, version)]
    if missing and options.debs:
        copy_debs(missing, options.debs, debs)
    elif missing:
        download(missing, debs, options.newer)
    exact = True
    for old in (unpacked, crates):
        shutil.rmtree(old, ignore_errors=True)
    for package, version, recorded in wanted_packages():
        deb = deb_of(debs, package, version) or deb_of(debs, package)
        room = unpacked / package
        room.mkdir(parents=True)
        if subprocess.run(["dpkg-deb", "-x", deb, room], capture_output=True, check=False).returncode != 0:
            deb.unlink()
            raise Trouble(f"{deb.name} is not a Debian package")
        for crate in sorted((room / "usr/share/cargo/registry").iterdir()):
            if tree_sha256(crate) != recorded:
                if not options.newer:
                    deb.unlink()
                    raise Trouble(f"the crate {crate.name} of {deb.name} is not the one recorded in packages.txt (--newer takes it)")
                exact = False
                say(f"NOTE: {crate.name} is not the crate recorded in packages.txt")
            shutil.copytree(crate, crates / crate.name)
    return exact


def deb_of(folder, package, version=None):
    """The package's file in the folder: of this version, or any."""
    pattern = f"{package}_{version.replace(':', '%3a') if version else '*'}_*.deb"
    return next(iter(sorted(folder.glob(pattern), reverse=True)), None)


def tree_sha256(folder):
    """Over the names and bytes of a crate's files. `.cargo-checksum.json` is left out: it is not the same on every architecture."""
    total = hashlib.sha256()
    for path in sorted(path for path in folder.rglob("*") if path.is_file() and path.name != ".cargo-checksum.json"):
        total.update(f"{hashlib.sha256(path.read_bytes()).hexdigest()}  {path.relative_to(folder)}\n".encode())
    return total.hexdigest()


def copy_debs(missing, source, debs):
    if not source.is_dir():
        raise Trouble(f"no folder {source}: --debs wants one with the packages of packages.txt")
    for package, version in missing:
        deb = deb_of(source, package, version)
        if deb is None:
            raise Trouble(f"{source} has no {package} {version}")
        shutil.copy(deb, debs)


def download(missing, debs, newer):
    """Debian sid through this machine's apt, over lists of packages in a folder of their own."""
    if shutil.which("apt-get") is None:
        raise Trouble("Debian's packages cannot be had: no apt-get here (--debs FOLDER takes them from a folder)")
    if not os.path.exists(KEYRING):
        raise Trouble("Debian's packages cannot be had: the package debian-archive-keyring is missing")
    targets = subprocess.run(["apt-get", "indextargets", "--format", "$(REPO_URI)"], capture_output=True, text=True, check=False).stdout
    mirrors = sorted(uri for uri in set(targets.split()) if uri.rstrip("/").endswith("/debian"))
    if not mirrors:
        raise Trouble("Debian's packages cannot be had: apt has no list of a Debian mirror ('apt-get update' makes it)")
    with tempfile.TemporaryDirectory() as room:
        room = Path(room)
        room.chmod(0o755)
        for part in ("sources", "lists/partial", "cache/archives/partial"):
            (room / part).mkdir(parents=True)
        (room / "status").touch()
        (room / "sources/sid.sources").write_text(f"Types: deb\nURIs: {mirrors[0]}\nSuites: sid\nComponents: main\nSigned-By: {KEYRING}\n")
        settings = {"Dir::Etc::sourcelist": "/dev/null", "Dir::Etc::sourceparts": room / "sources", "Dir::State::lists": room / "lists",
                    "Dir::State::status": room / "status", "Dir::Cache": room / "cache", "Acquire::Languages": "none", "APT::Sandbox::User": "root"}
        (room / "apt.conf").write_text("".join(f'{name} "{value}";\n' for name, value in settings.items()))
        environment = {**os.environ, "APT_CONFIG": str(room / "apt.conf"), "LC_ALL": "C"}

        def apt(*words):
            return subprocess.run(words, env=environment, cwd=debs, capture_output=True, text=True, check=False)

        say("fetching Debian sid's list of packages")
        update = apt("apt-get", "update")
        if update.returncode != 0 or re.search(r"^(E:|Err:|W: Failed)", update.stdout + update.stderr, re.MULTILINE):
            raise Trouble("Debian's packages cannot be had: apt does not reach Debian sid (--debs FOLDER takes them from a folder)")
        wanted = []
        for package, version in missing:
            policy = re.search(r"Candidate: (\S+)", apt("apt-cache", "policy", package).stdout)
            now = policy.group(1) if policy else "none"
            if now != version and not newer:
                raise Trouble(f"Debian's packages cannot be had: sid has {package} {now}, not {version} (--newer takes it, --debs FOLDER kept ones)")
            if now != version:
                say(f"NOTE: {package} {version} is gone from sid; taking {now}")
            wanted.append(f"{package}={now}")
        say(f"fetching {len(wanted)} packages")
        if apt("apt-get", "download", *wanted).returncode != 0:
            raise Trouble("Debian's packages cannot be had: apt cannot download them (--debs FOLDER takes them from a folder)")


# ---- the program ----


def compile_driver(folder, crate):
    shutil.copytree(DRIVER, folder, dirs_exist_ok=True)
    source = folder / "ocb3/src/lib.rs"
    source.parent.mkdir(exist_ok=True)
    source.write_bytes(crate)
    (folder / "ocb3/README.md").write_text("")  # src/lib.rs includes it as documentation
    (folder / ".cargo").mkdir(exist_ok=True)
    (folder / ".cargo/config.toml").write_text(CARGO_CONFIG)
    (folder / "Cargo.lock").unlink(missing_ok=True)
    say("building the crate's driver (4,480 instances: a minute or two)")
    environment = {name: value for name, value in os.environ.items() if name != "RUSTFLAGS"}
    environment.update(CARGO_HOME=str(folder / "cargo-home"), CARGO_TARGET_DIR=str(folder / "target"))
    log = folder / "cargo.log"
    with log.open("w") as out:
        status = subprocess.run(["cargo", "build", "--offline"], cwd=folder, env=environment, stdout=out, stderr=out, check=False).returncode
    if status != 0:
        reason = next((line for line in log.read_text().splitlines() if line.startswith("error")), "no reason given")
        raise Trouble(f"cargo cannot build the crate's driver ({reason}); all of it is in {log}")
