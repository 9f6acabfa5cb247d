"""Builds the drivers of the libraries, and runs commands in them."""
import os
import subprocess
import sys
import tempfile

HERE = os.path.dirname(os.path.abspath(__file__))
TOP = os.path.join(HERE, "..", "..")
OUT = os.path.join(HERE, "..", "target", "peers")
OURS = "dkap"
# How long the commands of a batch may take in one library.
SECONDS = 300
# The commands that print numbers, which the variable FAULT of a driver in C makes wrong.
FAULTS = "fill omit total min max q mean sd at between below class recorded linear log ticks read".split()
COMPILER = os.environ.get("CC", "cc")
SOURCES = ["hdr_histogram", "hdr_histogram_log", "hdr_encoding", "hdr_time"]


def call(*command, **options):
    subprocess.run(command, check=True, **options)


def output_of(*command):
    return subprocess.run(command, check=True, stdout=subprocess.PIPE, text=True).stdout.strip()


def compile_c(name, *arguments):
    path, sources = os.path.join(OUT, name), [os.path.join(HERE, f"{it}.c") for it in (name, "driver")]
    call(COMPILER, "-std=c99", "-O2", "-I", HERE, "-o", path, *sources, *arguments)
    return [path]


def fetched():
    """The source of HdrHistogram_c."""
    script = os.path.join(TOP, "capi", "compat", "fetch.sh")
    return os.environ.get("HDR_SOURCE") or output_of(script, os.path.join(OUT, "debian"), "libhdr-histogram", "sid")


def build_ours():
    target = os.environ.get("DKAP_TARGET", os.path.join(TOP, "capi", "target"))
    return compile_c("dkap", "-I", os.path.join(TOP, "capi"), os.path.join(target, "libdkap.a"))


def build_c():
    source, objects = fetched(), []
    folders = ["-I", f"{source}/include", "-I", f"{source}/src"]
    for name in SOURCES:
        objects.append(os.path.join(OUT, f"{name}.o"))
        call(COMPILER, "-std=gnu11", "-O2", "-w", *folders, "-c", "-o", objects[-1], f"{source}/src/{name}.c")
    return compile_c("hdr", "-isystem", f"{source}/include", *objects, "-lm", "-lz")


def build_java():
    jar = os.environ.get("HDR_JAR", "/usr/share/java/hdrhistogram.jar")
    call("javac", "-cp", jar, "-d", OUT, os.path.join(HERE, "Peer.java"))
    return ["java", "-Xss16m", "-Dfile.encoding=UTF-8", "-cp", f"{jar}:{OUT}", "Peer"]


def build_rust():
    return [output_of(os.path.join(HERE, "..", "run"), "build", "peer")]


BUILDS = {OURS: build_ours, "HdrHistogram_c": build_c, "Java": build_java, "Rust": build_rust}


def build(names):
    """The command line of each driver."""
    os.makedirs(OUT, exist_ok=True)
    built = {}
    for name in names:
        try:
            built[name] = BUILDS[name]()
        except (OSError, subprocess.CalledProcessError) as error:
            sys.exit(f"compare/peers: the driver of {name} is not built: {error}")
    return built


def run(driver, name, commands):
    """The results of commands, a line each. DKAP_FAULT names a command of this library whose results are made wrong."""
    environment = dict(os.environ, LC_ALL="C.UTF-8")
    environment.pop("FAULT", None)
    if name == OURS and os.environ.get("DKAP_FAULT"):
        environment["FAULT"] = os.environ["DKAP_FAULT"]
    with tempfile.TemporaryFile("w+", encoding="utf-8") as lines, tempfile.TemporaryFile("w+", encoding="utf-8") as out:
        lines.writelines(f"{command}\n" for command in commands)
        lines.seek(0)
        done = subprocess.run(driver, stdin=lines, stdout=out, env=environment, check=False, timeout=SECONDS)
        out.seek(0)
        results = out.read().split("\n")[:-1]
    if done.returncode != 0 or len(results) != len(commands):
        at = min(len(results), len(commands) - 1)
        sys.exit(f"compare/peers: the driver of {name} ended with {done.returncode} at: {commands[at][:200]}")
    return results
