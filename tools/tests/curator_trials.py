"""The recipes of Apache Curator (the folder curator/) over a server, where Java and Curator are."""
import glob
import os
import shutil
import tempfile

from report import Skipped, want
from servers import Server, ended

HERE, JARS = os.path.dirname(os.path.abspath(__file__)), "/usr/share/java"
NEEDED = (
    "curator-client", "curator-framework", "curator-recipes", "zookeeper", "zookeeper-jute",
    "guava", "slf4j-api", "slf4j-nop",
)
HELPFUL = ("netty-all", "metrics-core", "snappy-java")
TRIALS = 63


def with_curator():
    """The class path of Curator."""
    jars = [f"{JARS}/{it}.jar" for it in NEEDED]
    if not (shutil.which("javac") and all(map(os.path.exists, jars))):
        raise Skipped("no Java with Curator here (Debian's libcurator-recipes-java)")
    return ":".join([*jars, *filter(os.path.exists, (f"{JARS}/{it}.jar" for it in HELPFUL))])


def failures(path, folder, server, *names):
    """Why trials failed, by their names. All are run, or those named."""
    words = ["java", "-cp", f"{folder}:{path}", "trials.Trials", server.at, *names]
    _, out, said = ended(words, 400)
    want(f" of {len(names) or TRIALS}\n" in out, f"Curator's trials: {out} {said}")
    lines = [it.split(" ", 1) for it in out.splitlines()[:-1]]
    return {it.split(":")[0]: it for word, it in lines if word == "FAILED"}


def curator(builds, tally):
    path = builds.once("curator", with_curator)
    with tempfile.TemporaryDirectory() as folder, Server(builds, tick=500) as server:
        sources = sorted(glob.glob(f"{HERE}/curator/*.java"))
        status, _, said = ended(["javac", "-nowarn", "-cp", path, "-d", folder, *sources], 120)
        want(not status, said)
        failed = failures(path, folder, server)
        # (their waits are of seconds, so a busy machine may fail some: these are run once more)
        if failed:
            failed = failures(path, folder, server, *failed)
    for why in failed.values():
        tally.fails("curator", why)
    tally.passes(TRIALS - len(failed))
