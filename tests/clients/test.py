"""A real client on loopback: kcat, which is librdkafka, asks the broker of binding/examples, whose frames the library reads and writes.

What the client has to print is written out here, from the broker's two answers. What it asks is known from frames of it that were kept (binding/tests/captured.rs)."""
import pathlib
import platform
import shutil
import subprocess
import sys

ROOT = pathlib.Path(__file__).resolve().parent.parent.parent


def not_run(why):
    """What a client sends is read by the binding's tests on every machine, from frames that were kept. Where the client itself cannot be run, that is said."""
    print(f"clients: NOT RUN: {why}")
    sys.exit(0)


def built():
    """The broker, as the words that run it."""
    target = ROOT / "target/binding"
    made = subprocess.run([ROOT / "tools/rust-x86", "build", "--release", "--quiet", "--offline", "--target-dir", target, "--example", "broker"], cwd=ROOT / "binding")
    if made.returncode == 77:
        not_run("no standard library for x86-64 can be had here")
    if made.returncode != 0:
        sys.exit(1)
    if platform.machine() == "x86_64":
        return [target / "release/examples/broker"]
    return [ROOT / "tools/x86-run", target / "x86_64-unknown-linux-gnu/release/examples/broker"]


def asked(words):
    """The client's metadata listing, and the broker's lines, of a broker that is run for it: the first has its port."""
    broker = subprocess.Popen(words, stdout=subprocess.PIPE, text=True)
    try:
        port = broker.stdout.readline().split()[1]
        client = subprocess.run(["kcat", "-L", "-m", "30", "-X", "client.id=depot-7", "-b", f"127.0.0.1:{port}"], capture_output=True, text=True, timeout=60)
    finally:
        broker.terminate()
    return port, client, broker.stdout.read().splitlines()


if not shutil.which("kcat"):
    subprocess.run(["timeout", "300", ROOT / "tools/install", "kcat"])
if not shutil.which("kcat"):
    not_run("Debian's package kcat cannot be had here")
subprocess.run([ROOT / "tools/staticlib"], check=True)
port, client, lines = asked(built())
wanted = f"""Metadata for all topics (from broker 1: 127.0.0.1:{port}/1):
 1 brokers:
  broker 1 at 127.0.0.1:{port} (controller)
 1 topics:
  topic "charging" with 2 partitions:
    partition 0, leader 1, replicas: 1, isrs: 1
    partition 1, leader 1, replicas: 1, isrs: 1
"""
if (client.stdout, client.returncode) != (wanted, 0) or lines[:3] != ["18 3 1 depot-7", "3 4 2 depot-7", "3 4 3 depot-7"]:
    print(f"clients: WRONG\n{client.stdout}{client.stderr}exit {client.returncode}")
    print("asked:", *lines, sep="\n")
    sys.exit(1)
print("clients: kcat asked for versions and for topics, and was answered")
