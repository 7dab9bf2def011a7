"""What the tests of efihost share. A file of tests calls `finish` with its checks.

Each is called with [--program PROGRAM] [--sanitized | --valgrind] EFIHOST. PROGRAM is the proved program, which replays
the traces. The last line is 'N passed, M failed', and the status is 1 if one failed. What can't be tried on this machine
is skipped, with a line. With --sanitized, EFIHOST is built with sanitizers, with --valgrind it runs in valgrind: a report
of theirs is a failure, and the checks of LEFT_OUT are skipped.
"""
import argparse
import ctypes
import json
import os
import shutil
import struct
import subprocess
import sys
import tempfile

HERE = os.path.dirname(os.path.realpath(__file__))
counts = {"passed": 0, "failed": 0}
words = argparse.ArgumentParser()
words.add_argument("--program", default="")
words.add_argument("--sanitized", action="store_true")
words.add_argument("--valgrind", action="store_true")
words.add_argument("efihost")
words = words.parse_args()
EFIHOST = os.path.realpath(words.efihost)
REPORTED = 99  # the status of a run with a report of a sanitizer or of valgrind
SANITIZED = f"exitcode={REPORTED}:detect_leaks=0:handle_segv=0:use_sigaltstack=0:symbolize=0"
PROGRAM = words.program
has_program = bool(PROGRAM) and os.path.exists(PROGRAM)
room = tempfile.mkdtemp(prefix="efihost-")
apps = os.path.join(room, "apps")


def has_landlock():
    """Whether efihost can limit what images do; if not, it starts none without --rights."""
    return ctypes.CDLL(None).syscall(444, None, ctypes.c_size_t(0), 1) > 0


if not has_landlock():
    with open(os.path.join(room, "efihost"), "w", encoding="utf-8") as file:
        file.write(f'#!/bin/sh\nexec {EFIHOST} --rights "$@"\n')
    EFIHOST = os.path.join(room, "efihost")
    os.chmod(EFIHOST, 0o755)


def expect(holds, said, ran=None):
    counts["passed" if holds else "failed"] += 1
    if not holds:
        print(f"not so: {said}")
        if ran is not None:
            print(f"  status {ran.returncode}\n  {ran.stdout[-600:]!r}\n  {ran.stderr[-1500:]}")


def skip(what):
    print(f"skipped: {what}")


def run(*arguments, keys=""):
    how = {"input": keys, "capture_output": True, "text": True, "errors": "replace", "timeout": 400 if words.valgrind else 100}
    ran = subprocess.run([EFIHOST, *arguments], **how)
    ran.stdout = ran.stdout.replace("\r", "")
    if ran.returncode == REPORTED:
        expect(False, f"nothing is reported of efihost {' '.join(arguments)}", ran)
    return ran


def app(name):
    return os.path.join(apps, f"{name}.efi")


def at(name):
    return os.path.join(room, name)


def read(name):
    with open(name, encoding="utf-8", errors="replace") as file:
        return file.read()


def report_of(*arguments):
    ran = run("--json", at("report.json"), *arguments)
    try:
        with open(at("report.json"), encoding="utf-8") as file:
            return ran, json.load(file)
    except ValueError:
        expect(False, f"there is a report of efihost {' '.join(arguments)}", ran)
        return ran, {"ending": "", "why": "", "findings": [], "missing": [], "left": []}


def begun(*arguments):
    """A run that goes on, whose console is read line by line."""
    how = {"stdin": subprocess.PIPE, "stdout": subprocess.PIPE, "stderr": subprocess.PIPE, "text": True}
    return subprocess.Popen([EFIHOST, "--json", at("report.json"), *arguments], **how)


def patched(name, form, *places):
    """An image with other numbers at places behind its header's start."""
    with open(app("right"), "rb") as file:
        data = bytearray(file.read())
    start = struct.unpack_from("<I", data, 60)[0]
    for place, number in places:
        struct.pack_into(form, data, start + place, number)
    with open(at(name), "wb") as file:
        file.write(data)
    return at(name)


def in_valgrind():
    """A script that runs efihost in valgrind, whose own memory is where a machine has its lowest."""
    memory = [{"type": 7, "start": "0x100000000", "pages": 0xFF90, "attributes": "0xf"}]
    with open(at("valgrind.json"), "w", encoding="utf-8") as file:
        json.dump({"memory": memory}, file)
    call = ["valgrind", "-q", f"--error-exitcode={REPORTED}", f"--suppressions={HERE}/valgrind.supp"]
    call += ["--vex-iropt-register-updates=allregs-at-mem-access", EFIHOST]  # code goes on after a fault
    with open(at("in-valgrind"), "w", encoding="utf-8") as file:
        file.write(f'#!/bin/sh\nexec {" ".join(call)} --rights --machine {at("valgrind.json")} "$@"\n')
    os.chmod(at("in-valgrind"), 0o755)
    return at("in-valgrind")


# What isn't run so, and why.
LEFT_OUT = {
    "sanitized": {
        "in-handler": "the image takes the C library's heap away, and the sanitizer has its own",
        "check_little_process": "a sanitizer needs more memory than that",
    },
    "valgrind": {
        "null-to-pool": "the host writes at a null pointer, which valgrind reports too",
        "null-to-variable": "the host reads at a null pointer, which valgrind reports too",
        "null-to-console": "the host reads at a null pointer, which valgrind reports too",
        "starts-fault": "the host reads at a null pointer, which valgrind reports too",
        "check_overwritten": "the core follows what the image wrote, which valgrind reports too",
        "overwrite-pool": "the core follows what the image wrote, which valgrind reports too",
        "check_strict": "valgrind ends at such an instruction",
        "check_bad_pointers": "the host reads and writes at bad pointers, which valgrind reports too",
        "check_second_faults": "its images take memory away from the host, which valgrind reports, or has itself",
        "strings": "valgrind begins a handler with the direction of strings that the image set",
        "interrupt": "valgrind has another signal for it",
        "division": "valgrind doesn't say which instruction it was",
        "floating": "valgrind's processor has no such exceptions",
        "check_mutations": "its images read and write anywhere",
        "check_bad_images": "what is loaded of them is fuzzed with sanitizers",
        "check_firmware": "what is read of it is fuzzed with sanitizers",
        "check_machines": "valgrind has its own memory at their addresses",
        "check_example_machines": "valgrind has its own memory at their addresses",
        "check_many": "a process has no room for that many pieces of memory and valgrind's",
        "check_signals": "they are valgrind's before they are efihost's",
        "check_rights": "valgrind needs rights that efihost gives up",
        "privileged": "valgrind ends at such an instruction",
        "never-placed": "valgrind has memory where it writes",
        "check_callers_of_accesses": "valgrind has memory where the image writes",
        "check_closed_streams": "valgrind needs them itself",
        "2 GiB below 4 GiB": "valgrind lies there",
        "writes-after-exit": "it writes where the machine has no memory in valgrind",
        "many-blocks": "it takes minutes",
        "check_little_process": "valgrind needs more memory than that",
    },
}


def leave_out(checks):
    """Leaves checks and applications of a file of tests out."""
    module = sys.modules[checks.__module__]
    tables = [it for it in vars(module).values() if isinstance(it, dict)]
    for name, why in LEFT_OUT["sanitized" if words.sanitized else "valgrind"].items():
        if hasattr(module, name):
            setattr(module, name, lambda *_, text=f"{name}: {why}": skip(text))
        for table in tables:
            if table.pop(name, None) is not None:
                skip(f"{name}: {why}")


if words.sanitized:
    os.environ["ASAN_OPTIONS"] = os.environ["UBSAN_OPTIONS"] = SANITIZED
if words.valgrind:
    EFIHOST = in_valgrind()


def finish(checks):
    """Builds the applications, runs the checks, and ends with the counts."""
    if words.sanitized or words.valgrind:
        leave_out(checks)
    try:
        built = subprocess.run([os.path.join(HERE, "build-apps"), apps])
        if built.returncode == 77:
            skip("all that needs applications: there is no clang or no lld-link")
        else:
            expect(built.returncode == 0, "the applications are built")
            checks()
    finally:
        shutil.rmtree(room, ignore_errors=True)
    print(f"{counts['passed']} passed, {counts['failed']} failed")
    sys.exit(counts["failed"] != 0)
