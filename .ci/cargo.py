"""Cargo and rustc, as the scripts run them: on the command line, in a folder, and without a network."""
import shutil
import subprocess


def cargo(folder, *arguments, **given):
    """Runs a command of Cargo's in a folder. Returns how it ended, with both outputs as text."""
    return subprocess.run(["cargo", *arguments, "--offline"], cwd=folder, capture_output=True, text=True, **given)


def output_of_cargo(folder, *arguments, **given):
    """Returns what a command of Cargo's prints. Ends the script if the command fails."""
    done = cargo(folder, *arguments, **given)
    if done.returncode:
        raise SystemExit(f"cargo {' '.join(arguments)}: status {done.returncode}\n{done.stderr[-2000:]}")
    return done.stdout


def metadata(folder, *arguments, **given):
    """Returns the JSON text of `cargo metadata`."""
    return output_of_cargo(folder, "metadata", "--format-version", "1", *arguments, **given)


def names_in_tree(text):
    """Returns the names of the packages that `cargo tree --prefix none` printed."""
    return {line.split()[0] for line in text.splitlines() if line and not line.startswith("[")}


def rustc_here():
    """Returns what `rustc -vV` says of itself, as `release` and `host`, or nothing if cargo or rustc is missing."""
    if not shutil.which("cargo") or not shutil.which("rustc"):
        return {}
    lines = subprocess.run(["rustc", "-vV"], capture_output=True, text=True).stdout.splitlines()
    return dict(line.split(": ", 1) for line in lines if ": " in line)
