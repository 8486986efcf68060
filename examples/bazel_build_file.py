#!/usr/bin/env python3
"""Writes a Bazel BUILD file for the packages of a Cargo workspace, with a `select` wherever targets differ.

    cargo metadata --format-version 1 > metadata.json
    python3 bazel_build_file.py --metadata metadata.json --resolver 2 --host x86_64-unknown-linux-gnu \\
        --target x86_64-unknown-linux-gnu --target x86_64-pc-windows-msvc > BUILD.bazel

The arguments are those of `manifest_check graph`, which has to be on the PATH. A package has a rule for each side for
which it is built: NAME-VERSION for the target, and NAME-VERSION_host for the host. The flag `:target` says for which
target the build is. Rules of the host may depend on it too, as their features do. You add what the answers do not have:
sources, editions, names of crates, binaries, and build scripts without dependencies.
"""
import collections
import json
import subprocess
import sys

HEAD = """load("@bazel_skylib//rules:common_settings.bzl", "string_flag")
load("@rules_rust//cargo:defs.bzl", "cargo_build_script")
load("@rules_rust//rust:defs.bzl", "rust_library", "rust_proc_macro")

string_flag(name = "target", build_setting_default = "")
"""


def lines_of(side, arguments):
    """Returns the packages, dependencies and features of a side, as `manifest_check` prints them."""
    words = ["graph", *arguments, "--edges", "normal,build", "--side", side, "--show", "all", "--json"]
    done = subprocess.run(["manifest_check", *words], stdout=subprocess.PIPE, check=True)
    return [json.loads(line) for line in done.stdout.splitlines()]


def targets_of(line):
    return {"all"} if line["at"] == "all" else {*line["at"]}


def listed(values):
    """Returns an attribute: the values of all targets, and a `select` of the others, from the targets of each value."""
    by_target = collections.defaultdict(list)
    for value, targets in sorted(values.items()):
        for target in {"all"} if "all" in targets else targets:
            by_target[target].append(value)
    always = by_target.pop("all", [])
    keys = {f":{target}": by_target[target] for target in sorted(by_target)} | {"//conditions:default": []}
    parts = [json.dumps(always)] * bool(always) + [f"select({json.dumps(keys)})"] * bool(by_target)
    return " + ".join(parts)


def attributes_of(values):
    return {attribute: listed(values[attribute]) for attribute in sorted(values) if values[attribute]}


def compatible(targets):
    """Returns the attribute of a rule that is not needed for all targets."""
    keys = {f":{it}": [] for it in sorted(targets)} | {"//conditions:default": ["@platforms//:incompatible"]}
    return {} if "all" in targets else {"target_compatible_with": f"select({json.dumps(keys)})"}


def rule(kind, name, attributes):
    lines = [f"    {key} = {value},\n" for key, value in {"name": json.dumps(name), **attributes}.items()]
    return f"\n{kind}(\n{''.join(lines)})\n"


def names_of(packages):
    """Returns the names of the rules of packages."""
    names = {}
    for it in packages.values():
        name = it["package"].replace(" ", "-")
        names[it["id"]] = f"{name}-{len(names)}" if name in names.values() else name
    return names


def main(arguments):
    lines = {side: lines_of(side, arguments) for side in ("target", "host")}
    packages = {it["id"]: it for it in lines["target"] if "proc_macro" in it}
    names = names_of(packages)
    name = lambda id, side: names[id] + ("_host" if side == "host" else "")
    # The values of each attribute of a rule and of its build script, with their targets.
    rules, scripts, needed = (collections.defaultdict(lambda: collections.defaultdict(dict)) for _ in range(3))
    for side in lines:
        for it in lines[side]:
            if "from" in it:
                attribute = "proc_macro_deps" if packages[it["to"]]["proc_macro"] else "deps"
                for one in it["sides"]:
                    held = scripts if it["kind"] == "build" else rules
                    values = held[name(it["from"], one["from"])][attribute]
                    label = f":{name(it['to'], side)}"
                    values[label] = values.get(label, set()) | targets_of({**it, **one})
            elif "feature" in it:
                rules[name(it["id"], side)]["crate_features"][it["feature"]] = targets_of(it)
            elif it["targets"]:
                kind = "rust_proc_macro" if it["proc_macro"] else "rust_library"
                needed[name(it["id"], side)] = kind, targets_of(it)
    print(HEAD, end="")
    for it in sorted({it for line in (*lines["target"], *lines["host"]) for it in targets_of(line)} - {"all"}):
        print(rule("config_setting", it, {"flag_values": json.dumps({":target": it})}), end="")
    for one, (kind, targets) in needed.items():
        if one in scripts:
            rules[one]["deps"][f":{one}_build_script"] = {"all"}
            script = {**scripts[one], "crate_features": rules[one]["crate_features"]}
            print(rule("cargo_build_script", f"{one}_build_script", attributes_of(script)), end="")
        print(rule(kind, one, attributes_of(rules[one]) | compatible(targets)), end="")


if __name__ == "__main__":
    main(sys.argv[1:])
