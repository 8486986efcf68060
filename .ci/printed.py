"""Writes the packages of a document that `cargo metadata` printed as a workspace, whose other packages are vendored.

The packages keep their dependencies, features, editions, kinds of library and build scripts, so that Cargo builds what
it builds in the workspace that was printed. They have no code. A dependency for which the document has no edge leads to
an empty package. A package without a build script has no build-dependencies, since Cargo does not build them.
"""
import json

from checks import write_files
from features import is_edge_of, library_name, library_of

TABLES = {None: "dependencies", "build": "build-dependencies", "dev": "dev-dependencies"}

# The folder of the packages that are no members, and the version of empty ones.
VENDOR, EMPTY = "vendor", "0.0.0"

CONFIGURATION = f"""[source.crates-io]
replace-with = "{VENDOR}"
[source.{VENDOR}]
directory = "{VENDOR}"
"""


def folder_of(package):
    return f"{package['name']}-{package['version']}"


def package_of(declared, node, packages):
    """Returns the package to which a declared dependency leads, if the document has an edge."""
    found = ((edge, packages[edge["pkg"]]) for edge in node["deps"])
    return next((to for edge, to in found if is_edge_of(edge, declared, to)), None)


def table_of(declared, to):
    """Returns the table of a dependency in a manifest."""
    table = TABLES[declared["kind"]]
    table = f"target.{json.dumps(declared['target'])}.{table}" if declared["target"] else table
    where = (f"path = {json.dumps(f'../{folder_of(to)}')}" if to and to["source"] is None
             else f'version = "={to["version"] if to else EMPTY}"')
    name = json.dumps(declared["name"])
    return (f"[{table}.{json.dumps(declared['rename']) if declared['rename'] else name}]\npackage = {name}\n{where}\n"
            f"optional = {json.dumps(declared['optional'])}\n"
            f"default-features = {json.dumps(declared['uses_default_features'])}\n"
            f"features = {json.dumps(declared['features'])}\n")


def manifest_of(package, node, packages):
    """Returns the manifest of a package."""
    library, has_script = library_of(package), any("custom-build" in it["kind"] for it in package["targets"])
    lines = [f'[package]\nname = {json.dumps(package["name"])}\nversion = {json.dumps(package["version"])}\n',
             f'edition = {json.dumps(package["edition"])}\nbuild = {json.dumps(has_script and "build.rs")}\n',
             f'links = {json.dumps(package["links"])}\n' if package["links"] and has_script else "", "[lib]\n",
             f"name = {json.dumps(library_name(package))}\n" if library else "",
             "proc-macro = true\n" if library and "proc-macro" in library["kind"] else ""]
    lines += [table_of(it, package_of(it, node, packages)) for it in package["dependencies"]
              if has_script or it["kind"] != "build"]
    lines += ["[features]\n", *(f"{json.dumps(it)} = {json.dumps(of)}\n" for it, of in package["features"].items())]
    return "".join(lines)


def lacking_of(package, node, packages):
    """Yields the names of the dependencies that lead to no package, each with the features that are requested of it."""
    for it in package["dependencies"]:
        if package_of(it, node, packages) is None:
            called, members = it["rename"] or it["name"], [one for of in package["features"].values() for one in of]
            yield it["name"], [*it["features"], *(one.split("/")[1] for one in members
                                                  if one.startswith((f"{called}/", f"{called}?/")))]


def write(folder, document, resolver):
    """Writes the workspace of a document into a folder."""
    packages, lacking, manifests = {it["id"]: it for it in document["packages"]}, {}, {}
    for node in document["resolve"]["nodes"]:
        package = packages[node["id"]]
        place = folder_of(package) if package["source"] is None else f"{VENDOR}/{folder_of(package)}"
        manifests[place] = manifest_of(package, node, packages)
        for name, features in lacking_of(package, node, packages):
            lacking.setdefault(name, {"default"}).update(features)
    for name, features in lacking.items():
        head = f'[package]\nname = {json.dumps(name)}\nversion = "{EMPTY}"\nedition = "2021"\n[features]\n'
        manifests[f"{VENDOR}/{name}-{EMPTY}"] = head + "".join(f"{json.dumps(it)} = []\n" for it in sorted(features))
    members = [folder_of(packages[it]) for it in document["workspace_members"]]
    files = {"Cargo.toml": f'[workspace]\nresolver = "{resolver}"\nmembers = {json.dumps(members)}\n',
             ".cargo/config.toml": CONFIGURATION}
    for place, manifest in manifests.items():
        files |= {f"{place}/Cargo.toml": manifest, f"{place}/src/lib.rs": "", f"{place}/build.rs": "fn main() {}\n"}
        files |= {f"{place}/.cargo-checksum.json": '{"files": {}}'} if place.startswith(VENDOR) else {}
    write_files(folder, files)
