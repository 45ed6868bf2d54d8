"""The software bill of materials of a release, in the format SPDX 2.3: the program, what is linked into it, and the
files."""
import hashlib
import json
import re
import time

from lib.version import HOLDER, LICENSE

# A sentence of each licence, and its name in SPDX.
LICENSES = (
    ("Permission is hereby granted, free of charge", "MIT"),
    ("Apache License", "Apache-2.0"),
    ("UNICODE LICENSE V3", "Unicode-3.0"),
    ("UNICODE, INC. LICENSE AGREEMENT", "Unicode-DFS-2016"),
)
UNKNOWN = "NOASSERTION"


def license_of(texts):
    """Returns the licence of a library by its texts: a choice of MIT and Apache-2.0 if it has both, and all others."""
    found = [name for sentence, name in LICENSES if any(sentence.lower() in text.lower() for text in texts)]
    choice = " OR ".join(name for name in found if name in ("MIT", "Apache-2.0"))
    others = [name for name in found if name not in ("MIT", "Apache-2.0")]
    parts = [f"({choice})" if " OR " in choice and others else choice, *others]
    return " AND ".join(part for part in parts if part) or UNKNOWN


def identifier(kind, name):
    """Returns an SPDX identifier, which has letters, digits, points and hyphens."""
    return f"SPDXRef-{kind}-{re.sub(r'[^A-Za-z0-9.-]', '-', name)}"


def package(name, version, license_name, **others):
    """Returns a package. `others` are further fields."""
    return {
        "SPDXID": identifier("Package", name),
        "name": name,
        "versionInfo": version,
        "downloadLocation": UNKNOWN,
        "filesAnalyzed": False,
        "licenseConcluded": UNKNOWN,
        "licenseDeclared": license_name,
        "copyrightText": UNKNOWN,
        **others,
    }


def file_entry(path):
    """Returns a file of the release with its checksums."""
    content = path.read_bytes()
    return {
        "SPDXID": identifier("File", path.name),
        "fileName": f"./{path.name}",
        "checksums": [
            {"algorithm": name, "checksumValue": hashlib.new(name.lower(), content).hexdigest()}
            for name in ("SHA1", "SHA256")
        ],
        "licenseConcluded": UNKNOWN,
        "copyrightText": UNKNOWN,
    }


def relationship(one, kind, other):
    return {"spdxElementId": one, "relationshipType": kind, "relatedSpdxElement": other}


def document(version, commit, seconds, toolchain, library, libraries, paths):
    """Returns the text of the document. `seconds` is the time of the commit, `library` the least version of the GNU C
    library, `libraries` has the texts of licences of each linked library, and `paths` are the files of the release."""
    program = package(
        "netflow",
        version,
        LICENSE,
        supplier=f"Organization: {HOLDER}",
        primaryPackagePurpose="APPLICATION",
        sourceInfo=f"commit {commit}, built by {toolchain}",
    )
    linked = [package(name, toolchain, license_of(texts)) for name, texts in sorted(libraries.items())]
    system = package("glibc", f">= {library}", "LGPL-2.1-or-later", comment="Not shipped; the system has it.")
    files = [file_entry(path) for path in sorted(paths, key=lambda path: path.name)]
    root = program["SPDXID"]
    made = {
        "spdxVersion": "SPDX-2.3",
        "dataLicense": "CC0-1.0",
        "SPDXID": "SPDXRef-DOCUMENT",
        "name": f"netflow-{version}",
        "documentNamespace": f"https://spdx.org/spdxdocs/netflow-{version}-{commit}",
        "creationInfo": {
            "created": time.strftime("%Y-%m-%dT%H:%M:%SZ", time.gmtime(seconds)),
            "creators": [f"Organization: {HOLDER}", f"Tool: netflow-release-{version}"],
        },
        "packages": [program, *linked, system],
        "files": files,
        "relationships": [
            relationship("SPDXRef-DOCUMENT", "DESCRIBES", root),
            *(relationship(root, "STATIC_LINK", entry["SPDXID"]) for entry in linked),
            relationship(root, "DYNAMIC_LINK", system["SPDXID"]),
            *(relationship(root, "DISTRIBUTION_ARTIFACT", entry["SPDXID"]) for entry in files),
        ],
    }
    return json.dumps(made, indent=1) + "\n"
