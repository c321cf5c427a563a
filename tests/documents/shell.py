"""The lines of shell on the pages for users, and who runs each."""

from __future__ import annotations

from .sources import TOP

PAGES = ("README.md", "docs/CLASS.md", "docs/LIVE.md")

# each line without its comment, and the test that runs it as it stands, in a network of its own where it needs one
RUN = {
    "bin/wb-live": "live/test_lines.py: test_two_members",
    "bin/wb-live --web 0.0.0.0:8050": "live/test_lines.py: test_two_members",
    "./wb-live --web 0.0.0.0:8050 --record monday.record": "live/test_lines.py: test_class",
    "./wb-live --web 0.0.0.0:8051 --record other.record": "live/test_lines.py: test_class",
    "./wb-live --replay monday.record": "live/test_lines.py: test_class",
    "./wb-live --web 0.0.0.0:8050": "live/test_lines.py: test_two_members",
    "./wb-live --lose 0.3 --delay 200 --twice 0.1 --mix --teach": "live/test_lines.py: test_two_members",
    "./wb-live": "live/recipes.py: follow",
    "./wb-live --new-key class.key": "live/recipes.py: follow",
    "./wb-live --lan --key class.key --invite": "live/recipes.py: follow",
    "./wb-live --lan --key class.key": "live/recipes.py: follow",
    "./wb-live 'wb:#session=board&lan=239.255.42.99%3A24299&key=..'": "live/recipes.py: follow",
    "./wb-live --broker mqtts://broker.example.org/class-7 --password-file me.txt --key class.key --invite": "live/recipes.py: follow",
    "./wb-live --broker mqtts://broker.example.org/class-7 --password-file me.txt --key class.key": "live/recipes.py: follow",
    "./wb-live 'wb:#session=class-7&broker=mqtts%3A%2F%2Fbroker.example.org&key=..' --password-file me.txt": "live/recipes.py: follow",
    "./wb-live --web 127.0.0.1:8040 --origin https://board.example.org": "live/test_serving.py: test_recipe",
    "cd /usr/local && sudo rm -r bin/wb bin/wb-live lib/wb share/wb share/doc/wb share/man/man1/wb.1 share/man/man1/wb-live.1": "launcher/test_install.py: test_uninstall",
    "sudo rm share/bash-completion/completions/wb share/bash-completion/completions/wb-live": "launcher/test_install.py: test_uninstall",
}

# what no test runs, and why
NOT_RUN = {"sudo ./wb --install /usr/local": "it takes root, and an hour of proof: tests/launcher installs into a folder, beside crates of its own"}


def shell_lines(page: str) -> list[str]:
    """The lines of a page that are typed, without their comments: those of its indented blocks that are not a file's."""
    found: list[str] = []
    is_file, before = False, ""
    for line in (TOP / page).read_text().split("\n"):
        if line.startswith("    ") and (not before.strip() or before.startswith("    ")):
            is_file = line.startswith("    # /") or is_file and bool(before.strip())
            if not is_file:
                found.append(line.split("  #")[0].strip())
        before = line
    return [line for line in found if line]
