"""The installed package and its service under systemd."""
import pathlib
import re
import shutil
import subprocess

from base import read

SETTINGS = "/etc/default/bayeuxd"
# Makes settings for a second instance, with another port.
SECOND = f"sed 's/^#BAYEUXD_LISTEN=.*/BAYEUXD_LISTEN=127.0.0.1:8088/' {SETTINGS} >{SETTINGS}@two"


def show(machine, unit, *names):
    """Returns the values of the properties `names` of a unit."""
    return [machine.run(f"systemctl show -P {it} {unit}").strip() for it in names]


def test_installed_service_is_enabled_and_serves(installed):
    assert show(installed, "bayeuxd", "UnitFileState", "ActiveState", "StatusText") == ["enabled", "active", "listening 127.0.0.1:8087"]
    assert installed.ask("[]") == "200 []"
    # python3 is not required.
    assert "Recommends: python3\n" in installed.run("dpkg -s gadzilk")
    assert installed.run("bayeuxd --version; zcat /usr/share/doc/gadzilk/changelog.gz | head -n 1") == (
        f"bayeuxd {(version := read('VERSION').strip())}\ngadzilk ({version}) unstable; urgency=medium\n"
    )
    assert "--version" in installed.run("bayeux_record --help; man bayeuxd | cat; man gadzilk-setup | cat")
    for command, flag in (("bayeuxd", "--listen"), ("bayeuxd-run", "--until-eof"), ("bayeux_replay", "--patterns"), ("bayeux_record", "--client")):
        complete = f". /usr/share/bash-completion/completions/{command}; COMP_CWORD=1; _bayeux {command} {flag[:-1]} {command}"
        assert installed.run(f'{complete}; echo "${{COMPREPLY[@]}}"') == f"{flag}\n"


def test_archive_has_a_service_that_its_script_explains(machine, package):
    [archive] = pathlib.Path(package).parent.glob("*.tar.gz")
    shutil.copy(archive, machine.root / "root")
    machine.run("tar -xzf *.tar.gz; gadzilk-*-linux/install.sh /opt/gadzilk >printed; sed -n 's/^    //p' printed | sh -e")
    assert show(machine, "bayeuxd", "UnitFileState", "ActiveState", "StatusText") == ["enabled", "active", "listening 127.0.0.1:8087"]
    assert machine.ask("[]") == "200 []"
    machine.run("systemctl disable --now bayeuxd; sh -e -c \"$(sed -n 's/^To remove .*: //p' printed)\"; test -z \"$(ls /opt/gadzilk)\"")


def test_service_ends_without_an_error_and_is_restarted_if_it_is_killed(installed):
    """The daemon's tests show that it answers held connects before it ends."""
    installed.run("systemctl stop bayeuxd")
    assert show(installed, "bayeuxd", "Result", "ExecMainStatus") == ["success", "0"]
    installed.run("systemctl start bayeuxd; systemctl kill --signal KILL bayeuxd")
    installed.wait("the service runs again", lambda: show(installed, "bayeuxd", "NRestarts", "ActiveState") == ["1", "active"])
    assert installed.ask("[]") == "200 []"


def test_service_with_a_wrong_flag_does_not_start_again(installed):
    installed.run(f"echo 'BAYEUXD_OPTIONS=--wrong' >>{SETTINGS}; ! systemctl restart bayeuxd")
    assert show(installed, "bayeuxd", "ActiveState", "NRestarts", "ExecMainStatus") == ["failed", "0", "2"]


def test_instance_needs_settings(installed):
    installed.run("! systemctl start bayeuxd@two")
    what = "cannot open '/etc/default/bayeuxd@two'"
    installed.wait("the log names the file", lambda: what in installed.run("journalctl -u bayeuxd@two"))
    assert "/etc/default/bayeuxd@two (code=exited, status=1/FAILURE)" in installed.run("systemctl status bayeuxd@two || true")
    installed.run(f"systemctl stop bayeuxd@two; {SECOND}; systemctl start bayeuxd@two")
    assert installed.ask("[]", "http://127.0.0.1:8088/cometd") == "200 []"


def next_package(machine, tree):
    """Puts a package into the container as /root/next.deb: the next version, with other settings. `tree`: a new folder.

    The settings are no file of the package, because an upgrade without a terminal would stop if an operator had changed it.
    """
    subprocess.run(["dpkg-deb", "--raw-extract", machine.root / "root/gadzilk.deb", tree], check=True)
    assert not (tree / "DEBIAN/conffiles").exists()
    control = tree / "DEBIAN/control"
    control.write_text(re.sub("(?m)^Version: .*$", r"\g<0>+next", control.read_text(encoding="utf-8")), encoding="utf-8")
    (tree / "usr/share/gadzilk/bayeuxd.default").write_text("# Changed.\n", encoding="utf-8")
    subprocess.run(["dpkg-deb", "--root-owner-group", "-Znone", "--build", tree, machine.root / "root/next.deb"], check=True)


def test_upgrade_without_a_terminal_keeps_settings_and_restarts_what_runs(installed, tmp_path):
    next_package(installed, tmp_path / "tree")
    installed.run(f"echo 'BAYEUXD_OPTIONS=\"--anonymous\"' >>{SETTINGS}; {SECOND}; systemctl restart bayeuxd; systemctl start bayeuxd@two")
    settings, units = installed.read(SETTINGS), ("bayeuxd", "bayeuxd@two")
    before = [show(installed, it, "MainPID") for it in units]
    installed.run("apt-get install -y --no-install-recommends ./next.deb")
    assert installed.run("dpkg-query -W -f '${Version} ${db:Status-Abbrev}' gadzilk").split() == [f"{read('VERSION').strip()}+next", "ii"]
    assert installed.read(SETTINGS) == settings
    assert [show(installed, it, "ActiveState") for it in units] == [["active"]] * 2
    assert [show(installed, it, "MainPID") != pid for it, pid in zip(units, before)] == [True, True]
    # To go back, an operator installs the older package.
    installed.run("systemctl disable --now bayeuxd; apt-get install -y --allow-downgrades --no-install-recommends ./gadzilk.deb")
    assert show(installed, "bayeuxd", "UnitFileState") == ["disabled"]


def test_nothing_is_left_after_purge(installed):
    installed.run(f"{SECOND}; systemctl start bayeuxd@two")
    installed.run(f"apt-get remove -y gadzilk; test -e {SETTINGS}; ! pgrep bayeuxd 2>/dev/null")
    installed.run(f"rm {SETTINGS}@two; apt-get purge -y gadzilk")
    left = "find / -xdev \\( -name '*bayeux*' -o -name '*gadzilk*' \\) -not -path '/proc/*' -not -path '/root/*' -not -path '/tmp/*'"
    assert installed.run(left) == ""


def test_package_is_installed_in_an_image_without_systemd_and_documents(machine):
    excluded = ["path-exclude=/usr/share/doc/*", "path-include=/usr/share/doc/*/copyright", "path-exclude=/usr/share/man/*"]
    machine.write("/etc/dpkg/dpkg.cfg.d/slim", "\n".join([*excluded, ""]))
    # The scripts look for this folder.
    machine.run("unshare --mount sh -c 'mount -t tmpfs none /run/systemd && dpkg -i gadzilk.deb'")
    assert machine.run("cd /usr/share/doc/gadzilk; find . -type f; systemctl is-active bayeuxd || true").split() == ["./copyright", "inactive"]
    assert machine.run("printf '0 P []\\n' | bayeux_replay 2 2 30000 0 10000") == "1 200 []\n"
