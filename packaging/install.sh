#!/bin/sh
# Installs Gadzilk from this archive into the folder PREFIX, and changes nothing outside of it.
#
# usage: ./install.sh [--uninstall] [PREFIX]        (PREFIX: by default /usr/local)
#
# PREFIX/share/gadzilk/installed lists what it installed. An older version there is removed first. With --uninstall, it
# removes what this list has.
set -eu
export LC_ALL=C

fail() {
    echo "install.sh: $1" >&2
    exit 1
}

# Removes the files in the list, and the folders that it created, if they are empty.
uninstall() {
    sort -r "$list" | while read -r it; do
        if [ -d "$prefix/$it" ] && [ ! -L "$prefix/$it" ]; then
            rmdir --ignore-fail-on-non-empty "$prefix/$it"
        else
            rm -f "$prefix/$it"
        fi
    done
}

case ${1-} in
    --help | -h)
        sed -n '2,/^[^#]/s/^# \{0,1\}//p' "$0"
        exit
        ;;
    --uninstall) action=uninstall && shift ;;
    -*) fail "expected --uninstall or a folder, got '$1'" ;;
    *) action=install ;;
esac
umask 022
[ "$action" = uninstall ] || mkdir -p "${1-/usr/local}"
prefix=$(cd "${1-/usr/local}" && pwd)
case $prefix in
    *[!A-Za-z0-9/._+-]*) fail "expected a folder without spaces and special characters, got '$prefix'" ;;
esac
list=$prefix/share/gadzilk/installed units=$prefix/lib/systemd/system
if [ "$action" = uninstall ]; then
    [ -e "$list" ] || fail "$prefix has no installation: there is no $list"
    uninstall
    exit
fi

cd "$(dirname "$0")"
version=$(bin/bayeuxd --version) || fail "bayeuxd does not run here: it needs x86-64 Linux with glibc 2.34 or later"
[ ! -e "$list" ] || uninstall
added=$(find bin lib share | sort | while read -r it; do [ -d "$prefix/$it" ] && [ ! -L "$it" ] || echo "$it"; done)
mkdir -p "$prefix/share/gadzilk"
printf '%s\n' "$added" share/gadzilk/installed >"$list"
echo "$added" | while read -r it; do
    if [ -L "$it" ]; then
        cp -P --remove-destination "$it" "$prefix/$it"
    elif [ -d "$it" ]; then
        mkdir -p "$prefix/$it"
    else
        install -m "$([ -x "$it" ] && echo 755 || echo 644)" "$it" "$prefix/$it"
    fi
done
sed -i "s|^ExecStart=/usr/bin|Environment=PATH=$prefix/bin:/usr/bin:/bin\nExecStart=$prefix/bin|" "$units"/bayeuxd*.service

cat <<TEXT
Installed $version in $prefix. To start it, run: $prefix/bin/bayeuxd --listen 127.0.0.1:8087
To start it as a service, run as root:
    cp -n $prefix/share/gadzilk/bayeuxd.default /etc/default/bayeuxd
    systemctl enable --now $units/bayeuxd.service
To remove it, run: $prefix/share/gadzilk/install.sh --uninstall $prefix
TEXT
