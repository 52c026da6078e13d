#!/bin/sh
# Puts a host into service on Debian: the program, its setup, its units, the pages and nginx. The first run leaves a setup to look
# through, the second starts the host. Each later one is an upgrade: a setup, a certificate and reports that are there stay, and so
# does a site or a unit that was edited, with the new one beside it as `.new`.
#
#   sudo deploy/install.sh report.example.org [PROGRAM]
#
# PROGRAM is the program as it was built, crates/whistle/out/whistle where it is left out. With DESTDIR=FOLDER all is put below
# that folder, and nothing of the machine is changed: no package, user or service.
set -eu
umask 022

[ $# -ge 1 ] || { sed -n '2,9s/^# \{0,1\}//p' "$0" >&2; exit 2; }
here=$(cd "$(dirname "$0")/.." && pwd)
name=$1
program=${2:-$here/crates/whistle/out/whistle}
root=${DESTDIR:-}
case $name in *[!a-z0-9.-]* | '') echo "install.sh: $name is no name of a host" >&2; exit 2 ;; esac
[ -f "$program" ] || { echo "install.sh: there is no program at $program: build it first (docs/OPERATING.md)" >&2; exit 1; }

on_machine() { [ -z "$root" ]; }

# Puts one file in the place of another. Where that is not what the last run had to put there, somebody edited it: it stays, and the
# new one is put beside it.
put() {
    last=$installed/${2##*/}
    if [ ! -e "$2" ] || cmp -s "$last" "$2"; then
        install -D -m 644 "$1" "$2"
    elif ! cmp -s "$1" "$2"; then
        install -m 644 "$1" "$2.new"
        echo "install.sh: $2 is not as the last run left it, and stays: what this version has is in $2.new"
    fi
    install -m 600 "$1" "$last"
}

if on_machine; then
    [ "$(id -u)" -eq 0 ] || { echo 'install.sh: run it as root' >&2; exit 1; }
    missing=
    for tool in nginx openssl curl sqlite3; do command -v "$tool" >/dev/null || missing="$missing $tool"; done
    [ -z "$missing" ] || DEBIAN_FRONTEND=noninteractive apt-get install -y --no-install-recommends $missing
    id whistle >/dev/null 2>&1 ||
        useradd --system --user-group --home-dir /nonexistent --no-create-home --shell /usr/sbin/nologin whistle
fi

if [ -s "$root/var/lib/whistle/reports.db" ]; then
    echo 'install.sh: no backup is made here: one of the reports is to be there before an upgrade (docs/OPERATING.md)'
fi

# The program stands beside the old one until it is whole, so that a running host is not disturbed.
install -D -m 755 "$program" "$root/usr/local/bin/whistle.new"
mv -f "$root/usr/local/bin/whistle.new" "$root/usr/local/bin/whistle"
for script in erase-deleted write-notices mail-notices; do
    install -D -m 755 "$here/deploy/$script" "$root/usr/local/lib/whistle/$script"
done

# The pages, and none that an older version had.
pages=$root/usr/share/whistle/web
rm -rf "$pages"
for file in $(cd "$here/web" && find index.html office.html icon.svg style.css scripts texts -type f); do
    install -D -m 644 "$here/web/$file" "$pages/$file"
done

# The setup, with a salt and passwords of its own. It is readable by root and the host alone.
setup=$root/etc/whistle/setup.toml
is_fresh=no
if [ ! -f "$setup" ]; then
    is_fresh=yes
    install -d -m 750 "$root/etc/whistle"
    (umask 077 && cp "$here/deploy/setup.toml" "$setup.new")
    # (from standard input, so that no list of processes shows them)
    for word in SALT RECIPIENT DEPUTY CUSTODIAN ADMIN; do printf 's/REPLACE-%s/%s/\n' $word "$(openssl rand -hex 16)"; done |
        sed -i -f - "$setup.new"
    mv "$setup.new" "$setup"
fi
# Who is mailed what a user is to know: nobody until there are lines `<organisation> <user> <address>`.
addresses=$root/etc/whistle/addresses
[ -f "$addresses" ] || (umask 077 && : > "$addresses")
if on_machine; then chown root:whistle /etc/whistle "$setup" "$addresses"; fi
chmod 640 "$setup" "$addresses"

# A certificate of its own making until you put one of a known authority in its place.
certificate=$root/etc/ssl/whistle
if [ ! -f "$certificate/fullchain.pem" ]; then
    install -d -m 755 "$certificate"
    (umask 077 && openssl req -x509 -newkey rsa:2048 -nodes -days 90 -subj "/CN=$name" -addext "subjectAltName=DNS:$name" \
        -keyout "$certificate/privkey.pem" -out "$certificate/fullchain.pem" 2>/dev/null)
    echo "install.sh: $certificate has a certificate that no browser trusts: put yours there"
fi

# What each run had to put there is kept, so that the next one knows what was edited since.
installed=$root/etc/whistle/installed
install -d -m 700 "$installed"
sed "s/report\.example\.org/$name/g" "$here/deploy/nginx.conf" > "$installed/site"
put "$installed/site" "$root/etc/nginx/sites-available/whistle"
install -d "$root/etc/nginx/sites-enabled"
[ -e "$root/etc/nginx/sites-enabled/whistle" ] || ln -sfn ../sites-available/whistle "$root/etc/nginx/sites-enabled/whistle"

for unit in whistle.service whistle-health.service whistle-health.timer whistle-erase.service whistle-erase.timer \
    whistle-notices.service whistle-notices.timer; do
    put "$here/deploy/$unit" "$root/etc/systemd/system/$unit"
done

# What the host keeps of an organisation at its first start it keeps for good: so a fresh setup is looked through before.
if [ "$is_fresh" = yes ]; then
    echo "install.sh: look through $setup: it has the passwords, and names to change. Then run this again to start"
elif on_machine; then
    nginx -t
    if [ -d /run/systemd/system ]; then
        systemctl daemon-reload
        systemctl enable --now whistle.service whistle-health.timer whistle-erase.timer whistle-notices.timer nginx.service
        systemctl restart whistle.service
        systemctl reload nginx.service
        echo "install.sh: the host serves at https://$name/"
    else
        echo 'install.sh: systemd does not run here: start the host and nginx yourself (docs/OPERATING.md)'
    fi
fi
