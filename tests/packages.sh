#!/usr/bin/env bash
# What packaging/ makes, looked at more closely: who may read, change and run what is installed, whatever the umask; a client before is gone;
# what the units allow; what the man page says of statuses and options; and of the Debian package owners, times, sums, what it needs, and what
# systemd is told when it is put in, upgraded and taken out.
# Usage: tests/packages.sh   (from anywhere; TABD names another program)
set -u
top=$(cd "$(dirname -- "${BASH_SOURCE[0]}")/.." && pwd)
work=$(mktemp -d) || exit 1
trap 'rm -rf "$work"' EXIT
TABD=${TABD:-$("$top/release/program")} || exit 1
export TABD
cd "$work" || exit 1
passed=0 failed=0 skipped=0

count() { # NAME, with the status of the test that went before
    if [ "$2" -eq 0 ]; then passed=$((passed + 1)); else
        failed=$((failed + 1))
        echo "FAILED: $1"
        head -n 10 out err 2>/dev/null
    fi
}

lacks() { # COMMAND WHAT   whether the command isn't there, so that the test of this is skipped
    ! command -v "$1" >/dev/null || return 1
    skipped=$((skipped + 1))
    echo "skipped: $2 (there is no $1)"
}

# ---- Installed, under a umask that lets nobody else read.
(umask 077 && "$top/packaging/install" there >out 2>err)
count 'it is installed under a umask of 077' $?
find there -type d ! -perm 755 -printf '%m %p\n' >out
[ ! -s out ]
count 'its folders are for all to enter, and for their owner to change' $?
find there -type f ! -perm 644 ! -path there/bin/tabd -printf '%m %p\n' >out
[ ! -s out ] && [ "$(stat -c %a there/bin/tabd)" = 755 ]
count 'its files are for all to read, the program to run, and for their owner to change' $?
for unit in tabd tabd-socket; do
    grep -q "^ExecStart=$work/there/bin/tabd serve " "there/lib/systemd/system/$unit.service"
    count "the unit $unit names the program by its whole path" $?
done
client=there/lib/python3/dist-packages/tabd
: >"$client/older.py" && : >"$client.py"
"$top/packaging/install" there >out 2>err && [ ! -e "$client/older.py" ] && [ ! -e "$client.py" ]
count 'a client before is gone' $?

# ---- What the units allow.
unit=there/lib/systemd/system/tabd.service
has() { # UNIT LINE ..   whether the unit has each of these lines
    local line
    : >out
    for line in "${@:2}"; do grep -qxF -- "$line" "there/lib/systemd/system/$1.service" || echo "$1 lacks: $line" >>out; done
    [ ! -s out ]
}
locks=(DynamicUser=yes NoNewPrivileges=yes CapabilityBoundingSet= ProtectSystem=strict ProtectHome=yes PrivateTmp=yes PrivateDevices=yes
    PrivateUsers=yes ProtectClock=yes ProtectControlGroups=yes ProtectHostname=yes ProtectKernelLogs=yes ProtectKernelModules=yes
    ProtectKernelTunables=yes ProtectProc=invisible ProcSubset=pid RestrictNamespaces=yes RestrictRealtime=yes RestrictSUIDSGID=yes
    LockPersonality=yes MemoryDenyWriteExecute=yes SystemCallArchitectures=native SystemCallFilter=@system-service
    'SystemCallFilter=~@privileged @resources' SystemCallErrorNumber=EPERM UMask=0077 StateDirectoryMode=0700 LimitCORE=0 IPAddressDeny=any
    Restart=on-failure RestartSec=5 StartLimitIntervalSec=0 RestartPreventExitStatus=2)
for name in tabd tabd-socket; do
    has $name "${locks[@]}"
    count "the unit $name is locked, leaves no core, and starts again behind a failure alone, for as long as it takes" $?
    has $name Type=exec TimeoutStartSec=infinity "EnvironmentFile=-$work/there/etc/default/$name" 'Documentation=man:tabd(1)' WantedBy=multi-user.target
    count "the unit $name begins without a file of options, and with the machine where it is enabled" $?
done
has tabd RestrictAddressFamilies=AF_INET IPAddressAllow=localhost StateDirectory=tabd 'Environment=TABD_PORT=9997 TABD_OPTIONS='
count 'the one of a port reaches this machine alone, and keeps what it answers' $?
has tabd-socket RestrictAddressFamilies=AF_UNIX PrivateNetwork=yes RuntimeDirectoryMode=0710 Group=tabd-users StateDirectory=tabd-socket &&
    grep -q -- '--socket-mode 660 ' there/lib/systemd/system/tabd-socket.service
count 'the one of a socket file reaches no network, and only its group reaches it' $?

# ---- What the man page says.
gzip -dc there/share/man/man1/tabd.1.gz >page
sed -n '/^\.SH "EXIT STATUS"$/,/^\.SH EXAMPLES$/p' page >statuses
says() { # STATUS WORDS
    grep -q "^$1 .*$2" statuses
}
"$TABD" script </dev/null >out 2>err && says 0 'end of the input'
count 'the man page says what the status 0 is' $?
"$TABD" script --image none </dev/null >out 2>err
[ $? -eq 1 ] && says 1 'a file .* fails'
count 'and 1' $?
"$TABD" nonsense >out 2>err
[ $? -eq 2 ] && says 2 'command line'
count 'and 2' $?
echo bogus | "$TABD" script --strict >out 2>err
[ $? -eq 3 ] && says 3 'strict.*stopped'
count 'and 3' $?
for signal in HUP USR1 USR2 TERM; do
    rm -f signalled && : >out
    # (whoever starts the tests may ignore a signal, as nohup does)
    env --default-signal="$signal" "$TABD" serve --socket signalled >out 2>err </dev/null &
    server=$!
    for _ in $(seq 400); do ! grep -q listening out || break; sleep 0.05; done
    kill -s "$signal" "$server"
    wait "$server" 2>/dev/null
    [ $? -eq $((128 + $(kill -l "$signal"))) ] && says 128 "\<$signal\>"
    count "and what it is where $signal ended it" $?
done
[ "$(sed 's/\\-/-/g; s/^\\&//' page | grep -o "[^ ]*/docs/[A-Z]*\.md" | sort -u)" = "$work/there/share/doc/tabd/docs/SCRIPT.md" ] && [ -s there/share/doc/tabd/docs/SCRIPT.md ]
count 'it names the document that says more where that is' $?
for command in script serve shell inspect export import; do
    sed -n "/^\.SH \"TABD ${command^^}\"\$/,/^\.SH /p" page >part
    : >out
    "$TABD" $command --help | sed -nE 's/^ +(-., )?--([a-z-]+)[^ ]*( <[^>]*>)?  +([^ ]+ ?[^ ]*).*/\2 \4/p' | while read -r option what; do
        # the item, and behind it what the option does
        grep -A 1 -e "^.fB.*${option//-/.*}" part | sed 's/\\-/-/g; s/\\[(]../?/g' | grep -qF -- "${what%%[\\\`\'~^]*}" || echo "$command --$option: $what" >>out
    done
    [ -s part ] && [ ! -s out ]
    count "it has what each option of $command does" $?
done

# ---- The Debian package.
if ! lacks dpkg-deb 'the Debian package'; then
    as=()
    # whoever builds it, its files are root's
    if [ "$(id -u)" -eq 0 ] && command -v setpriv >/dev/null; then as=(setpriv --reuid=65534 --regid=65534 --clear-groups); fi
    mkdir package checkout && chmod 777 package && chmod 755 .
    cp "$TABD" program && chmod 755 program
    (cd "$top" && tar cf - packaging release docs web/index.html examples README.md CHANGELOG.md LICENSE clients) | tar xf - -C checkout && chmod -R go+rX checkout
    package=$(cd package && umask 027 && TABD=$work/program HOME=$work/package TMPDIR=$work/package "${as[@]}" "$work/checkout/packaging/deb" 2>"$work/err")
    [ -s "$package" ]
    count 'it is built by a user who is nobody' $?
    dpkg-deb -c "$package" >listed
    ! grep -v ' root/root ' listed >out
    count 'its files are of root' $?
    ! grep -vE '^(drwxr-xr-x|-rw-r--r--) .*|^-rwxr-xr-x .* \./usr/bin/tabd$' listed >out
    count 'with the rights of the files that are installed' $?
    version=$("$TABD" --version | cut -d ' ' -f 2)
    day=$(sed -n "s/^## $version (\(.*\))$/\1/p" "$top/CHANGELOG.md")
    ! grep -v " $day 00:00 " listed >out
    count 'and the day of its version' $?
    dpkg-deb -R "$package" whole
    (cd whole && md5sum -c --quiet DEBIAN/md5sums) >out 2>err &&
        [ "$(cd whole && find usr -type f | sort)" = "$(sed 's/^[^ ]*  //' whole/DEBIAN/md5sums | sort)" ]
    count 'each of its files has its sum' $?
    [ "$(grep -cxE "Package: tabd|Version: $version|Architecture: amd64" whole/DEBIAN/control)" -eq 3 ]
    count 'it says which version of what it is, and for which machines' $?
    libc=$(grep -ao 'GLIBC_2[0-9.]*' "$TABD" | sort -uV | tail -n 1)
    grep -qE "^Depends: .*libc6 \(>= ${libc#GLIBC_}\)" whole/DEBIAN/control
    count 'it needs the C library that its program needs' $?
    {
        "$TABD" --help
        gzip -dc whole/usr/share/man/man1/tabd.1.gz
        sed -n 's/.*](\([A-Z]*\.md\).*/docs\/\1/p' whole/usr/share/doc/tabd/docs/OPERATING.md
    } | grep -o 'docs/[A-Z]*\.md' | sort -u >named
    : >out
    while read -r name; do [ -s "whole/usr/share/doc/tabd/$name" ] || echo "$name is named, and isn't there"; done <named >out
    [ -s named ] && [ ! -s out ] && gzip -dc whole/usr/share/man/man1/tabd.1.gz | grep -q '/usr/share/doc/tabd/docs/SCRIPT.md'
    count 'the documents that it names are there' $?
    # what systemd is told, with a stand-in for it
    mkdir bin systemd && printf '#!/bin/sh\necho "$*"\n' >bin/systemctl && chmod +x bin/systemctl
    tells() { # SCRIPT WORD WANTED
        sed "s|/run/systemd/system|$work/systemd|; s|/usr/lib|$work/whole/usr/lib|" "whole/DEBIAN/$1" >script
        told=$(PATH=$work/bin:$PATH sh script "$2" 2>err)
        [ "$told" = "$3" ] || { echo "$1 $2: $told" >out && false; }
        count "systemd is told by $1 $2: '$3'" $?
    }
    mkdir -p whole/usr/lib/python3/dist-packages/tabd/__pycache__
    tells prerm remove 'disable --now tabd.service tabd-socket.service'
    [ ! -e whole/usr/lib/python3/dist-packages/tabd/__pycache__ ]
    count 'what Python made of the client goes with it' $?
    tells prerm upgrade ''
    tells prerm failed-upgrade ''
    tells postinst configure daemon-reload
    tells postrm remove daemon-reload
fi

[ "$skipped" -eq 0 ] && echo "$passed passed, $failed failed" || echo "$passed passed, $failed failed, $skipped skipped"
[ "$failed" -eq 0 ]
