#!/usr/bin/env bash
# What packaging/ makes: an installed program that runs, with its man page, client and unit, a Debian package of the same, and both away again.
# Usage: tests/packaging.sh   (from anywhere; TABD names another program)
set -u
top=$(cd "$(dirname -- "${BASH_SOURCE[0]}")/.." && pwd)
work=$(mktemp -d) || exit 1
server=
trap '[ -z "$server" ] || kill "$server" 2>/dev/null; rm -rf "$work"' EXIT
TABD=${TABD:-$("$top/release/program")} || exit 1
export TABD
cd "$work" || exit 1
passed=0 failed=0 skipped=0

count() { # NAME, with the status of the test that went before
    if [ "$2" -eq 0 ]; then passed=$((passed + 1)); else
        failed=$((failed + 1))
        echo "FAILED: $1"
        cat out err 2>/dev/null | head -n 10
    fi
}

lacks() { # COMMAND WHAT   whether the command isn't there, so that the test of this is skipped
    ! command -v "$1" >/dev/null || return 1
    skipped=$((skipped + 1))
    echo "skipped: $2 (there is no $1)"
}

# Whether the program answers a script in which one scan is shown and one refused.
answers() { # PROGRAM
    "$1" script >out 2>err <<'.' &&
createtable t
insert t r f q \e hello
scan t \0
scan t secret
.
        [ "$(cat out)" = $'ok\nok\nr f q \\e 0 hello\nend\nrefused 4 BadAuthorizations secret' ] && [ ! -s err ]
}

files() { # FOLDER   what is in it, but for folders
    (cd "$1" && find . ! -type d | sort)
}

parts=$({
    printf './%s\n' bin/tabd etc/default/tabd{,-socket} lib/systemd/system/tabd{,-socket}.service share/man/man1/tabd.1.gz
    cd "$top/clients/python" && printf './lib/python3/dist-packages/%s\n' tabd/*.py tabd/py.typed
} | sort)
prefix=$work/prefix

# ---- Installed.
without_documents() { # FOLDER
    files "$1" | grep -v '/share/doc/tabd/'
}

"$top/packaging/install" "$prefix" >out 2>err
[ "$?,$(cat out err)" = 0, ] && [ "$(without_documents "$prefix")" = "$parts" ]
count 'the program, its client, unit, options and page are installed, and nothing else but documents' $?
for name in tabd tabd-socket; do
    ! grep -vE '^(#|$)' "$prefix/etc/default/$name" >out && grep -q '^#TABD_OPTIONS=-' "$prefix/etc/default/$name" &&
        grep -qxF "EnvironmentFile=-$prefix/etc/default/$name" "$prefix/lib/systemd/system/$name.service"
    count "the options of the unit $name are a sample, which it reads, and say nothing yet" $?
done
echo 'TABD_PORT=9998' >>"$prefix/etc/default/tabd" && cp "$prefix/etc/default/tabd" mine && "$top/packaging/install" "$prefix" >out 2>err &&
    cmp mine "$prefix/etc/default/tabd" >out 2>err
count 'options that are there stay, where it is installed again' $?
answers "$prefix/bin/tabd"
count 'the installed program answers a script' $?
version=$("$prefix/bin/tabd" --version 2>err | cut -d ' ' -f 2)
grep -q "^## $version (" "$top/CHANGELOG.md"
count 'CHANGELOG.md tells of its version' $?
cmp "$TABD" "$prefix/bin/tabd" >out 2>err ||
    [ "$(sha256sum <"$prefix/bin/tabd")" = "$(sed -n 's/^program: //p' "$top/release/release.txt")  -" ]
count 'it is the program that is tested, or the release of it' $?
diff -r -x __pycache__ "$top/clients/python/tabd" "$prefix/lib/python3/dist-packages/tabd" >out 2>err
count 'the client is the one of clients/python' $?
! grep /usr/bin "$prefix/lib/systemd/system/tabd.service" >out && grep -qxF "ExecStart=$prefix/bin/tabd serve --port \${TABD_PORT} --store /var/lib/tabd \$TABD_OPTIONS" "$prefix/lib/systemd/system/tabd.service"
count 'the unit names the program where it is' $?
! grep /usr/bin "$prefix/lib/systemd/system/tabd-socket.service" >out && grep -q "^ExecStart=$prefix/bin/tabd serve --socket .* --store /var/lib/tabd-socket \$TABD_OPTIONS$" "$prefix/lib/systemd/system/tabd-socket.service"
count 'and so does the one of the socket file' $?
[ "$(grep -lx 'MemoryMax=.*' "$prefix"/lib/systemd/system/tabd{,-socket}.service | wc -l)" -eq 2 ]
count 'the units have a limit of memory' $?
DESTDIR=$work/stage "$top/packaging/install" /opt/tabd >out 2>err &&
    [ "$(without_documents stage/opt/tabd)" = "$parts" ] && [ "$(without_documents stage)" = "${parts//.\//./opt/tabd/}" ] && [ ! -s out ] &&
    grep -q '^ExecStart=/opt/tabd/bin/tabd serve ' stage/opt/tabd/lib/systemd/system/tabd.service
count 'DESTDIR stands in front of what is written, and not in the unit' $?
for place in /usr /usr/local; do
    DESTDIR=$work/system "$top/packaging/install" "$place" >out 2>err && [ -s system/etc/default/tabd ] && [ -s system/etc/default/tabd-socket ] &&
        grep -qx 'EnvironmentFile=-/etc/default/tabd' "system$place/lib/systemd/system/tabd.service" && DESTDIR=$work/system "$top/packaging/install" --uninstall "$place" && [ -z "$(files system)" ]
    count "under $place the options are in /etc/default" $?
done
for words in '' '--uninstall' '--bogus' "$work/a b"; do
    if [ -n "$words" ]; then "$top/packaging/install" "$words"; else "$top/packaging/install"; fi >out 2>err
    [ "$?,$(wc -l <err)" = 1,1 ] && [ ! -s out ] && grep -q '^fault: ' err
    count "packaging/install '$words' is refused" $?
done
for words in 'install --help' 'install -h' 'deb --help' 'deb -h'; do
    # shellcheck disable=SC2086
    "$top/packaging/"$words >out 2>err
    [ $? -eq 0 ] && grep -q "^Usage: packaging/${words% *} " out && [ ! -s err ] && [ -z "$(find . -name '*.deb')" ]
    count "packaging/$words says how it is called" $?
done
for words in '--bogus' /nowhere 'prefix stage'; do
    # shellcheck disable=SC2086
    "$top/packaging/deb" $words >out 2>err
    [ "$?,$(wc -l <err)" = 1,1 ] && [ ! -s out ] && grep -q '^fault: ' err
    count "packaging/deb $words is refused" $?
done

# ---- Servers: the command of the unit, and the examples of the documents, with what is installed.
# Starts a server by these words, the port in them, and waits until it listens.
serve() { # PORT WORD ..
    local told=
    rm -f said && mkfifo said
    "${@:2}" >said 2>err </dev/null &
    server=$!
    read -r told <said
    [ "$told" = "listening $1" ]
}

# A command of a unit as systemd reads it, with the lines of its file of options, over folders of this test's.
of_unit() { # UNIT KEY
    local unit=$prefix/lib/systemd/system/$1.service TABD_PORT= TABD_OPTIONS= name value line
    while IFS='=' read -r name value; do
        case $name in TABD_PORT) TABD_PORT=$value ;; TABD_OPTIONS) TABD_OPTIONS=$value ;; esac
    done < <(sed -n 's/^Environment=//p' "$unit" | tr ' ' '\n'; cat "$(sed -n 's/^EnvironmentFile=-//p' "$unit")")
    line=$(sed -n "s/^$2=//p" "$unit" | sed "s|/var/lib/$1|$work/kept-$1|; s|/run/$1|$work/run|")
    line=${line//\$\{TABD_PORT\}/${TABD_PORT:-\'\'}}
    printf '%s\n' "${line//\$TABD_OPTIONS/$TABD_OPTIONS}"
}

# Whether the unit has started, as the command says that systemd waits for; the server is $server, which may be gone.
starts() { # UNIT
    local words
    words=$(of_unit "$1" ExecStartPost | sed -n "s|^/bin/sh -c '\(.*\)'$|\1|p")
    [ -n "$words" ] && MAINPID=${server:-$gone} TABD_PORT=$port timeout 20 /bin/sh -c "${words//\$\$/\$}"
}
gone=$(sh -c 'echo $$')

# Ends the server by a signal; its status goes to $status.
stop() {
    kill "$server" 2>/dev/null
    wait "$server" 2>/dev/null
    status=$?
    server=
}

free_port() {
    python3 -c 'import socket; print(socket.create_server(("127.0.0.1", 0)).getsockname()[1])'
}

example() { # FILE N PORT   the Nth example of a document, over what is installed and this port
    awk -v wanted="$2" '/^```/ { inside = !inside; seen += inside; next } inside && seen == wanted' "$top/$1" |
        sed -e "s|^\(\./\)*tabd|$prefix/bin/tabd|; s|clients/python|$prefix/lib/python3/dist-packages|; s|9997|$3|g"
}

[ "$(grep -c '^\./tabd serve .* &$' "$top/README.md")" -eq "$(grep -Eco '(^|`)kill (-9 )?\$!' "$top/README.md")" ]
count 'each server that README starts is stopped' $?
if ! lacks python3 'servers, and the client in Python'; then
    port=$(free_port)
    printf '%s\n' '# this is no option' "TABD_PORT=$port" 'TABD_OPTIONS=--log --workers 2' >"$prefix/etc/default/tabd"
    read -r -a command < <(of_unit tabd ExecStart)
    serve "$port" "${command[@]}"
    count 'the command of the unit listens, at the port of its options' $?
    starts tabd && [ "$(wc -l <err)" -eq 1 ] && grep -q ' frames=0 refusals=0 ' err
    count 'it has started then, and nothing was asked for it' $?
    : >err
    example README.md 3 "$port" | grep -Ev ' serve |^sleep |^kill ' >lines && bash lines >out 2>&1
    diff out <(example README.md 4 "$port" | grep -v '^listening ') >differs
    count "README's server and client print what it says" $?
    stop
    [ "$status" -eq 143 ]
    count 'a signal ends the server' $?
    serve "$port" "${command[@]}" && [ "$(echo 'scan patients medical' | "$prefix/bin/tabd" shell --port "$port" --user nurse | cut -d ' ' -f 1-4)" = $'ann record diagnosis medical\nann record room \\e\nend' ]
    count 'and the next one has what it kept' $?
    (echo && sleep 20) | "$prefix/bin/tabd" shell --port "$port" --user root &
    holders=$!
    (echo && sleep 20) | "$prefix/bin/tabd" shell --port "$port" --user root &
    holders+=" $!"
    sleep 1
    starts tabd
    count 'also where all its workers are busy' $?
    # shellcheck disable=SC2086
    kill $holders 2>/dev/null
    stop
    starts tabd
    [ $? -eq 1 ]
    count 'a server that is gone has not started' $?
    (sleep 1 && exec false) &
    server=$! began=$(date +%s%N)
    starts tabd
    [ $? -eq 1 ] && [ $(($(date +%s%N) - began)) -ge 900000000 ]
    count 'nor one that goes meanwhile, and until then it is waited for' $?
    server=
    (sleep 2 && exec "${command[@]}" >out 2>err) &
    server=$!
    starts tabd && grep -qx "listening $port" out
    count 'nor one that replays still, until it listens' $?
    stop
    for words in "TABD_OPTIONS=--port $port" 'TABD_OPTIONS=--store elsewhere' 'TABD_OPTIONS=--bogus' 'TABD_PORT='; do
        echo "$words" >"$prefix/etc/default/tabd"
        read -r -a command < <(of_unit tabd ExecStart)
        "${command[@]}" >out 2>err
        [ $? -eq 2 ]
        count "$words isn't understood, so it isn't started again" $?
    done
    mkdir run
    echo 'TABD_OPTIONS=--log' >"$prefix/etc/default/tabd-socket"
    read -r -a command < <(of_unit tabd-socket ExecStart)
    serve "$work/run/tabd.sock" "${command[@]}" && [ "$(stat -c %a run/tabd.sock)" = 660 ] &&
        [ "$(echo 'createtable t' | "$prefix/bin/tabd" shell --socket run/tabd.sock --user root)" = ok ]
    count "the socket unit's command makes a file for its group, and a shell is answered there" $?
    starts tabd-socket
    count 'it has started then' $?
    kill -KILL "$server" && stop
    starts tabd-socket
    [ $? -eq 1 ] && [ -S run/tabd.sock ]
    count 'but not behind the file of one that was killed' $?
    serve "$work/run/tabd.sock" "${command[@]}" && [ "$(echo 'scan t \0' | "$prefix/bin/tabd" shell --socket run/tabd.sock --user root)" = end ]
    count 'and the next one has what that kept' $?
    stop
fi
if ! lacks systemd-analyze 'the units are verified'; then
    for unit in tabd tabd-socket; do
        systemd-analyze verify --man=no "$prefix/lib/systemd/system/$unit.service" >out 2>err
        [ $? -eq 0 ] && ! grep -q 'tabd' out err
        count "the unit $unit is verified" $?
    done
fi

# ---- The man page.
gzip -dc "$prefix/share/man/man1/tabd.1.gz" >tabd.1
if ! lacks groff 'the man page is rendered'; then
    groff -man -Tutf8 -P-c -rLL=300n -ww tabd.1 2>err | sed 's/.\x08//g' >page
    [ -s page ] && cp err out && [ ! -s err ]
    count 'the man page is rendered without a warning' $?
    for words in '' script serve shell inspect export import; do
        # shellcheck disable=SC2086
        "$TABD" $words --help
    done | sed -nE 's/^ *((-., )?--[^ ]*( <[^ ]*>)?).*/\1/p; s/^  ([^ -].*)/\1/p' | sed 's/  */ /g' | sort -u >wanted
    sed 's/^ *//; s/  */ /g' page | tr '\n' ' ' >flat
    : >out
    while read -r line; do grep -qF -- "$line" flat || echo "not in the page: $line"; done <wanted >out
    [ "$(wc -l <wanted)" -gt 50 ] && [ ! -s out ]
    count 'it has each option, each line and each word of --help' $?
    sed -n '/^EXAMPLES$/,/^FILES$/p' page | grep -E '^ *tabd ' | sed 's/^ *tabd //; s/ <.*//; s/ | .*//; s/ &$//' >lines
    : >out
    while read -r line; do
        # shellcheck disable=SC2086
        set -- $line
        "$TABD" "$1" --help >help 2>&1
        for word in "$@"; do [[ $word != --* ]] || grep -q -- " $word" help || echo "$line: no $word"; done
    done <lines >out
    [ "$(wc -l <lines)" -ge 5 ] && [ ! -s out ] && grep -q '/etc/default/tabd' page && grep -q '/var/lib/private' page
    count 'it has examples, of options that are there, and the files' $?
fi

# ---- The documents, for who has no checkout.
documents=$prefix/share/doc/tabd
[ -s "$documents/README.md" ] && ! grep -rn '\./tabd\>' "$documents" --include='*.md' --include='*.txt' --include='*.py' | grep -v '/CHANGELOG.md:' >out
count "the installed documents name the program as it is installed" $?

# ---- Away again.
cp "$top/packaging/tabd-socket.default" "$prefix/etc/default/tabd-socket"
echo mine >"$prefix/bin/other"
mkdir -p "$prefix"/lib/python3/dist-packages/{,tabd/}__pycache__
: >"$prefix/lib/python3/dist-packages/__pycache__/tabd.cpython-311.pyc"
: >"$prefix/lib/python3/dist-packages/tabd/__pycache__/client.cpython-311.pyc"
: >"$prefix/lib/python3/dist-packages/tabd.py"
"$top/packaging/install" --uninstall "$prefix" >out 2>err
[ "$?,$(cat out err),$(files "$prefix")" = 0,,./bin/other$'\n'./etc/default/tabd ] && [ -z "$(ls -A "$prefix/lib/python3/dist-packages")" ]
count 'what was installed is away, and nothing else: not options that were changed' $?

# ---- The Debian package.
package=tabd_${version}_amd64.deb
if ! lacks dpkg-deb 'the Debian package'; then
    [ "$("$top/packaging/deb" 2>err)" = "$work/$package" ] && [ ! -s err ]
    count 'the package is built' $?
    mkdir again && "$top/packaging/deb" again >out 2>err && cmp "$package" "again/$package" >out 2>err
    count 'it is built with the same bytes again' $?
    dpkg-deb -x "$package" unpacked >out 2>err &&
        [ "$(without_documents unpacked)" = "$(sed 's|^\./|./usr/|; s|^\./usr/etc|./etc|' <<<"$parts" | sort)" ] && answers unpacked/usr/bin/tabd &&
        cmp "$top/packaging/tabd.service" unpacked/usr/lib/systemd/system/tabd.service >out 2>err
    count 'it has the same files, and its program answers a script' $?
    documents=unpacked/usr/share/doc/tabd
    find "$documents" -name '*.md' | while read -r file; do
        grep -o '](\([^)#]*\)' "$file" | cut -c 3- | sort -u | while read -r target; do
            [[ -z $target || $target = http* || -e ${file%/*}/$target ]] || echo "$file: $target"
        done
    done >out
    [ -e "$documents/README.md" ] && [ ! -s out ]
    count 'no link of its documents leads nowhere' $?
    [ "$(dpkg-deb -I "$package" conffiles)" = $'/etc/default/tabd\n/etc/default/tabd-socket' ] && ! grep -vE '^(#|$)' unpacked/etc/default/* >out
    count 'its files of options say nothing yet, and are kept as whoever changes them leaves them' $?
    grep -q '^Format: https://www.debian.org/doc/packaging-manuals/copyright-format/1.0/$' "$documents/copyright" &&
        [ "$(grep -cE '^(Files: \*|Copyright: [0-9]{4} .+|License: Apache-2.0)$' "$documents/copyright")" -eq 4 ]
    count 'its copyright notice has the form of Debian' $?
    root=()
    [ "$(id -u)" -eq 0 ] || root=(fakeroot)
    if ! lacks "${root[0]:-dpkg}" 'the package is put in and taken out'; then
        mkdir -p root/var/lib/dpkg/info root/var/lib/dpkg/updates && : >root/var/lib/dpkg/status
        packages() { # WORD ..   dpkg, in a folder of its own
            PATH=$PATH:/usr/sbin:/sbin "${root[@]}" dpkg --root="$work/root" --log=/dev/null --force-not-root --force-depends \
                --force-script-chrootless "$@"
        }
        packages -i "$package" >out 2>&1 && packages --verify tabd >out 2>&1 && [ ! -s out ] && answers root/usr/bin/tabd
        count 'it is put in' $?
        echo 'TABD_PORT=9998' >>root/etc/default/tabd && packages -i "$package" >out 2>&1 && [ "$(tail -n 1 root/etc/default/tabd)" = TABD_PORT=9998 ] &&
            packages --remove tabd >out 2>&1 && [ "$(tail -n 1 root/etc/default/tabd)" = TABD_PORT=9998 ] && [ ! -e root/usr/bin/tabd ] && packages -i "$package" >out 2>&1
        count 'options stay behind an upgrade, and a removal' $?
        packages --purge tabd >out 2>&1 && ! files root | grep -qv ^./var/lib/dpkg/
        count 'and taken out, and nothing is left' $?
    fi
fi
[ "$skipped" -eq 0 ] && echo "$passed passed, $failed failed" || echo "$passed passed, $failed failed, $skipped skipped"
[ "$failed" -eq 0 ]
