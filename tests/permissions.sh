#!/usr/bin/env bash
# Each permission alone, beside each line that needs one: what it admits, and of the others the first permission that would do.
# Usage: tests/permissions.sh   (from anywhere; TABD names another program)
set -u
top=$(cd "$(dirname -- "${BASH_SOURCE[0]}")/.." && pwd)
work=$(mktemp -d) || exit 1
trap 'rm -rf "$work"' EXIT
program=${TABD:-$("$top/release/program")} || exit 1
cd "$work" || exit 1

# Of each line: what it says, the permissions of which any admits it, and what an admitted one prints.
cat >"$work/needs" <<'NEEDS'
scan t \0|Table.READ|end
insert t r f q \e v|Table.WRITE|ok
delete t r f q \e|Table.WRITE|ok
mutate t r put f q \e v 1|Table.WRITE|ok
createtable s|System.CREATE_TABLE|ok
droptable u|System.DROP_TABLE Table.DROP_TABLE|ok
constraints t \0|System.ALTER_TABLE Table.ALTER_TABLE|ok
versions t 1|System.ALTER_TABLE Table.ALTER_TABLE|ok
versions t 2|System.ALTER_TABLE Table.ALTER_TABLE|refused 21 VersionsRaised 1
horizon t 0|System.ALTER_TABLE Table.ALTER_TABLE|ok
flush t|System.ALTER_TABLE Table.ALTER_TABLE Table.WRITE|ok
compact t partial|System.ALTER_TABLE Table.ALTER_TABLE Table.WRITE|ok
compact t full|System.ALTER_TABLE Table.ALTER_TABLE Table.WRITE|ok
status t|System.ALTER_TABLE Table.ALTER_TABLE|tablets
addsplit t m|System.ALTER_TABLE Table.ALTER_TABLE|ok
splits t|System.ALTER_TABLE Table.ALTER_TABLE|end
splitsize t r 1|System.ALTER_TABLE Table.ALTER_TABLE|refused 20 BadSplit small
begin t r full|System.ALTER_TABLE Table.ALTER_TABLE Table.WRITE|job 1
install t 0|System.ALTER_TABLE Table.ALTER_TABLE Table.WRITE|ok
save saved.image|System.SYSTEM|ok
load none.image|System.SYSTEM|fault load io
rotate|System.SYSTEM|ok
createuser eve|System.CREATE_USER|ok
dropuser dan|System.DROP_USER|ok
setauths dan A|System.ALTER_USER|ok
grant dan READ t|System.ALTER_TABLE Table.GRANT|ok
revoke dan WRITE t|System.ALTER_TABLE Table.GRANT|ok
grant dan CREATE_USER|System.GRANT|ok
revoke dan CREATE_TABLE|System.GRANT|ok
rights t||
NEEDS
passed=0 failed=0
for held in none System.CREATE_TABLE System.DROP_TABLE System.ALTER_TABLE System.CREATE_USER System.DROP_USER System.ALTER_USER \
    System.SYSTEM Table.READ Table.WRITE Table.ALTER_TABLE Table.GRANT Table.DROP_TABLE; do
    while IFS='|' read -r line needed told; do
        table=$(cut -d ' ' -f 2 <<<"$line")
        [ "$table" = u ] || table=t
        {
            printf '%s\n' 'createtable t' 'createtable u' 'createuser dan' 'createuser bob' 'grant dan WRITE t' 'grant dan CREATE_TABLE'
            printf '%s\n' 'insert t r f q A v' 'begin t r minor' 'merge 0'
            case $held in
            System.*) echo "grant bob ${held#*.}" ;;
            Table.*) echo "grant bob ${held#*.} $table" ;;
            *) echo '#' ;;
            esac
            printf '%s\n' 'as bob' "$line"
        } >"$work/lines"
        first=${needed%% *}
        case " $needed " in
        *" $held "*) wanted=$told ;;
        *) wanted="refused 3 PermissionDenied $first" && [ "${first%.*}" = System ] || wanted="$wanted t" ;;
        esac
        [ -n "$needed" ] || wanted=end
        said=$("$program" script <"$work/lines" | tail -n 1)
        # which counts are told a history leaves open
        if [ "$said" = "$wanted" ] || { [ "$wanted" = tablets ] && [[ $said =~ ^tablets\ [0-9]+\ sources\ [0-9]+\ records\ [0-9]+$ ]]; }; then passed=$((passed + 1)); else
            failed=$((failed + 1))
            echo "FAILED: '$line' with $held isn't told '$wanted'"
        fi
    done <"$work/needs"
done
echo "$passed passed, $failed failed"
[ "$failed" -eq 0 ]
