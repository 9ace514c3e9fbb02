#!/usr/bin/env bash
# What `pg judge --certificates FOLDER` leaves in FOLDER, with `--pgn` too. Runs are ended by INT and by KILL at twenty moments, and two
# are at work at once: then each certificate that stands there is right, the drafts that are left are harmless, and the
# next run goes on from there, with the rows of one that nothing disturbed. And what may stand in the way of a
# certificate has the text and the status that are written here, and is left or replaced. Quiet where all is so; else
# prints each difference, and ends with status 1. What could not be tried is told in a line `not tried: `. PG may name
# the program.
. "$(dirname "$(readlink -f "$0")")/begin.sh"
cd "$work" || exit 1
limits=(--journeys --nodes 30000)
names=(king-abroad castling-long three-captures knight-in-the-corner schweig rooks-gone nine-moves two-knights)

fail() {
  { echo "$1"; shift; [ $# = 0 ] || sed 's/^/    /' "$@"; } >&2
  wrong=1
}

# The verdict, and what else a row says that does not depend on how it was found.
essence() { cut -f 1-4,6 "$@"; }

# Whether each certificate in the folder $1 is right, for its problem, with the verdict of the undisturbed run. $2 says
# after what run.
certificates_are_right() {
  local name file
  for name in "${names[@]}"; do
    file=$1/$name.pgc
    [ -e "$file" ] || continue
    "$pg" answer "$file" --journeys >answer 2>error
    { sed -n 's/^diagram //p;s/^length //p' answer | tr '\n' ' '; tail -n 1 answer; } >got
    echo "$(tr '\n' ' ' <"$top/examples/$name/problem")$(sed -n "s/^$name\t[^\t]*\t\([^\t]*\)\t.*/\1/p" undisturbed)" |
      cmp -s - got || fail "$2: $name.pgc is not right" answer error
  done
}

# Judges in the folder $1 and expects the rows of the undisturbed run, by the certificates that stand there. $2 says
# after what run.
goes_on() {
  local stand
  stand=$(find "$1" -name '[a-z]*.pgc' | wc -l)
  "$pg" judge problems --certificates "$1" "${limits[@]}" 2>error >rows
  [ "$?$(cat error)" = "$undisturbed" ] && diff <(essence undisturbed) <(essence rows) >difference ||
    fail "$2: the next run has other rows" error difference
  [ "$(cut -f 5 rows | grep -c '^certificate')" = "$stand" ] || fail "$2: the next run does not go on from there" rows
}

for name in "${names[@]}"; do
  echo "$name $(tr '\n' ' ' <"$top/examples/$name/problem")" >>problems
done
mkdir calm
began=${EPOCHREALTIME/./}
"$pg" judge problems --certificates calm "${limits[@]}" >undisturbed 2>error
undisturbed=$?$(cat error)
micros=$((${EPOCHREALTIME/./} - began))
[ "$undisturbed" = 1 ] && [ "$(cut -f 3 undisturbed | sort | uniq -c | tr -s ' \n' ' ')" = ' 1 cooked 7 sound ' ] ||
  fail 'the problems are not settled' undisturbed error
certificates_are_right calm 'an undisturbed run'
goes_on calm 'an undisturbed run'

# With `--pgn` the games that settle a problem stand beside its certificate, and a file of that name stays.
cp -r calm sent && echo mine >sent/schweig.pgn
"$pg" judge problems --certificates sent --pgn "${limits[@]}" 2>error >rows
[ "$?$(cat error)" = "$undisturbed" ] || fail 'with --pgn the rows are others' error rows
[ "$(cat sent/schweig.pgn)" = mine ] || fail 'with --pgn a file is written over' sent/schweig.pgn
for name in "${names[@]}"; do
  [ "$name" = schweig ] || diff <("$pg" answer "sent/$name.pgc" | sed -n '/^games /,${/^1/p;}') <("$pg" pgn "sent/$name.pgn") >difference ||
    fail "$name.pgn has other games" difference
done

# Ends a run in the folder $2 by the signal $1 after $3 microseconds; its status. (A shell has INT ignored in what it
# starts in the background.)
ended() {
  env --default-signal=INT "$pg" judge problems --certificates "$2" "${limits[@]}" >/dev/null 2>&1 &
  local run=$!
  sleep "$(printf '%d.%06d' $(($3 / 1000000)) $(($3 % 1000000)))"
  kill -"$1" "$run" 2>/dev/null
  wait "$run" 2>/dev/null
}

# Where a run has ended before its moment, the moment is tried earlier.
left=0
for moment in {1..20}; do
  signal=$([ $((moment % 2)) = 0 ] && echo INT || echo KILL)
  at=$((micros * moment / 21))
  for attempt in 1 2 3 4 5; do
    rm -rf folder && mkdir folder
    ended "$signal" folder "$at"
    [ $? -gt 128 ] && break
    at=$((at / 2))
    [ "$attempt" -lt 5 ] || fail "no run was at work at moment $moment"
  done
  certificates_are_right folder "moment $moment, $signal"
  left=$((left + $(find folder -name '.*.pgc.pg-part-0' | wc -l)))
  goes_on folder "moment $moment, $signal"
  certificates_are_right folder "after moment $moment, $signal"
  other=$(find folder -mindepth 1 ! -name '[a-z]*.pgc' ! -name '.*.pgc.pg-part-[0-9]')
  [ -z "$other" ] || fail "moment $moment, $signal: it left $other"
done
[ "$left" -gt 0 ] || fail 'no run was ended while it wrote a draft'

# Two runs at once, in an empty folder with a draft that a killed run has left.
rm -rf folder && mkdir folder
echo left >folder/.schweig.pgc.pg-part-0
"$pg" judge problems --certificates folder "${limits[@]}" >one 2>one-error &
one=$!
"$pg" judge problems --certificates folder "${limits[@]}" >other 2>other-error
other=$?
wait "$one"
[ "$?$(cat one-error) $other$(cat other-error)" = "$undisturbed $undisturbed" ] ||
  fail 'two runs at once: another status' one-error other-error
for rows in one other; do
  diff <(essence undisturbed) <(essence "$rows") >difference || fail 'two runs at once: other rows' difference
done
certificates_are_right folder 'two runs at once'
goes_on folder 'two runs at once'
[ "$(ls -A folder | grep -v '^[a-z]')$(cat folder/.schweig.pgc.pg-part-0)" = .schweig.pgc.pg-part-0left ] ||
  fail 'two runs at once: a draft is left, or was taken'

# What stands in the folder F, but for the certificate of the second problem.
listing() {
  find F -mindepth 1 ! -name after.pgc -printf '%P %y %m %l\n' | sort
  find F -mindepth 1 ! -name after.pgc -type f -exec sha256sum {} + | sort
}

# Runs `pg judge` with the words $4 ..: it is to end with status $1, to say $2 on standard error, and to print $3.
expect() {
  local status
  "${as[@]}" "$pg" judge "${@:4}" 2>error >rows </dev/null
  status=$?
  [ "$status" = "$1" ] && [ "$(cat error)" = "${2:+pg: $2}" ] && [ "$(cat rows)" = "$3" ] ||
    fail "pg judge ${*:4}: status $status for $1, not '$2', or not the row '$3'" error rows
}

# Judges `list` with certificates in the folder F and the words $5 ..: that is to end with status $2, to say $3, and to
# print the row $4 of the first problem, or none, and always that of the second; and F is to be kept as it was, or to be
# changed, as $1 says.
judges() {
  local before
  rm -f F/after.pgc
  before=$(listing)
  expect "$2" "$3" "$4${4:+$'\n'}$after" list --certificates F "${@:5}"
  [ "$1" = "$([ "$before" = "$(listing)" ] && echo kept || echo changed)" ] ||
    fail "pg judge ${*:5}, '${3:-$4}': F is not $1"
}

# The row of the first problem by what it was found: by $1; with the verdict $2 and the games $3, where it is another.
found() {
  printf 'orders\t1.5\t%s\t-\t%s\t%s\n' "${2-cooked}" "$1" "${3-2 games: 1. d3 e6 2. e3; 1. e3 e6 2. d3; they part at move 1 of White, with the same moves in another order}"
}

# Puts in the folder F what the command $1 makes there, and nothing else.
F() {
  rm -rf F && mkdir F && (cd F && eval "$1") || fail "$1: not made"
}
array=rnbqkbnr/pppppppp/8/8/8/8/PPPPPPPP/RNBQKBNR
orders=rnbqkbnr/pppp1ppp/4p3/8/8/3PP3/PPP2PPP/RNBQKBNR
as=()
after=$(printf 'after\t0.0\tsound\t-\tsearch, 0 nodes\t-')
printf '%s\n' "orders $orders 1.5" "after $array 0" >list
"$pg" search "$orders" 1.5 right.pgc >/dev/null
"$pg" search "$orders" 1.0 length.pgc >/dev/null
"$pg" search "$array" 0 diagram.pgc >/dev/null
echo none >none.pgc
[ "$(wc -c <right.pgc) $(wc -c <length.pgc) $(wc -c <diagram.pgc)" = '119 40 37' ] ||
  fail 'the certificates are not made'

# FOLDER is made where it is not there, with those that it stands in.
searched='search, 63 nodes'
expect 1 '' "$(found "$searched")"$'\n'"$after" list --certificates made/here
cmp right.pgc made/here/orders.pgc >error || fail 'FOLDER is made: no certificate' error
for folder in list list/here; do expect 4 "cannot open $folder" '' list --certificates $folder; done

# What stands there already: a right certificate, also behind a link; one that is refused; and one of another problem,
# also behind a link.
F ''
judges changed 1 '' "$(found "$searched")"
judges kept 1 '' "$(found 'certificate, 63 records')" --nodes 0
F 'ln -s ../right.pgc orders.pgc'
judges kept 1 '' "$(found 'certificate, 63 records')" --nodes 0
for bad in ': >orders.pgc' 'head -c -1 ../right.pgc >orders.pgc' 'cp ../none.pgc orders.pgc' 'printf PGT1 >orders.pgc'; do
  F "$bad"
  unsettled=$(found 'journeys, 0 nodes, old certificate refused' 'not settled' '0 games met; limit reached')
  judges kept 1 '' "$unsettled" --nodes 0
  judges changed 1 '' "$(found "$searched, old certificate refused")"
  cmp right.pgc F/orders.pgc >error || fail "$bad: not replaced" error
done
for other in length diagram; do
  F "cp ../$other.pgc orders.pgc"
  judges kept 1 '' "$(found "$searched, certificate of another problem kept")"
  judges changed 1 '' "$(found "$searched, old certificate refused")" --replace
  cmp right.pgc F/orders.pgc >error || fail "$other.pgc: not replaced" error
done
F 'ln -s ../length.pgc orders.pgc'
judges kept 1 '' "$(found "$searched, certificate of another problem kept")"

# What cannot be a file spoils its line.
spoils() {
  F "$1"
  judges kept 2 "line 1: cannot open F/orders.pgc: $2" '' "${@:3}"
}
spoils 'mkdir orders.pgc' 'it is no plain file'
spoils 'mkfifo orders.pgc' 'it is no plain file'
spoils 'ln -s nothing orders.pgc' 'No such file or directory (os error 2)'
spoils 'ln -s ../none.pgc orders.pgc' 'it is a link, which is not followed'
spoils 'ln -s ../length.pgc orders.pgc' 'it is a link, which is not followed' --replace
spoils 'seq -f .orders.pgc.pg-part-%g 0 999 | xargs touch' '1000 drafts that runs have left stand beside it'
long=$(printf 'n%.0s' {1..251})
sed -i "s/^orders/$long/" list
F ''
judges changed 1 '' "$(found "$searched" | sed "s/^orders/$long/")"
sed -i 's/^n/nn/' list
judges kept 2 "line 1: cannot open F/n$long.pgc: File name too long (os error 36)" ''
sed -i '1s/^n*/orders/' list

# A folder that comes into the place while the problem is judged.
mapfile -t schweig <"$top/examples/schweig/problem"
schweig_proof=$top/examples/schweig/certificate.pgc
echo "schweig ${schweig[*]}" >slow
F ''
"$pg" judge slow --certificates F 2>error >rows &
run=$!
until [ -e F/.schweig.pgc.pg-part-0 ] || ! kill -0 "$run" 2>/dev/null; do :; done
kill -STOP "$run" && mkdir F/schweig.pgc && kill -CONT "$run"
wait "$run"
[ "$? $(cat error)" = '2 pg: line 1: cannot open F/schweig.pgc: Is a directory (os error 21)' ] && [ ! -s rows ] &&
  [ "$(ls -A F)" = schweig.pgc ] || fail 'a folder that comes into the place' error rows

# Limits: of bytes, with which nothing is left, and of time, which ends the check of a certificate too.
echo 'short rnbqkbnr/pppp1ppp/8/4p3/4P3/8/PPPP1PPP/RNBQKBNR 1.0' >short
row=$(printf 'short\t1.0\tnot settled\t-\tsearch, 22 nodes\t1 game met; none below 1.0; certificate limit reached')
F ''
expect 1 '' "$row" short --certificates F --bytes 58
[ -z "$(ls -A F)" ] || fail '--bytes 58: it leaves something'
expect 0 '' "${row%not settled*}"$'sound\t-\tsearch, 22 nodes\t1. e4 e5' short --certificates F --bytes 59
[ "$(wc -c <F/short.pgc)" = 59 ] || fail '--bytes 59: no certificate'
F 'cp "$schweig_proof" schweig.pgc'
row=$(printf 'schweig\t4.0\tnot settled\t-\tcertificate, time is over\t0 games met; limit reached')
expect 1 '' "$row" slow --certificates F --minutes 0
[ "$(ls -A F)" = schweig.pgc ] && cmp "$schweig_proof" F/schweig.pgc >error || fail '--minutes 0: not left' error

# Without FOLDER a certificate stands in memory while it is short: within 100 MB a problem is judged by tolls, for which no
# folder for temporary files is wanted, and none gets a file.
printf 'king %s\n' "$(tr '\n' ' ' <"$top/examples/king-on-a1/problem")" >king
mkdir temporary
within_100_MB() { (ulimit -v 100000; TMPDIR=$1 "$pg" judge king 2>error | cut -f 3,5 | cut -d , -f 1); }
for folder in temporary nowhere; do
  [ "$(within_100_MB "$folder")" = $'sound\ttolls' ] && [ -z "$(ls -A temporary)" ] && [ ! -s error ] ||
    fail "a certificate that is not kept, with TMPDIR $folder" error
done

# On a terminal the check of a long certificate shows how far it is.
if command -v script >/dev/null; then
  echo 'long rnbqkbnr/pppppppp/8/8/8/3P4/PPPP1PPP/RNBQKBNR 64.0' >long
  F 'echo UEdDMYAkUzZCEREQEQAQAAAAAAAAAAAAAAAAAACZmZmZrNu+yg== | base64 -d >long.pgc
    head -c 72000000 /dev/zero | tr "\0" "\1" >>long.pgc'
  script -qec "'$pg' judge long --certificates F --nodes 0 >rows" /dev/null </dev/null | tr -d '\n' | tr '\r' '\n' >said
  grep -q 'bytes [0-9]*% of file' said || fail 'the check of a long certificate does not show how far it is' said rows
  [ "$(cut -f 3,5 rows)" = $'not settled\tjourneys, 0 nodes, old certificate refused' ] || fail 'a long certificate' rows
else
  echo 'not tried: what the check of a certificate shows on a terminal'
fi

# Who may not read or write there.
nobody=(setpriv --reuid=65534 --regid=65534 --clear-groups)
if [ "$(id -u)" = 0 ] && ! "${nobody[@]}" true 2>/dev/null; then
  echo 'not tried: what a user with fewer rights than root may not read or write'
  exit "$wrong"
fi
if [ "$(id -u)" = 0 ]; then
  as=("${nobody[@]}")
  cp "$pg" nobodys && chmod 755 nobodys && chmod 711 "$work" && pg=$work/nobodys
fi
own() { F "$1" && { [ ${#as[@]} = 0 ] || chown -R 65534:65534 F; }; }
denied='Permission denied (os error 13)'
own 'cp ../right.pgc orders.pgc && chmod 0 orders.pgc'
judges kept 2 "line 1: cannot open F/orders.pgc: $denied" ''
own 'cp ../none.pgc orders.pgc && chmod 444 orders.pgc'
judges kept 2 "line 1: cannot open F/orders.pgc: $denied" ''
own 'cp ../right.pgc orders.pgc && chmod 444 orders.pgc'
judges kept 1 '' "$(found 'certificate, 63 records')"
own 'chmod 555 .'
expect 2 "line 1: cannot open F/orders.pgc: $denied
pg: line 2: cannot open F/after.pgc: $denied" '' list --certificates F
own 'chmod 555 .'
expect 4 'cannot open F/here' '' list --certificates F/here
exit "$wrong"
