#!/usr/bin/env bash
# The built program in bad company: words that are no text, streams that are closed or full, pipes that never end, files
# that are not to be written, a full disk, a terminal. Each run is to end with the status and the text that are written
# here, and to leave each file as it was. Quiet where all is so; else prints each difference, and ends with status 1.
# PG may name the program.
. "$(dirname "$(readlink -f "$0")")/begin.sh"
array=rnbqkbnr/pppppppp/8/8/8/8/PPPPPPPP/RNBQKBNR
first=rnbqkbnr/pppppppp/8/8/4P3/8/PPPP1PPP/RNBQKBNR
open=rnbqkbnr/pppp1ppp/8/4p3/4P3/8/PPPP1PPP/RNBQKBNR
queen=rnb1kbnr/ppp1pppp/8/3q4/8/8/PPPP1PPP/RNBQKBNR
orders=rnbqkbnr/pppp1ppp/4p3/8/8/3PP3/PPP2PPP/RNBQKBNR
unreachable=rnbqkbnr/pppppppp/8/8/8/3P4/PPPP1PPP/RNBQKBNR
schweig=r1bqkbnr/ppp2ppp/3p4/8/8/8/PPPPPPPP/R1BQKBNR
cooked=rnbqkbnr/p1pppppp/8/8/8/3QP3/PPP2PPP/RNB1K1NR
endless=4r3/2p1ppBp/1N4kp/7n/1r3P2/5KP1/P3P1BP/bN1b2qR # a long search
stalemate=5bnr/4p1pq/4Qpkr/7p/7P/4P3/PPPP1PP1/RNB1KBNR
position="$array w KQkq - 0 1"
files=$work/files
mkdir "$files" && cd "$files" || exit 1
"$pg" search "$queen" 2.0 good.pgc >report || exit 1
sed -n 4p report >games
echo UEdDMQAkUzZCEREREQAAAAAAAAAAAAAAAAAAAACZmZmZrNu+yg== | base64 -d >old.pgc # version 1, the array in no move
echo UEdDMYAkUzZCEREQEQAQAAAAAAAAAAAAAAAAAACZmZmZrNu+yg== | base64 -d >long.pgc # a header alone, 64.0
: >empty
cp -r "$files" "$work/before"

# Runs the shell command $3 in the folder with the files: it is to end with status $1, and to say $2 on standard error; and to
# print $4, where that is given.
expect() {
  local status
  (eval "$3") >"$work/out" 2>"$work/err"
  status=$?
  if [ "$status" != "$1" ] || [ "$(cat "$work/err")" != "$2" ] || [ "${4-$(cat "$work/out")}" != "$(cat "$work/out")" ] ||
    ! diff -r "$work/before" "$files" >"$work/changed"; then
    { echo "$3"; echo "    status $status for $1; said and printed:"; sed 's/^/    /' "$work/err" "$work/out" "$work/changed"; } >&2
    wrong=1
    rm -rf "${files:?}"/* && cp -r "$work"/before/* "$files"
  fi
}

# The first 37 bytes of a certificate of version 1 for the diagram $1 and $2 plies: two squares a byte, from a1, the first one low.
header() {
  local ranks rank row number square codes=.PNBRQK..pnbrqk low high bytes=
  IFS=/ read -ra ranks <<<"$1"
  for rank in 7 6 5 4 3 2 1 0; do
    row=${ranks[rank]}
    for number in 1 2 3 4 5 6 7 8; do row=${row//$number/$(printf "%${number}s" | tr ' ' .)}; done
    for square in 0 2 4 6; do
      low=${codes%%"${row:square:1}"*} high=${codes%%"${row:square+1:1}"*}
      bytes+=$(printf '\\x%02x' $((${#low} + 16 * ${#high})))
    done
  done
  printf "PGC1\\x$(printf %02x "$2")$bytes"
}

# So many bytes 1, each an expansion.
ones() { head -c "$1" /dev/zero | tr '\0' '\1'; }

# Words.
expect 2 'pg: a word of the command line is not UTF-8' '"$pg" moves $'"'\\xe9'"
expect 2 'pg: a word of the command line is not UTF-8' '"$pg" search $first 0.5 $'"'caf\\xe9.pgc'"
expect 4 'pg: cannot open a\u{1b}[31mb\n\u{9b}é' '"$pg" check $first 0.5 $'"'a\\e[31mb\\n\\xc2\\x9b\\xc3\\xa9'"

# With the words behind $2 `pg` is to end with status $1, to print nothing, and to say on standard error, its lines in
# one, what begins with $2.
refused() {
  "$pg" "${@:3}" >"$work/out" 2>"$work/err" </dev/null
  [ "$?" = "$1" ] && [ ! -s "$work/out" ] && [[ $(tr -s ' \n' ' ' <"$work/err") == "$2"* ]] &&
    diff -r "$work/before" "$files" ||
    { echo "pg ${*:3}: not status $1 and '$2'" >&2; sed 's/^/    /' "$work/err" >&2; wrong=1; }
}
lacks='error: the following required arguments were not provided:'
most=18446744073709551615 more=18446744073709551616
while IFS='|' read -r status said words; do
  # shellcheck disable=SC2086
  refused "$status" "$said" $words
done <<END
2|Checks shortest proof games:|
2|error: unrecognized subcommand 'play'|play
2|$lacks <FEN>|moves
2|pg: wrong number of fields|moves 8/8
2|error: invalid value '256' for '<PLIES>': 256 is not in 0..=255|count $array 256
2|error: unexpected argument '-1' found|count $array -1
2|$lacks <LENGTH>|games $array
2|$lacks <GAMES>|cooks $array 0
2|error: invalid value '256' for '--foreign <D>': 256 is not in 0..=255|cooks $array 0 list --foreign 256
2|error: unexpected argument '--journeys' found|games $array 0 list --journeys
2|error: unexpected value 'yes' for '--journeys' found|check $array 0 list list --journeys=yes
2|error: unexpected value 'yes' for '--tolls' found|check $array 0 list list --tolls=yes
2|error: unexpected argument '--no-journeys' found|check $array 0 list list --no-journeys
2|error: unexpected argument '--tolls' found|answer list --tolls
2|error: unexpected argument '--tolls' found|judge list --tolls
2|$lacks <DIAGRAM>|solve
2|error: unexpected argument 'more' found|solve $array 0 more
2|error: unexpected argument '--tolls' found|solve $array 0 --tolls
2|error: unexpected value 'yes' for '--all' found|solve $array 0 --all=yes
2|error: a value is required for '--game <MOVES>'|solve $array 0 --game
2|error: unexpected argument '-1' found|solve $array 0 --nodes -1
2|pg: bad rank|solve 8/8
2|pg: length above 64.0|solve $array 64.5
2|pg: line 1, ply 1: not a move|solve $array 0 --game x
1|pg: game 1 does not have the stated length|solve $array 0 --game e4
1|pg: game 1 does not end on the diagram|solve $array 0.5 --game e4
4|pg: cannot open none|solve $array 0 --games none
4|pg: cannot open none/none|solve $array 0 --keep none/none
4|pg: cannot open -|solve $array 0 --keep -
2|error: unexpected argument '-1' found|cooks $array 0 list --nodes -1
2|$lacks <PROBLEMS>|judge
2|error: unexpected argument 'more' found|judge list more
2|error: unexpected argument '-1' found|judge list --nodes -1
2|error: a value is required for '--certificates <FOLDER>'|judge list --certificates
2|error: a value is required for '--bytes <N>'|judge list --bytes
2|error: unexpected argument '-1' found|judge list --bytes -1
2|error: unexpected value 'yes' for '--replace' found|judge list --replace=yes
2|$lacks <CERT>|check $array 0
2|error: invalid value '0' for '--records <N>': 0 is not in 1..|check $array 0 none none --records 0
2|error: unexpected argument 'more' found|check $array 0 none none more
2|$lacks <CERT>|answer
2|error: unexpected argument '0' found|answer $array 0 none
2|error: invalid value '0' for '--records <N>': 0 is not in 1..|answer none --records 0
2|pg: bad number of nodes: it is as 1000000, 250k, 10M, 2G or 1e6|search $array 0 none --nodes $more
2|pg: bad number of nodes: |cooks $array 0 list --nodes 1.5
2|pg: bad number of nodes: |judge list --nodes=10m
2|pg: bad number of nodes: |page none --nodes=x
2|pg: bad number of bytes: it is as 1000000, 250k, 10M, 2G or 1e6|search $array 0 none --bytes $more
2|error: unexpected argument '--replace' found|search $array 0 none --replace
2|pg: bad rank|search 8/8 0 none
2|pg: length above 64.0|search $array 64.5 none
2|$lacks <MOVES>|why none
2|$lacks <CERT>|page
2|error: unexpected argument 'more' found|page none more
2|error: invalid value '0' for '--records <N>': 0 is not in 1..|page none --records 0
2|error: unexpected argument '-1' found|page none --nodes -1
4|pg: cannot open none|check $array 0 none none --records=$most
4|pg: cannot open none|check 8/8 64.5 none
4|pg: cannot open none|answer none --records=$most --journeys
4|pg: cannot open none|why none -
4|pg: cannot open none|page none --nodes=$most
4|pg: cannot open none|page none --nodes=20k
4|pg: cannot open none/none|search $array 0 none/none --nodes=0
4|pg: cannot open none/|search $array 0 none/
4|pg: cannot open none/|search $array 0 none/ --tolls
4|pg: cannot open none|check 8/8 64.5 none none --tolls
2|$lacks <FILE>|pgn
2|error: unexpected argument 'more' found|pgn none more
2|pg: bad letters: they are english, german, french, dutch, spanish or italian|pgn none --letters klingon
4|pg: cannot open none|pgn none
2|$lacks <MOVES>|end
2|pg: line 1, ply 1: not a move|end x
END
for command in '' solve check answer cooks judge games why page pgn end; do
  expect 0 '' "\"\$pg\" $command --help | grep -c '^Usage: '" 1
done
expect 0 '' '"$pg" --version | grep -c "^pg [0-9.]*$"' 1

# A word that names a file or a folder and is empty is refused by its name, before anything is opened.
while read -r name words; do
  expect 4 "pg: cannot open $name: the word is empty" "\"\$pg\" $words" ''
done <<END
CERT check $queen 2.0 '' games
CERT check $queen 2.0 '' none
CERT answer ''
CERT search $queen 2.0 ''
CERT search $queen 2.0 '' --games ../none
CERT why '' -
CERT page ''
GAMES check $queen 2.0 good.pgc ''
GAMES check $queen 2.0 none ''
GAMES games $queen 2.0 ''
GAMES cooks $queen 2.0 ''
--games search $queen 2.0 ../none --games ''
--games search $queen 2.0 ../none --games=
--out page good.pgc --out ''
OLD upgrade '' ../none
NEW upgrade old.pgc ''
NEW upgrade none ''
PROBLEMS judge ''
--games solve $queen 2.0 --games ''
--keep solve $queen 2.0 --keep ''
PROBLEMS judge '' --certificates ../none
--certificates judge games --certificates '' --nodes 0
--certificates judge none --certificates= --nodes 0
FILE pgn ''
END
[ ! -e "$work/none" ] || { echo "an empty word leaves a file" >&2; wrong=1; }

# Checks of certificates of expansions alone, with lists of games whose backslashes are read.
{ header "$open" 2; ones 22; } >"$work/open.pgc"
{ header "$open" 1; ones 1; } >"$work/short.pgc"
header "$array" 0 >"$work/none.pgc"
{ header "$orders" 3; ones 443; } >"$work/orders.pgc"
head -c -1 "$work/orders.pgc" >"$work/cut.pgc"
{ header "$orders" 3; ones 444; } >"$work/long.pgc"
declare -A reports=(
  [nothing]=
  [sound]="diagram $open"$'\nlength 1.0\ngames 1\n1. e4 e5\nsound'
  [array]="diagram $array"$'\nlength 0.0\ngames 1\n-\nsound'
  [cooked]="diagram $orders"$'\nlength 1.5\ngames 2\n1. d3 e6 2. e3\n1. e3 e6 2. d3\ncooked'
  [none]="diagram $open"$'\nlength 0.5\ngames 0\nno game'
)
while IFS='|' read -r status words list said printed; do
  printf -- "$list" >"$work/list"
  expect "$status" "${said:+pg: $said}" "\"\$pg\" check $words ../list" "${reports[${printed:-nothing}]}"
done <<END
0|$open 1.0 ../open.pgc --records 22|1. e4 e5\n||sound
1|$open 1.0 ../open.pgc --records 21|1. e4 e5\n|record limit reached|
1|$open 1.0 ../open.pgc --records 22||unlisted game: 1. e4 e5|
1|$open 1.0 ../open.pgc --records 22|1. e4 d5\n|game 1 does not end on the diagram|
2|$open 1.0 ../open.pgc --records 22|1. e4 e4\n|line 1, ply 2: no such legal move|
2|$open 1.0 ../open.pgc --records 22|\xff|games are not UTF-8|
2|$open 1. ../open.pgc --records 22|1. e4 e5\n|bad length|
1|$open 1.5 ../open.pgc --records 22||certificate for another length|
1|$orders 1.5 ../orders.pgc|1. e3 e6 2. d3\n1. d3 e6 2. e3\n||cooked
1|$open 0.5 ../short.pgc|||none
0|$array 0 ../none.pgc|-||array
1|$orders 1.5 ../orders.pgc|1. d3 e6 2. e3|unlisted game: 1. e3 e6 2. d3|
1|$orders 1.5 ../orders.pgc|1. e3 e6 2. d3|unlisted game: 1. d3 e6 2. e3|
1|$orders 1.5 ../long.pgc|1. e3 e6 2. d3\n1. d3 e6 2. e3|bytes after the certificate|
1|$orders 1.5 ../cut.pgc|1. e3 e6 2. d3\n1. d3 e6 2. e3|truncated certificate|
1|$orders 1.5 ../orders.pgc|1. e3 e6|game 1 does not have the stated length|
2|$orders 1.5 ../orders.pgc|1. e3 e6 2. e3|line 1, ply 3: no such legal move|
2|$array 0 ../none.pgc|e4\0|line 1, ply 1: not a move|
2|$array 0 ../none.pgc|\0|line 1, ply 1: not a move|
2|$array 0 ../none.pgc|e4\re5|line 1, ply 1: not a move|
2|$array 0 ../none.pgc|\xef\xbb\xbfe4|line 1, ply 1: not a move|
2|$array 0 ../none.pgc|\xc2\xa0e4|line 1, ply 1: not a move|
2|$array 0 ../none.pgc|\xe2\x99\x98f3|line 1, ply 1: not a move|
2|$array 0 ../none.pgc|Sf\xc3\xa9|line 1, ply 1: not a move|
2|$array 0 ../none.pgc|e4 \xc3|games are not UTF-8|
2|$array 0 ../none.pgc|\xed\xa0\x80|games are not UTF-8|
END

# The same of certificates by themselves. A header may name no problem: a number that is no man's, no king, more than 64.0 moves.
{ header "$array" 0 | head -c 21; printf '\7'; header "$array" 0 | tail -c 15; } >"$work/nobody.pgc"
header "${array/K/Q}" 0 >"$work/kingless.pgc"
header "$array" 129 >"$work/longer.pgc"
while IFS='|' read -r status words said printed; do
  expect "$status" "${said:+pg: $said}" "\"\$pg\" answer $words" "${reports[${printed:-nothing}]}"
done <<END
0|../open.pgc --records 22||sound
0|../none.pgc||array
1|../orders.pgc||cooked
1|../short.pgc||none
1|../open.pgc --records 21|record limit reached|
1|../long.pgc|bytes after the certificate|
1|../cut.pgc|truncated certificate|
1|empty|truncated certificate|
1|report|not a certificate|
1|long.pgc|truncated certificate|
1|../nobody.pgc|certificate for no problem|
1|../kingless.pgc|certificate for no problem|
1|../longer.pgc|certificate for no problem|
END
many() { head -c "$1" /dev/zero | tr '\0' "$2"; }
expect 2 'pg: line 2: repeated game' 'yes e4 | head -n 4097 | "$pg" check $array 0 ../none.pgc'
expect 2 'pg: line 1, ply 1: not a move' '(many 1000000 1; echo e4) | "$pg" check $array 0 ../none.pgc'
expect 1 'pg: game 1 does not have the stated length' '(many 1000000 1; many 1000000 .; echo e4) | "$pg" check $array 0 ../none.pgc'

# Games in PGN become a list, and games say where they end.
printf '\xef\xbb\xbf[White "N. N."]\r\n\r\n1. e4 {best} d5 (1... e5 2. Sf3)\r\n2. exd5\r\nQxd5 1/2-1/2\r\n' >"$work/mail.pgn"
echo 'e4 d5 exd5 Dxd5' >"$work/german.pgn"
echo '[FEN "8/8"]' >"$work/fen.pgn"
recapture='1. e4 d5 2. exd5 Qxd5'
printf '1. d3 e6 2. e3\n1. e3 e6 2. d3\n' >"$work/both"
for name in ../mail.pgn '- <../mail.pgn' '../german.pgn --letters german'; do
  expect 0 '' "\"\$pg\" pgn $name" "$recapture"
done
expect 0 '' '"$pg" pgn ../mail.pgn | "$pg" games $queen 2.0 - | tail -n 1' 'at least one game'
expect 0 '' '"$pg" pgn empty' ''
expect 2 'pg: line 1, column 12: game 1, ply 4: Dxd5 is not a move' '"$pg" pgn ../german.pgn' ''
expect 2 $'pg: line 1, column 12: game 1, ply 4: Dxd5 is not a move\npg: the letters are others: say --letters german' \
  '"$pg" pgn ../german.pgn --hints' ''
expect 2 'pg: line 1, column 4: game 1, ply 2: Sf6 is not a move' 'echo "e4 Sf6" | "$pg" pgn - --letters dutch --hints' ''
expect 2 'pg: line 1, column 1: game 1: the tag FEN sets up a position' '"$pg" pgn ../fen.pgn' ''
expect 4 'pg: write fault' '"$pg" pgn ../mail.pgn >/dev/full' ''
expect 4 'pg: read fault' 'yes | "$pg" pgn -' ''
# Games go out as PGN, and come back as the report has them, with its status; after no yes nothing is printed.
while IFS='|' read -r status words input; do
  "$pg" $words <"$work/$input" 2>/dev/null >"$work/report"
  told=$(sed -n '/^games /,${/^[1-9]/p;}' "$work/report")
  expect "$status" '' "\"\$pg\" $words --pgn <../$input >../sent.pgn"
  expect 0 '' '"$pg" pgn ../sent.pgn' "$told"
done <<END
0|answer ../open.pgc|files/empty
1|answer ../orders.pgc|files/empty
1|answer ../short.pgc|files/empty
0|check $queen 2.0 good.pgc|files/games
0|games $queen 2.0|files/games
1|games $orders 1.5|both
0|solve $queen 2.0|files/empty
1|solve $orders 1.5|files/empty
1|solve $unreachable 1.0 --minutes 1|files/empty
END
expect 1 'pg: truncated certificate' '"$pg" answer ../cut.pgc --pgn' ''
expect 1 'pg: unlisted game: 1. e4 d5 2. exd5 Qxd5' '"$pg" check $queen 2.0 good.pgc empty --pgn' ''
expect 4 'pg: write fault' '"$pg" answer good.pgc --pgn >/dev/full' ''
ended=$(printf '%s\n' "$recapture" "diagram $queen" 'length 2.0' "fen $queen w KQkq - 0 3")
for moves in '"e4 d5 exd5 Qxd5"' '- <games'; do expect 0 '' "\"\$pg\" end $moves" "$ended"; done
expect 0 '' '"$pg" end - <empty' ''
expect 0 '' 'printf "a3\n-\n" | "$pg" end - | grep fen' \
  $'fen rnbqkbnr/pppppppp/8/8/8/8/PPPPPPPP/RNBQKBNR w KQkq - 0 1\nfen rnbqkbnr/pppppppp/8/8/8/P7/1PPPPPPP/RNBQKBNR b KQkq - 0 1'
expect 0 '' '"$pg" end "Nf3 Nf6 Ng1" | tail -n 1' 'fen rnbqkb1r/pppppppp/5n2/8/8/8/PPPPPPPP/RNBQKBNR b KQkq - 3 2'
expect 2 'pg: games are not UTF-8' 'printf "\xff" | "$pg" end -' ''
expect 2 'pg: line 1, ply 2: no such legal move' '"$pg" end "e4 e4"' ''
expect 4 'pg: write fault' '"$pg" end e4 >/dev/full' ''

# Problems of a file that are judged: bad lines are told and skipped.
row() { printf '%s\t' "${@:1:5}"; echo "$6"; }
apart=' at move 1 of White, with the same moves in another order' # the two games of that problem
parted="the first two part$apart"
orders_row=$(row orders 1.5 cooked - 'search, 63 nodes' '2 games: 1. d3 e6 2. e3; 1. e3 e6 2. d3; they part'"$apart")
array_row=$(row array 0.0 sound solves 'search, 0 nodes' -)
fails_row() { row array 0.0 sound "fails, $1" 'search, 0 nodes' -; }
# Games of a file whose name ends in .pgn are problems, by their tags.
printf '[Event "A queen"]\n[White "N. N."]\n\n1. e4 {best} d5 2. exd5 Qxd5 1-0\n\n*\n[White "A queen"]\n*\n' >"$work/two.pgn"
queen_rows=$(printf '%s\tsound\tsolves\t%s\n' $'A_queen\t2.0' "$recapture" $'game_2\t0.0' - $'A_queen_3\t0.0' -)
expect 0 '' '"$pg" judge ../two.pgn | cut -f 1-4,6' "$queen_rows"
expect 2 'pg: line 1: bad name' 'head -n 1 ../two.pgn | "$pg" judge -' ''
expect 2 'pg: line 1, column 12: game 1, ply 4: Dxd5 is not a move' '"$pg" judge ../german.pgn --hints' ''
expect 2 'pg: line 1, column 1: game 1: the tag FEN sets up a position' '"$pg" judge ../fen.pgn' ''
expect 4 'pg: cannot open ../none.pgn' '"$pg" judge ../none.pgn' ''
while IFS='|' read -r status list said printed; do
  printf -- "$list" >"$work/list"
  said=$(printf '%b' "${said:+pg: $said}")
  expect "$status" "$said" '"$pg" judge ../list' "$printed"
  expect "$status" "$said" '"$pg" judge - <../list' "$printed"
done <<END
0|||
0|# nothing\n\n \t\n||
0|array $array 0 -||$array_row
0|\tarray  $array\t0 -\r\n||$array_row
1|orders $orders 1.5\n||$orders_row
2|.array $array 0\n|line 1: bad name|
2|a/b $array 0\n|line 1: bad name|
2|array\n|line 1: a name, a diagram and a length are wanted|
2|array 8/8 0\n|line 1: bad rank|
2|array $array 0,5\n|line 1: bad length|
2|array $array 0 \xff\n|line 1: not UTF-8|
5|array $array 0 1. e4 e4\n|line 1: the author's game: ply 2: no such legal move|$(fails_row 'ply 2')
5|array $array 0 1. e4\n|line 1: the author's game: it does not have the stated length|$(fails_row '1 ply')
5|# 1\narray $array 0 e4 e5 - - *\n.|line 2: the author's game: ply 3: not a move\npg: line 3: bad name|$(fails_row 'ply 3')
2|array $array 0 -\narray $array 0 -\n|line 2: this name stands above|$array_row
END
# A byte order mark at the front is passed over. With --hints second lines say where a line is wrong and what is meant, as
# on a terminal, and at the end how many problems had which verdict, in which time.
printf '\xef\xbb\xbfarray %s 0 -' $array >"$work/list"
expect 0 '' '"$pg" judge ../list' "$array_row"
cat >"$work/list" <<END
Orbán $array 0
No.12: $array 0
queen;$array;2.0
My Queen $array 0
six $position 2.0
comma $array 2,0
$array 2.0
x 2.0 $array
x $array
x ${array/8/9} 2.0
array $array 0 -
b $array 0 1. e4 Dd5
c $array 1.0 1. e4
d $array 0.5 1. e4
$(printf 'x \xff 2')
END
expect 5 '' '"$pg" judge ../list --hints 2>&1 | sed "s/; [0-9]*[.][0-9] s\$//"; exit "${PIPESTATUS[0]}"' "pg: line 1: bad name
pg: line 1, column 4: 'á' (U+00E1) in the name; letters are a to z and A to Z
pg: line 2: bad name
pg: line 2, column 6: no ':' stands in a name: write No.12
pg: line 3: bad name
pg: line 3, column 6: write spaces or tabs for ';' between a name, a diagram and a length
pg: line 4: bad rank
pg: line 4, column 4: a name is one word: write My_Queen
pg: line 5: bad length
pg: line 5, column 49: the length stands behind the first field of the FEN: leave the others out
pg: line 6: bad length
pg: line 6, column 51: a length is in moves: write 2.0
pg: line 7: bad name
pg: line 7, column 1: a name stands before the diagram
pg: line 8: bad rank
pg: line 8, column 3: the diagram stands before the length
pg: line 9: a name, a diagram and a length are wanted
pg: line 9, column 3: a length stands behind the diagram, as 2.0 or 2.5
pg: line 10: bad rank
pg: line 10, column 3: rank 6 is 1 square wide, not 8
$array_row
pg: line 12: the author's game: ply 2: not a move
pg: line 12: the word is \"Dd5\"; men are K, Q, R, B and N, as in English
$(row b 0.0 sound 'fails, ply 2' 'search, 0 nodes' -)
pg: line 13: the author's game: it does not have the stated length
pg: line 13: it has 0.5 moves, 1.0 are wanted
$(row c 1.0 'not sound' 'fails, 1 ply' 'search, 0 nodes' 'a game of 0 plies: -')
pg: line 14: the author's game: it does not end on the diagram
pg: line 14: it ends on rnbqkbnr/pppppppp/8/8/4P3/8/PPPP1PPP/RNBQKBNR
pg: e2: empty there, white pawn on the diagram
pg: e4: white pawn there, empty on the diagram
$(row d 0.5 'not sound' 'fails, ends elsewhere' 'search, 0 nodes' 'a game of 0 plies: -')
pg: line 15: not UTF-8
pg: line 15: the first bad byte is byte 3
pg: 4 entries: 2 sound, 2 not sound; 3 authors' games fail; 11 lines are bad"
expect 2 $'pg: bad rank\npg: 2 ranks; a board has 8' '"$pg" show 8/8 --hints' ''
expect 2 $'pg: bad rank\npg: 2 ranks; a board has 8' '"$pg" --hints show 8/8' ''
expect 2 $'pg: a pawn stands on rank 1 or 8\npg: white pawn on d1' '"$pg" show ${array/Q/P} --hints' ''
expect 1 "pg: is the board upside down? turned it is $array" '"$pg" search RNBQKBNR/PPPPPPPP/8/8/8/8/pppppppp/rnbqkbnr 1.0 ../new.pgc --hints | tail -n 1; exit ${PIPESTATUS[0]}' 'no game'
expect 2 $'pg: bad rank\npg: the diagram stands before the length' '"$pg" games 2.0 $open games --hints' ''
expect 2 $'pg: games are not UTF-8\npg: it looks like a certificate; CERT stands before GAMES' '"$pg" check $queen 2.0 games good.pgc --hints' ''
expect 4 $'pg: cannot open e4 e5\npg: No such file or directory (os error 2)\npg: it looks like a game; a file with one game a line is wanted' \
  '"$pg" games $open 1.0 "e4 e5" --hints' ''
expect 1 $'pg: truncated certificate\npg: it looks like a list of games; `pg search` writes a certificate' '"$pg" answer games --hints' ''
expect 2 $'pg: line 1, ply 1: not a move\npg: the word is "games"; legal there: Na3, a3, a4\npg: a file has this name: say --games' \
  '"$pg" solve $queen 2.0 --game games --hints' ''
for row in 'e:d5|exd5' 'e4–d5|exd5' '♘f3|Nf3' 'Df3|Qf3' 'Cf3|Nf3' 'c4,|c4'; do
  expect 2 $'pg: line 1, ply 3: not a move\npg: the word is "'"${row%|*}"'"; write '"${row#*|}" '"$pg" why good.pgc "1. e4 d5 2. ${row%|*}" --hints' ''
done
printf '1. e4 d5\n2. exd5 Qxd5\n' >../wrapped
expect 2 $'pg: line 2, ply 1: no such legal move\npg: it goes on with the game of line 1; a game is one line' \
  '"$pg" games $queen 2.0 ../wrapped --hints' ''
expect 2 $'pg: bad rank\npg: rank 6 is 0 squares wide, not 8; an empty rank is 8' '"$pg" solve ${open/\/8\//\/\/} 2.0 --hints' ''
expect 2 $'pg: wrong number of fields\npg: fields: 4; a diagram has 1, a FEN 6: add 0 1' '"$pg" solve "$open w KQkq -" 2.0 --hints' ''
expect 2 $'pg: bad letter in the placement\npg: in English letters it is '$array '"$pg" solve tsldklst/bbbbbbbb/8/8/8/8/BBBBBBBB/TSLDKLST --hints' ''
for length in '?' 2.0-2.5; do
  expect 2 $'pg: bad length\npg: a length is in moves, as 2.0 or 2.5\npg: this finds the least that has a game: pg solve '$open \
    '"$pg" search $open "$length" new.pgc --hints' ''
done
expect 2 $'pg: bad number of minutes\npg: it is as 5, 0.5, 90s, 5m or 2h' '"$pg" solve $open 2.0 --minutes "5 m" --hints' ''
expect 2 'pg: a time is one word: as 5, 90s, 5m or 2h' '"$pg" solve $open 2.0 --minutes 5 m --hints 2>&1 | tail -n 1 >&2; exit ${PIPESTATUS[0]}' ''
expect 2 'pg: a game is one word in quotes, behind --game' '"$pg" solve $open 1.0 1. e4 e5 --hints 2>&1 | tail -n 1 >&2; exit ${PIPESTATUS[0]}' ''
expect 4 $'pg: cannot open /dev/null\npg: it is no plain file\npg: this writes no certificate: pg solve '"$queen 2.0" \
  '"$pg" search $queen 2.0 /dev/null --hints' ''

# A search that met a shorter game, or more games than it may, says with --hints which command shows them.
expect 1 $'pg: a game of 4 plies reaches the diagram\npg: this shows it: pg solve '"$queen 2.0" '"$pg" search $queen 3.0 new.pgc --hints' ''
pawns=rnbqkbnr/5ppp/ppppp3/8/8/PPPPP3/5PPP/RNBQKBNR # 14,400 games of five pawn moves of each side, in any order
expect 1 $'pg: more than 4096 games\npg: 207483 nodes, tree 5.0 of 5.0\npg: 4096 games known: not sound\npg: this shows two of them: pg solve '"$pawns 5.0" \
  '"$pg" search $pawns 5.0 new.pgc --hints' ''
expect 1 '' '"$pg" solve $pawns 5.0' "$(printf '%s\n' "diagram $pawns" 'length 5.0' 'games 2' '1. a3 a6 2. b3 b6 3. c3 c6 4. d3 d6 5. e3 e6' \
  '1. a3 a6 2. b3 b6 3. c3 c6 4. d3 e6 5. e3 d6' 'the first two part at move 4 of Black, with the same moves in another order' 'not sound')"
expect 2 "error: unexpected argument '-j' found

  tip: to pass '-j' as a value, use '-- -j'

Usage: pg_cli answer [OPTIONS] <CERT>

For more information, try '--help'.
pg: two hyphens stand before an option: --journeys" '"$pg" answer good.pgc -journeys --hints' ''

printf 'orders %s 1.5\n' $orders >"$work/list"
expect 1 '' '"$pg" judge ../list --nodes 0' "$(row orders 1.5 'not settled' - 'journeys, 0 nodes' '0 games met; limit reached')"
expect 4 'pg: cannot open none' '"$pg" judge none' ''
expect 4 'pg: cannot open .' '"$pg" judge .' ''
expect 4 'pg: read fault' '"$pg" judge - <&-' ''
expect 4 'pg: write fault' '"$pg" judge ../list >/dev/full' ''
for minutes in '' x 1. .5 1,5 -1 1e3; do expect 2 'pg: bad number of minutes' '"$pg" judge ../list --minutes='"'$minutes'" ''; done
expect 2 'pg: bad number of minutes' '"$pg" search $array 0 new.pgc --minutes=x' ''
expect 1 'pg: time limit reached' '"$pg" search $schweig 4.0 new.pgc --minutes 0' ''
expect 0 '' '"$pg" search $array 0 new.pgc --minutes 0.5 --nodes 1 >/dev/null; rm new.pgc' ''

# Certificates in a folder: one is put there, checked in place of a search, told where it is refused, and replaced.
mkdir "$work/proofs"
standing_row=$(row orders 1.5 cooked - 'certificate, 63 records' '2 games: 1. d3 e6 2. e3; 1. e3 e6 2. d3; they part'"$apart")
replaced_row=$(row orders 1.5 cooked - 'search, 63 nodes, old certificate refused' '2 games: 1. d3 e6 2. e3; 1. e3 e6 2. d3; they part'"$apart")
expect 1 '' '"$pg" judge ../list --certificates ../proofs' "$orders_row"
expect 1 '' '"$pg" judge ../list --certificates ../proofs --nodes 0' "$standing_row"
head -c -1 "$work/proofs/orders.pgc" >"$work/cut"
for wrong_one in "$work/cut" empty report; do
  cp "$wrong_one" "$work/proofs/orders.pgc"
  expect 1 '' '"$pg" judge ../list --certificates ../proofs --nodes 0' \
    "$(row orders 1.5 'not settled' - 'journeys, 0 nodes, old certificate refused' '0 games met; limit reached')"
  cmp -s "$wrong_one" "$work/proofs/orders.pgc" || { echo "a certificate that was not replaced has changed" >&2; wrong=1; }
  expect 1 '' '"$pg" judge ../list --certificates ../proofs' "$replaced_row"
  expect 1 '' '"$pg" judge ../list --certificates ../proofs' "$standing_row"
done
[ "$(ls -A "$work/proofs")" = orders.pgc ] || { echo "drafts are left" >&2; wrong=1; }

# One problem, told as a report: the games that settle it, two that do not, another one, a shorter one, or what is known.
report_of() { printf 'diagram %s\nlength %s\n' "$1" "$2"; printf '%s\n' "${@:3}"; }
for words in '$queen 2.0' '$queen' '$queen 2.0 --game "e4 d5 exd5 Qxd5"' '$queen --game "e4 d5 exd5 Qxd5"' \
  '$queen 2.0 --games games' '$queen --games - <games' '$queen 2.0 --all --minutes 1 --journeys'; do
  expect 0 '' "\"\$pg\" solve $words | cmp - report" ''
done
expect 0 '' '"$pg" solve $queen 2.0 --keep ../solved.pgc >/dev/null; "$pg" answer ../solved.pgc | cmp - report' ''
expect 1 '' '"$pg" solve $orders 1.5' "$(report_of $orders 1.5 'games 2' '1. d3 e6 2. e3' '1. e3 e6 2. d3' "$parted" 'not sound')"
expect 1 '' '"$pg" solve $orders 1.5 --all' "$(report_of $orders 1.5 'games 2' '1. d3 e6 2. e3' '1. e3 e6 2. d3' "$parted" cooked)"
expect 1 '' '"$pg" solve $orders 1.5 --game "e3 e6 d3"' \
  "$(report_of $orders 1.5 'games 1' '1. e3 e6 2. d3' 'another game' '1. d3 e6 2. e3' "it parts from the first$apart" 'not sound')"
expect 1 '' '"$pg" solve $queen 3.0' \
  "$(report_of $queen 3.0 'games 0' 'a game of 4 plies' '1. e4 d5 2. exd5 Qxd5' 'not sound')"
expect 1 '' '"$pg" solve $open 0.5' "$(report_of $open 0.5 'games 0' 'no game')"
expect 1 '' '"$pg" solve $orders 1.5 --nodes 0 --keep ../unsolved.pgc' \
  "$(report_of $orders 1.5 'games 0' 'not settled: 0 games met; limit reached')"
[ ! -e "$work/unsolved.pgc" ] || { echo "a problem that is not settled leaves a certificate" >&2; wrong=1; }
expect 4 'pg: write fault' '"$pg" solve $queen 2.0 >/dev/full' ''
expect 2 'pg: bad number of minutes' '"$pg" solve $queen 2.0 --minutes=x' ''

# What lists show by themselves, and what is found beside them.
while IFS='|' read -r status words list said printed; do
  printf -- "$list" >"$work/list"
  expect "$status" "${said:+pg: $said}" "\"\$pg\" $words" "$(printf -- "$printed")"
done <<END
0|games $open 1.0 ../list|1. e4 e5||diagram $open\nlength 1.0\ngames 1\n1. e4 e5\nat least one game
0|games $open 1.0 <../list|||diagram $open\nlength 1.0\ngames 0\nno game given
1|games $orders 1.5 ../list|1. e3 e6 2. d3\n1. d3 e6 2. e3||diagram $orders\nlength 1.5\ngames 2\n1. d3 e6 2. e3\n1. e3 e6 2. d3\nnot sound
1|games $open 1.0 ../list|1. e4 e6|game 1 does not end on the diagram|
2|games $open 1. ../list|1. e4 e6|bad length|
2|games $open 1.0 ../list|\xff|games are not UTF-8|
4|games $open 1.0 none||cannot open none|
1|cooks $orders 1.5 ../list|1. e3 e6 2. d3||diagram $orders\nlength 1.5\ngames 1\n1. e3 e6 2. d3\nanother game\n1. d3 e6 2. e3\nit parts from the first$apart\nnot sound
0|cooks $orders 1.5 ../list --nodes 0|1. e3 e6 2. d3||diagram $orders\nlength 1.5\ngames 1\n1. e3 e6 2. d3\nnone found: node limit reached
0|cooks $first 0.5 ../list|1. e4||diagram $first\nlength 0.5\ngames 1\n1. e4\nnone: the search went through all games
1|cooks $orders 1.5 ../list|1. e3 e6 2. d3\n1. d3 e6 2. e3||diagram $orders\nlength 1.5\ngames 2\n1. d3 e6 2. e3\n1. e3 e6 2. d3\nnone: the search went through all games\nnot sound
1|cooks $open 1.0 ../list|1. e4|game 1 does not have the stated length|
2|cooks $open 1.0 ../list|\n|no game to go by|
2|cooks $open 1.0 ../list|1. e4 e4|line 1, ply 2: no such legal move|
4|cooks $open 1.0 none||cannot open none|
END

# Lines that are explained by such certificates.
{ header "$open" 2; ones 21; } >"$work/cut.pgc"
{ header "$open" 2; ones 23; } >"$work/long.pgc"
{ header "$open" 2; printf '\1\3\0\0\0\0'; } >"$work/reference.pgc"
open_line='at the start: 1 of 20 moves leads on; cut 19 by travel; 1 game below
after 1. e4: 1 of 20 moves ends on the diagram
the certificate is right'
expect 0 '' '"$pg" why ../open.pgc "1. e4" --records 22' "$open_line"
expect 1 'pg: reference to no closed node' '"$pg" why ../reference.pgc - --records 22' ''
expect 1 'pg: truncated certificate' '"$pg" why ../cut.pgc - --records 22' ''
expect 1 'pg: bytes after the certificate' '"$pg" why ../long.pgc - --records 22' ''
expect 2 'pg: not one line of moves' '"$pg" why ../open.pgc "" --records 22' ''
expect 2 'pg: line 1, ply 1: no such legal move' '"$pg" why ../open.pgc e5 --records 22' ''
expect 2 'pg: line 1, ply 1: not a move' '"$pg" why ../open.pgc "- e4" --records 22' ''

# More games than a list holds, of five pawn moves of each side in any order. What stands behind them is judged too, where a cut is wrong.
five=rnbqkbnr/5ppp/ppppp3/8/8/PPPPP3/5PPP/RNBQKBNR
{ header "$five" 10; python3 "$top/bench/many-games.py"; } >"$work/five.pgc"
for command in 'why ../five.pgc -' 'page ../five.pgc' 'answer ../five.pgc'; do
  expect 1 'pg: cut 4 does not exclude' "\"\$pg\" $command" ''
done
expect 1 'pg: unlisted game: 1. a3 a6 2. b3 b6 3. c3 c6 4. d3 d6 5. e3 e6' '"$pg" check $five 5.0 ../five.pgc /dev/null' ''

# Pages of such certificates: whole, or not begun.
whole=$'<!DOCTYPE html>\n</html>'
expect 0 '' '"$pg" page ../open.pgc --records 22 | sed -n "1p;\$p"' "$whole"
expect 0 '' '"$pg" page ../open.pgc --nodes 0 | sed -n "1p;\$p"' "$whole"
expect 0 '' '"$pg" page ../short.pgc | grep -c "No game.</strong> No game of 0.5 moves"' 1
expect 1 'pg: record limit reached' '"$pg" page ../open.pgc --records 21' ''
expect 1 'pg: reference to no closed node' '"$pg" page ../reference.pgc' ''
expect 1 'pg: truncated certificate' '"$pg" page ../cut.pgc' ''
expect 1 'pg: truncated certificate' '"$pg" page empty' ''
expect 1 'pg: not a certificate' '"$pg" page report' ''
expect 1 'pg: bytes after the certificate' '"$pg" page ../long.pgc' ''

# What is known of a diagram at once.
expect 2 'pg: bad length' '"$pg" show $array 1.2' ''
expect 2 'pg: bad rank' '"$pg" show 8/8 1.2' ''

# Copies, and what is not copied.
{ header "$array" 4; printf '\1\5\2\1\3\1\1\1\1\2\4\1'; } >"$work/old.pgc"
expect 0 '' '"$pg" upgrade ../old.pgc ../two --records 6 && head -c 4 ../two && tail -c +5 ../two | cmp - <(tail -c +5 ../old.pgc)' \
  $'records 6\nPGC2'
while IFS='|' read -r records limit said; do
  { header "$array" 4; printf "$records"; } >"$work/old.pgc"
  expect 1 "pg: $said" '"$pg" upgrade ../old.pgc new.pgc --records '"$limit" ''
done <<'END'
\1\2\4|1|record limit reached
\1\2|9|truncated certificate
\1\6|9|unknown record byte 6
END
echo 'not a certificate, though it is long enough' >"$work/old.pgc"
expect 1 'pg: not a certificate of version 1' '"$pg" upgrade ../old.pgc new.pgc' ''

# Searches that find the array at once, in the place of another file, and searches that give up.
echo old >"$work/found.pgc"
expect 0 '' '"$pg" search $array 0 ../found.pgc && wc -c <../found.pgc' "${reports[array]}"$'\n37'
expect 4 'pg: cannot open ../found.pgc' '"$pg" check $array 0.0 ../found.pgc ../found.pgc' ''
expect 1 'pg: unlisted game: -' '"$pg" check $array 0.0 ../found.pgc /dev/null' ''
echo - >"$work/list"
expect 1 'pg: truncated certificate' '"$pg" check $array 0 empty ../list' ''
while IFS='|' read -r status diagram length nodes said; do
  for name in good.pgc new.pgc; do
    expect "$status" "pg: $said" "\"\$pg\" search $diagram $length $name --nodes=$nodes" ''
  done
done <<END
1|$open|1.0|0|node limit reached
1|$array|1.0|1000|a game of 0 plies reaches the diagram
1|$array|2.0|1000|a game of 0 plies reaches the diagram
1|$first|1.0|1000|a game of 1 plies reaches the diagram
2|8/8|1.0|1000|bad rank
2|$array|64.5|1000|length above 64.0
2|$array|''|1000|bad length
END

# Streams that are closed or full.
expect 4 'pg: read fault' '"$pg" check $queen 2.0 games <&-'
expect 4 'pg: read fault' '"$pg" check $queen 2.0 good.pgc <&-'
expect 4 'pg: read fault' '"$pg" check $queen 2.0 good.pgc <.'
for folder in 'check $queen 2.0 . games' 'check $queen 2.0 good.pgc .' 'games $queen 2.0 .' 'cooks $queen 2.0 .' 'upgrade . new.pgc'; do
  expect 4 'pg: cannot open .' "\"\$pg\" $folder"
done
expect 4 'pg: cannot open .' '"$pg" answer .'
expect 0 '' 'cat good.pgc | "$pg" answer /dev/stdin | cmp - report'
expect 4 'pg: cannot open .' '"$pg" why . -'
expect 0 '' 'cat good.pgc | "$pg" why /dev/stdin - | tail -n 1' 'the certificate is right'
expect 4 'pg: cannot open .' '"$pg" page .'
expect 4 'pg: cannot open .' '"$pg" page good.pgc --out .' ''
expect 4 'pg: cannot open -' '"$pg" page good.pgc --out -' ''
expect 4 'pg: cannot open good.pgc' '"$pg" page good.pgc --out good.pgc' ''
expect 0 '' '"$pg" page good.pgc --out ../out.html --title "<i>" --author "&"' ''
expect 0 '' '"$pg" page good.pgc --title "<i>" --author "&" | cmp - ../out.html' ''
expect 0 '' 'grep -c "<h1>&lt;i&gt; by &amp;</h1>" ../out.html' 1
expect 1 'pg: truncated certificate' '"$pg" page ../cut.pgc --out ../out.html' ''
expect 0 '' 'grep -c "<h1>&lt;i&gt; by &amp;</h1>" ../out.html' 1
expect 0 '' 'cat good.pgc | "$pg" page /dev/stdin | cmp - <("$pg" page good.pgc)'
for full in '>&-' '>/dev/full'; do
  expect 4 'pg: write fault' '"$pg" moves "$position" '"$full"
  expect 4 'pg: write fault' '"$pg" count "$position" 2 '"$full"
  expect 4 'pg: write fault' '"$pg" check $queen 2.0 good.pgc games '"$full"
  expect 4 'pg: write fault' '"$pg" answer good.pgc '"$full"
  expect 4 'pg: write fault' '"$pg" search $queen 2.0 good.pgc '"$full"
  expect 4 'pg: write fault' '"$pg" why good.pgc - '"$full"
  expect 4 'pg: write fault' '"$pg" page good.pgc '"$full"
  expect 4 'pg: write fault' '"$pg" upgrade old.pgc new.pgc '"$full"
  expect 4 'pg: write fault' '"$pg" --help '"$full"
done
expect 1 '' '"$pg" search $queen 2.0 good.pgc --nodes 3 2>&-'
expect 1 '' '"$pg" search $queen 2.0 new.pgc --nodes 3 <&- >&- 2>&-'
expect 0 '' '"$pg" check $queen 2.0 good.pgc games <&- 2>&- | cmp - report'
expect 0 '' '"$pg" answer good.pgc <&- 2>&- | cmp - report'
expect 0 '' '"$pg" page good.pgc <&- 2>&- | cmp - <("$pg" page good.pgc)'

# Standard input by its name.
expect 0 '' 'cat games | "$pg" check $queen 2.0 good.pgc - | cmp - report'
expect 0 '' 'cat good.pgc | "$pg" check $queen 2.0 - games | cmp - report'
expect 0 '' '"$pg" check $queen 2.0 - games <good.pgc | cmp - report'
expect 0 '' 'cat games | "$pg" games $queen 2.0 - | tail -n 1' 'at least one game'
expect 0 '' '"$pg" cooks $queen 2.0 - --nodes 0 <games | tail -n 1' 'none found: node limit reached'
expect 0 '' 'cat old.pgc | "$pg" upgrade - ../two' 'records 0'
expect 0 '' '"$pg" why - - <good.pgc | tail -n 1' 'the certificate is right'
for both in 'check $queen 2.0 - - <good.pgc' 'check $queen 2.0 - <good.pgc' 'check $queen 2.0 - games <games' 'check $queen 2.0 games - <games'; do
  said=-
  [ "${both#*0 games}" = "$both" ] || said=games
  expect 4 "pg: cannot open $said" "\"\$pg\" $both"
done
expect 0 '' 'cat good.pgc | "$pg" answer - | cmp - report'
expect 0 '' 'cat good.pgc | "$pg" why - - | tail -n 1' 'the certificate is right'
expect 0 '' 'cat good.pgc | "$pg" page - | cmp - <("$pg" page good.pgc)'
expect 4 'pg: read fault' '"$pg" answer - <&-'
expect 4 'pg: cannot open -' '"$pg" search $queen 2.0 new.pgc --games -' ''
expect 4 'pg: read fault' '"$pg" check $queen 2.0 good.pgc - <&-'

# Pipes that never end. A certificate is a header, and then bytes for ever.
expect 4 'pg: read fault' 'yes "" | "$pg" check $queen 2.0 good.pgc'
expect 2 'pg: games are not UTF-8' 'head -c 16777216 /dev/zero | tr "\0" "\377" | "$pg" check $queen 2.0 good.pgc'
expect 4 'pg: read fault' 'head -c 16777217 /dev/zero | tr "\0" "\n" | "$pg" check $queen 2.0 good.pgc'
expect 1 'pg: unlisted game: 1. e4 d5 2. exd5 Qxd5' 'head -c 16777216 /dev/zero | tr "\0" "\n" | "$pg" check $queen 2.0 good.pgc'
endless() { head -c 37 "$1"; yes x | tr -d '\n' | tr x "$2"; }
expect 1 'pg: record limit reached' '"$pg" check $queen 2.0 <(endless good.pgc "\1") games --records 1000'
expect 1 'pg: record limit reached' '"$pg" check $unreachable 64.0 <(endless long.pgc "\1") empty --records 1000'
expect 1 'pg: record limit reached' '"$pg" check $unreachable 64.0 <(endless long.pgc "\5") empty --records 1000'
expect 1 'pg: too many named nodes' '"$pg" check $unreachable 64.0 <(endless long.pgc "\5") empty'
expect 1 'pg: unknown record byte 6' '"$pg" check $unreachable 64.0 <(endless long.pgc "\6") empty'
expect 1 'pg: bytes after the certificate' '"$pg" check $queen 2.0 <(cat good.pgc; endless good.pgc "\1") games'
expect 1 'pg: bytes after the certificate' '"$pg" check $first 0.5 <(header $first 1; yes x | tr -d "\n" | tr x "\1") <(echo e4)'
expect 1 'pg: record limit reached' '"$pg" answer <(endless long.pgc "\1") --records 1000'
expect 1 'pg: record limit reached' '"$pg" upgrade <(endless old.pgc "\1") new.pgc --records 1000'

# Files that are not to be written, and one that is two at once.
mkfifo "$work/fifo"
ln -s nothing "$work/dead"
for name in - /dev/stdout /dev/null /dev/full . / "$work/fifo" "$work/dead" none/new.pgc none/; do
  expect 4 "pg: cannot open $name" '"$pg" search $queen 2.0 '"$name"
  expect 4 "pg: cannot open $name" '"$pg" upgrade old.pgc '"$name"
done
expect 4 'pg: cannot open good.pgc' '"$pg" search $queen 2.0 good.pgc >>good.pgc'
expect 4 'pg: cannot open /dev/stdout' '"$pg" search $queen 2.0 /dev/stdout >>good.pgc'
expect 4 'pg: cannot open ./old.pgc' '"$pg" upgrade old.pgc ./old.pgc'
expect 4 'pg: cannot open good.pgc' '"$pg" check $queen 2.0 good.pgc good.pgc'
expect 4 'pg: cannot open none' '"$pg" check $queen 2.0 none games'
expect 4 'pg: cannot open none' '"$pg" check $queen 2.0 good.pgc none'
expect 4 'pg: cannot open none' '"$pg" upgrade none new.pgc'
expect 4 'pg: cannot open none' '"$pg" upgrade none old.pgc'
expect 4 'pg: cannot open none' '"$pg" answer none'
expect 0 '' '"$pg" answer "$work/fifo" < <(cat good.pgc >"$work/fifo") | cmp - report'
expect 4 'pg: cannot open none' '"$pg" why none -'
expect 1 'pg: not a certificate' '"$pg" why <(yes) -'
expect 4 'pg: cannot open none' '"$pg" page none'
expect 1 'pg: truncated certificate' '"$pg" page <(head -c 36 good.pgc)'

# Drafts that killed runs have left: the next number is taken, and with a thousand of them there is no search. Rights are kept, and no
# setuid or setgid bit. A name of 255 bytes has a draft too.
mkdir "$work/drafts"
echo old >"$work/drafts/c.pgc" && chmod 6751 "$work/drafts/c.pgc" && echo left >"$work/drafts/.c.pgc.pg-part-0"
expect 0 '' '"$pg" search $array 0 ../drafts/c.pgc >/dev/null; stat -c %a ../drafts/c.pgc; cat ../drafts/.c.pgc.pg-part-0' $'751\nleft'
(cd "$work/drafts" && seq -f '.c.pgc.pg-part-%g' 0 999 | xargs touch)
expect 4 'pg: cannot open ../drafts/c.pgc' '"$pg" search $array 0 ../drafts/c.pgc'
long=$(printf '%0255d' 0)
expect 0 '' '"$pg" search $array 0 ../drafts/$long >/dev/null; wc -c <../drafts/$long' 37

# Runs that end without an answer, a certificate that may not grow so long, and a full disk: files may not grow past
# 1,024 bytes.
expect 1 'pg: node limit reached' '"$pg" search $queen 2.0 good.pgc --nodes 3'
size=$(stat -c %s good.pgc)
expect 0 '' '"$pg" search $queen 2.0 good.pgc --bytes $size | cmp - report' ''
for bytes in 0 36 37 100 $((size - 1)); do
  expect 1 'pg: certificate limit reached' '"$pg" search $queen 2.0 good.pgc --bytes $bytes' ''
  expect 1 'pg: certificate limit reached' '"$pg" search $queen 2.0 new.pgc --bytes $bytes' ''
done
expect 1 'pg: certificate limit reached' '"$pg" search $schweig 4.0 new.pgc --journeys --bytes 5000' ''
expect 1 'pg: a game of 4 plies reaches the diagram' '"$pg" search $queen 3.0 good.pgc'
# The games that a search met are kept: by one that gives up, by one that has a report, and nowhere else.
expect 1 'pg: node limit reached' '"$pg" search $cooked 3.5 new.pgc --nodes 8.312k --games ../met' ''
expect 1 '' '"$pg" games $cooked 3.5 ../met | tail -n 1; exit "${PIPESTATUS[0]}"' 'not sound'
expect 0 '' '"$pg" search $queen 2.0 ../new.pgc --games ../kept | cmp - report && cmp ../kept games' ''
expect 4 'pg: write fault' '"$pg" search $queen 2.0 new.pgc --games games >/dev/full' ''
# A list stays where no game was met, with no draft beside it; and neither draft stands at the place of the other file.
mkdir "$work/apart" && echo mine >"$work/apart/mine"
expect 1 'pg: node limit reached' '"$pg" search $queen 2.0 ../apart/c --games ../apart/mine --nodes 3' ''
expect 0 '' 'cat ../apart/mine; ls -A ../apart' $'mine\nmine'
expect 0 '' '"$pg" search $queen 2.0 ../apart/.G.pg-part-0 --games ../apart/G | cmp - report && cmp ../apart/G games' ''
expect 0 '' '"$pg" search $queen 2.0 ../apart/G --games ../apart/.G.pg-part-0 | cmp - report && cmp ../apart/G good.pgc' ''
expect 0 '' 'cmp ../apart/.G.pg-part-0 games; ls -A ../apart' $'.G.pg-part-0\nG\nmine'
expect 4 'pg: cannot open new.pgc' '"$pg" search $queen 2.0 new.pgc --games new.pgc' ''
expect 4 'pg: cannot open no/list' '"$pg" search $queen 2.0 new.pgc --games no/list' ''
expect 4 'pg: write fault' 'trap "" XFSZ; ulimit -f 1; "$pg" search $schweig 4.0 good.pgc'
expect 4 'pg: write fault' 'trap "" XFSZ; ulimit -f 1; "$pg" page good.pgc >../page.html'
expect 1 'pg: not a certificate of version 1' '"$pg" upgrade old.pgc ../two >/dev/null; "$pg" upgrade ../two good.pgc'
{ header "$array" 4; ones 2000; } >"$work/old.pgc"
expect 4 'pg: write fault' 'trap "" XFSZ; ulimit -f 1; "$pg" upgrade ../old.pgc new.pgc'

# Cuts by journeys are written, and taken by `check`, where the words say so, and always by the others; without such cuts the word
# changes nothing.
echo '1. Nc3 d6 2. Nd5 Nd7 3. Nxe7 Ndf6 4. Nxg8 Nxg8' >"$work/knights"
expect 0 '' '"$pg" search $schweig 4.0 ../journeys.pgc --journeys | tail -n 1' sound
expect 0 '' '"$pg" check $schweig 4.0 ../journeys.pgc ../knights --journeys | tail -n 1' sound
expect 0 '' '"$pg" answer ../journeys.pgc --journeys | tail -n 1' sound
expect 0 '' '"$pg" page ../journeys.pgc --journeys | tail -n 1' '</html>'
expect 0 '' '"$pg" why ../journeys.pgc - --journeys | tail -n 1' 'the certificate is right'
expect 1 'pg: unknown bound 5' '"$pg" check $schweig 4.0 ../journeys.pgc ../knights' ''
expect 0 '' '"$pg" answer ../journeys.pgc | cmp - <("$pg" answer ../journeys.pgc --journeys)' ''
expect 0 '' '"$pg" page ../journeys.pgc | cmp - <("$pg" page ../journeys.pgc --journeys)' ''
expect 0 '' '"$pg" why ../journeys.pgc - | cmp - <("$pg" why ../journeys.pgc - --journeys)' ''
expect 0 '' '"$pg" check $queen 2.0 good.pgc games --journeys | cmp - report'
expect 0 '' '"$pg" answer good.pgc --journeys | cmp - report'

# A file with tariffs is written where the words say `--tolls`. `check` reads it by that word, the others without one; what is
# wrong with the tariffs is told before anything else.
knights_game=$(cat "$work/knights")
expect 0 '' '"$pg" search $schweig 4.0 ../tolls.pgc --tolls | tail -n 1' sound
expect 0 '' 'head -c 4 ../tolls.pgc' PGT1
expect 0 '' '"$pg" check $schweig 4.0 ../tolls.pgc ../knights --tolls | tail -n 1' sound
expect 1 'pg: not a certificate' '"$pg" check $schweig 4.0 ../tolls.pgc ../knights' ''
expect 1 'pg: not a certificate' '"$pg" check $schweig 4.0 ../tolls.pgc ../knights --journeys' ''
expect 1 'pg: not a certificate of version 1' '"$pg" upgrade ../tolls.pgc new.pgc' ''
expect 0 '' '"$pg" answer ../tolls.pgc | tail -n 1' sound
expect 0 '' '"$pg" page ../tolls.pgc | tail -n 1' '</html>'
expect 0 '' '"$pg" why ../tolls.pgc - | tail -n 1' 'the certificate is right'
expect 0 '' 'cat ../tolls.pgc | "$pg" answer - | cmp - <("$pg" answer ../tolls.pgc)'
expect 0 '' 'cat ../tolls.pgc | "$pg" page /dev/stdin | cmp - <("$pg" page ../tolls.pgc)'
expect 0 '' '"$pg" why - "1. Nc3" <../tolls.pgc | tail -n 1' 'the certificate is right'
expect 0 '' 'cat ../tolls.pgc | "$pg" check $schweig 4.0 - ../knights --tolls | tail -n 1' sound
expect 0 '' '"$pg" check $schweig 4.0 ../tolls.pgc --tolls <../knights | tail -n 1' sound
expect 4 'pg: cannot open -' '"$pg" check $schweig 4.0 - - --tolls <../tolls.pgc' ''
expect 4 'pg: cannot open -' '"$pg" check $schweig 4.0 - --tolls <../tolls.pgc' ''
expect 4 'pg: cannot open ../tolls.pgc' '"$pg" check $schweig 4.0 ../tolls.pgc ../tolls.pgc --tolls' ''
expect 1 'pg: certificate for another length' '"$pg" check $schweig 4.5 ../tolls.pgc empty --tolls' ''
expect 1 "pg: unlisted game: $knights_game" '"$pg" check $schweig 4.0 ../tolls.pgc empty --tolls' ''
expect 1 'pg: record limit reached' '"$pg" answer ../tolls.pgc --records 10' ''

# So much of it that no tariff is whole, no tariff or one too many, the certificate cut off or with a byte behind it; bytes that begin
# almost so; two tariffs; and tariffs before another certificate.
while IFS='|' read -r said made; do
  (eval "$made") >"$work/odd.pgc"
  for command in 'answer ../odd.pgc' 'why ../odd.pgc -' 'page ../odd.pgc' 'check 8/8 64.5 ../odd.pgc empty --tolls'; do
    [[ "$said" == tariffs:* || "$command" != check* ]] || command='check $schweig 4.0 ../odd.pgc ../knights --tolls'
    expect 1 "pg: $said" "\"\$pg\" $command" ''
  done
done <<'END'
tariffs: the file is cut off|head -c 4 ../tolls.pgc
tariffs: the file is cut off|head -c 5 ../tolls.pgc
tariffs: the file is cut off|head -c 50 ../tolls.pgc
tariffs: the file is cut off|printf 'PGT1\372'; tail -c +6 ../tolls.pgc
tariffs: their number is not 1 to 250|printf 'PGT1\0'; tail -c +6 ../tolls.pgc
tariffs: their number is not 1 to 250|printf 'PGT1\373'; head -c 40000 /dev/zero
truncated certificate|head -c 3 ../tolls.pgc
truncated certificate|head -c 135 ../tolls.pgc
truncated certificate|head -c -1 ../tolls.pgc
bytes after the certificate|cat ../tolls.pgc; printf x
not a certificate|printf PGT2; tail -c +5 ../tolls.pgc
not a certificate|head -c 135 ../tolls.pgc; cat ../tolls.pgc
END
{ printf 'PGT1\2'; tail -c +6 ../tolls.pgc | head -c 130; tail -c +6 ../tolls.pgc; } >"$work/two.pgc"
expect 0 '' '"$pg" answer ../two.pgc | cmp - <("$pg" answer ../tolls.pgc)'
{ head -c 135 ../tolls.pgc; cat ../open.pgc; } >"$work/before.pgc"
expect 0 '' '"$pg" answer ../before.pgc --records 22' "${reports[sound]}"
expect 4 'pg: read fault' '"$pg" check $schweig 4.0 - ../knights --tolls <&-' ''
expect 4 'pg: cannot open .' '"$pg" check $schweig 4.0 . ../knights --tolls' ''

# A certificate alone is read as ever: with `--tolls` by journeys too. What stands behind tariffs is one.
expect 0 '' '"$pg" check $queen 2.0 good.pgc games --tolls | cmp - report'
expect 0 '' '"$pg" check $schweig 4.0 ../journeys.pgc ../knights --tolls | tail -n 1' sound
expect 1 'pg: not a certificate' '"$pg" check $queen 2.0 report games --tolls' ''
expect 1 'pg: truncated certificate' '"$pg" check $queen 2.0 empty games --tolls' ''
tail -c +136 ../tolls.pgc >"$work/behind.pgc"
expect 0 '' '"$pg" answer ../behind.pgc --journeys | tail -n 1' sound

# Without journeys; the word alone changes nothing, and `--journeys` is stronger. Here tariffs are found that cut.
paid=Rnb1kbnr/p1p1pppp/8/3p4/8/8/1PPPPP2/RNBQ1KNR
expect 0 '' '"$pg" search $schweig 4.0 ../without.pgc --tolls --no-journeys | tail -n 1' sound
expect 0 '' '"$pg" answer ../without.pgc | tail -n 1' sound
expect 0 '' '"$pg" search $schweig 4.0 ../again.pgc --tolls --journeys --no-journeys | tail -n 1; cmp ../again.pgc ../tolls.pgc' sound
expect 0 '' '"$pg" search $queen 2.0 ../again.pgc --no-journeys | cmp - report && cmp ../again.pgc good.pgc'
expect 0 '' '"$pg" search $schweig 4.0 ../again.pgc --journeys --no-journeys | tail -n 1; cmp ../again.pgc ../journeys.pgc' sound
expect 0 '' '"$pg" search $paid 5.5 ../paid.pgc --tolls --no-journeys >../paid' ''
expect 0 '' '"$pg" answer ../paid.pgc >../again; status=$?; cmp ../again ../paid && exit $status' ''
tail -c +266 ../paid.pgc >"$work/behind.pgc"
{ printf 'PGT1\1'; tail -c +6 ../paid.pgc | head -c 130; cat ../behind.pgc; } >"$work/one.pgc"
{ head -c 135 ../paid.pgc; head -c 130 /dev/zero; cat ../behind.pgc; } >"$work/nil.pgc"
expect 0 '' 'head -c 5 ../paid.pgc' $'PGT1\2'
expect 1 'pg: unknown bound 7' '"$pg" answer ../behind.pgc --journeys' ''
expect 1 'pg: unknown bound 7' '"$pg" answer ../one.pgc' ''
expect 1 'pg: cut 7 does not exclude' '"$pg" answer ../nil.pgc' ''

# Searches by tariffs that give up, each with its limits, and what they leave. A place that cannot be written is told first.
size=$(stat -c %s ../tolls.pgc)
expect 0 '' '"$pg" search $schweig 4.0 ../again.pgc --tolls --bytes $size | tail -n 1; cmp ../again.pgc ../tolls.pgc' sound
for bytes in 0 4 100 135 140 171 172 $((size - 1)); do
  expect 1 'pg: certificate limit reached' '"$pg" search $schweig 4.0 new.pgc --tolls --bytes $bytes' ''
done
expect 1 'pg: node limit reached' '"$pg" search $schweig 4.0 good.pgc --tolls --nodes 0' ''
expect 1 'pg: time limit reached' '"$pg" search $stalemate 9.5 new.pgc --tolls --minutes 0' ''
expect 1 'pg: a game of 4 plies reaches the diagram' '"$pg" search $queen 3.0 good.pgc --tolls' ''
expect 0 '' '"$pg" search $schweig 4.0 ../again.pgc --tolls --games ../kept >/dev/null && cmp ../kept ../knights' ''
expect 4 'pg: write fault' '"$pg" search $queen 2.0 good.pgc --tolls >/dev/full'
expect 4 'pg: write fault' 'trap "" XFSZ; ulimit -f 1; "$pg" search $schweig 4.0 good.pgc --tolls'
for name in - . none/new.pgc; do
  expect 4 "pg: cannot open $name" "timeout 60 \"\$pg\" search \$stalemate 9.5 $name --tolls --nodes 3000000000" ''
done
expect 4 'pg: cannot open none/list' 'timeout 60 "$pg" search $stalemate 9.5 new.pgc --games none/list --tolls --nodes 3000000000' ''
expect 2 'pg: bad rank' '"$pg" search 8/8 9.5 new.pgc --tolls' ''

# A file with tariffs in the folder of judged problems is checked by them; one that is spoiled is as a refused certificate.
mkdir "$work/proofs/tolls"
echo "schweig $schweig 4.0" >"$work/list"
cp ../tolls.pgc "$work/proofs/tolls/schweig.pgc"
expect 0 '' '"$pg" judge ../list --certificates ../proofs/tolls --nodes 0' \
  "$(row schweig 4.0 sound - 'certificate, 3033 records' "$knights_game")"
echo "paid $paid 5.5" >"$work/paid.list"
cp ../paid.pgc "$work/proofs/tolls/paid.pgc"
expect 0 '' '"$pg" judge ../paid.list --certificates ../proofs/tolls --nodes 0 | cut -f 1-3; exit "${PIPESTATUS[0]}"' $'paid\t5.5\tsound'
for spoiled in 'head -c 50 ../tolls.pgc' 'printf "PGT1\0"; tail -c +6 ../tolls.pgc' 'cat ../tolls.pgc; printf x'; do
  (eval "$spoiled") >"$work/proofs/tolls/schweig.pgc"
  expect 1 '' '"$pg" judge ../list --certificates ../proofs/tolls --nodes 0' \
    "$(row schweig 4.0 'not settled' - 'journeys, 0 nodes, old certificate refused' '0 games met; limit reached')"
done

# With the words behind $1 `pg` ends with the status $1 and prints something; and with the least stack that the README
# names it ends so too, and prints and says the same. The environment stands on the stack as well, so there is none.
small() {
  local status
  "$pg" "${@:2}" >"$work/ample" 2>"$work/ample-said" </dev/null
  status=$?
  [ "$status" = "$1" ] && [ -s "$work/ample" ] ||
    { echo "pg ${*:2}: status $status for $1, or nothing printed" >&2; wrong=1; }
  (ulimit -s 400; env -i "$pg" "${@:2}" >"$work/out" 2>"$work/err" </dev/null)
  [ "$?" = "$1" ] && cmp -s "$work/ample" "$work/out" && cmp -s "$work/ample-said" "$work/err" ||
    { echo "pg ${*:2}: another end with 400 KB of stack" >&2; head -n 3 "$work/out" "$work/err" >&2; wrong=1; }
}
four=rnbqkbnr/4pppp/pppp4/8/8/PPPP4/4PPPP/RNBQKBNR # 576 games of four pawn moves of each side, in any order
"$pg" search "$four" 4.0 ../four.pgc >../four
sed '1,3d;$d' ../four >../four.games
[ "$(wc -lc <../four.games | xargs)" = '576 20736' ] && [ "$(sed -n '3p;$p' ../four)" = $'games 576\ncooked' ] ||
  { echo "not the 576 games of four pawn moves of each side" >&2; wrong=1; }
mapfile -t twelve <"$top/examples/twelve-moves/problem"
mapfile -t fifteen <"$top/examples/two-knights/problem"
twelve_proof=$top/examples/twelve-moves/certificate.pgc fifteen_proof=$top/examples/two-knights/certificate.pgc
fifteen_game=$(sed -n 4p "$top/examples/two-knights/report")
printf '%s\n' "twelve ${twelve[*]}" "fifteen ${fifteen[*]} $fifteen_game" "four $four 4.0 $(head -n 1 ../four.games)" \
  "none $unreachable 64.0" "hard $stalemate 9.5" >../large
mkdir ../proofs/large
cp "$twelve_proof" ../proofs/large/twelve.pgc
cp "$fifteen_proof" ../proofs/large/fifteen.pgc
"$pg" judge ../large --nodes 100000 --certificates ../proofs/large >/dev/null
small 1 search "$four" 4.0 ../again --games ../met
expect 0 '' 'cmp ../again ../four.pgc && cmp ../met ../four.games' ''
small 0 search "$schweig" 4.0 ../again --journeys
expect 0 '' 'cmp ../again ../journeys.pgc' ''
small 0 search "$schweig" 4.0 ../again --tolls
expect 0 '' 'cmp ../again ../tolls.pgc' ''
small 0 search "$paid" 5.5 ../again --tolls --no-journeys
expect 0 '' 'cmp ../again ../paid.pgc' ''
small 1 search "$unreachable" 64.0 ../again
small 0 check "${twelve[@]}" "$twelve_proof" "$top/examples/twelve-moves/games"
small 0 check "${fifteen[@]}" "$fifteen_proof" "$top/examples/two-knights/games" --journeys
small 0 check "$schweig" 4.0 ../tolls.pgc ../knights --tolls
small 1 check "$four" 4.0 ../four.pgc ../four.games
small 0 answer "$twelve_proof"
small 0 answer "$fifteen_proof" --journeys
small 0 answer ../paid.pgc
small 1 answer ../four.pgc
small 0 page "$twelve_proof"
small 0 page "$fifteen_proof" --journeys --nodes 100000
small 0 page ../four.pgc
small 0 page ../paid.pgc
small 0 page ../again
small 0 why "$fifteen_proof" "$fifteen_game" --journeys
small 0 why ../four.pgc "$(tail -n 1 ../four.games)"
small 0 why ../paid.pgc -
small 1 games "$four" 4.0 ../four.games
small 1 cooks "$four" 4.0 ../four.games --nodes 100000
small 0 cooks "${fifteen[@]}" "$top/examples/two-knights/games" --nodes 100000
small 1 judge ../large --nodes 100000
small 0 solve "$schweig" 4.0
small 0 solve "${fifteen[@]}" --nodes 100000 --keep ../again
small 1 solve "$four" 4.0 --games ../four.games
small 1 solve "$unreachable"
small 1 judge ../large --nodes 100000 --certificates ../proofs/large
small 0 upgrade "$top/examples/schweig/certificate.pgc" ../again
small 0 count "$position" 4
small 0 moves 'R6R/3Q4/1Q4Q1/4Q3/2Q4Q/Q4Q2/pp1Q4/kBNN1KB1 w - - 0 1'
small 0 show "${fifteen[@]}"
small 0 --help
expect 0 '' 'ulimit -s 400; "$pg" judge ../large --nodes 100000 --certificates ../proofs/new | cut -f 3' \
  $'sound\nsound\nnot sound\nno game\ncooked'
expect 1 'pg: unlisted game: 1. a3 a6 2. b3 b6 3. c3 c6 4. d3 d6' \
  'ulimit -s 400; sed 1d ../four.games | "$pg" check $four 4.0 ../four.pgc' ''
expect 1 'pg: node limit reached' 'ulimit -s 400; "$pg" search $stalemate 9.5 new.pgc --nodes 100000' ''
expect 1 'pg: node limit reached' 'ulimit -s 400; "$pg" search $stalemate 9.5 new.pgc --nodes 1000 --journeys' ''

# On a terminal: a bad diagram is told before the list is typed, and else how it is typed.
if command -v script >/dev/null; then
  on_terminal() { script -qec "$1" /dev/null </dev/null | tr -d '\r'; }
  on_terminal "'$pg' check 8/8 2.0 good.pgc" >"$work/said"
  grep -qx 'pg: bad rank' "$work/said" || { echo "a bad diagram is not told before the list" >&2; wrong=1; }
  on_terminal "'$pg' why ../reference.pgc -" >"$work/said"
  [ "$(grep -cx '\(pg: \)\?reference to no closed node' "$work/said")" = 1 ] || { echo "a refused explanation does not tell its fault once" >&2; wrong=1; }
  on_terminal "'$pg' check $open 2.0 good.pgc" >"$work/said"
  grep -q 'pg: type the games, one a line; end with Ctrl-D' "$work/said" || { echo "not told how to type a list" >&2; wrong=1; }

  # The command $1 on a terminal is to say the lines behind it, and nothing else.
  says() {
    on_terminal "$1" >"$work/said"
    shift
    printf '%s\n' "$@" | diff - "$work/said" >&2 || wrong=1
  }
  says "'$pg' show 8/8" 'pg: bad rank' 'pg: 2 ranks; a board has 8'
  says "'$pg' show ${array/pppppppp/ppppppp}" 'pg: bad rank' 'pg: rank 7 is 7 squares wide, not 8'
  says "'$pg' show ${array/pppppppp/pppdpppp} 4.0" 'pg: bad letter in the placement' "pg: 'd' in rank 7; men are KQRBNP and kqrbnp"
  says "'$pg' search ${array/rnbq/rnbk} 4.0 new.pgc" 'pg: each side must have one king' 'pg: white has 1, black 2'
  says "'$pg' count '$array w' 4" 'pg: wrong number of fields' 'pg: fields: 2; a diagram has 1, a FEN 6'
  says "'$pg' moves $position" "error: unexpected argument 'w' found" '' 'Usage: pg_cli moves <FEN>' '' "For more information, try '--help'." \
    'pg: quote the FEN: it is one word'
  echo '1. e4 e5 2. Nf9' >../misspelt
  says "'$pg' check $open 2.0 good.pgc ../misspelt" 'pg: line 1, ply 3: not a move' 'pg: the word is "Nf9"; legal there: Nf3, Nc3, Qf3'
  says "'$pg' games $open 2.0 ../misspelt" 'pg: line 1, ply 3: not a move' 'pg: the word is "Nf9"; legal there: Nf3, Nc3, Qf3'
  says "cat ../misspelt | '$pg' games $open 2.0" 'pg: line 1, ply 3: not a move'
  says "'$pg' why good.pgc 'e4 Qd6'" 'pg: line 1, ply 2: no such legal move' 'pg: the word is "Qd6"; legal there: d6, b6, c6'
  says "'$pg' check $queen 2.0 . games" 'pg: cannot open .' 'pg: it is no plain file'
  says "'$pg' search $queen 2.0 -" 'pg: cannot open -' 'pg: it is standard input, which is not written'
  printf 'e4 e5\n\ne4 e6\n' >../misfit
  says "'$pg' games $open 1.0 ../misfit" 'pg: game 2 does not end on the diagram' \
    'pg: line 3: it ends on rnbqkbnr/pppp1ppp/4p3/8/4P3/8/PPPP1PPP/RNBQKBNR' \
    'pg: e5: empty there, black pawn on the diagram' 'pg: e6: black pawn there, empty on the diagram'
  says "'$pg' cooks $queen 1.0 ../misfit" 'pg: game 1 does not end on the diagram' \
    'pg: line 1: it ends on rnbqkbnr/pppp1ppp/8/4p3/4P3/8/PPPP1PPP/RNBQKBNR' 'pg: e4: white pawn there, empty on the diagram' \
    'pg: d5: empty there, black queen on the diagram' 'pg: e5: black pawn there, empty on the diagram' \
    'pg: d7: black pawn there, empty on the diagram' 'pg: squares that differ too: 2'
  says "'$pg' check $open 7.5 good.pgc ../misfit" 'pg: game 1 does not have the stated length' \
    'pg: line 1: it has 1.0 moves, 7.5 are wanted'
  says "cat ../misfit | '$pg' games $open 1.0" 'pg: game 2 does not end on the diagram'
  printf '1. e4 e5\nd4\ne2-e4 e7e5\n' >../twice
  says "'$pg' games $open 1.0 - <../twice" 'pg: line 3: repeated game' 'pg: line 1 is the same game'
  printf 'e4 e5\nNf3 \351' >../latin
  says "'$pg' games $open 1.0 ../latin" 'pg: games are not UTF-8' 'pg: the first bad byte is byte 5 of line 2'
  says "'$pg' games $open 2,0 ../misfit" 'pg: bad length' 'pg: a length is in moves, as 2.0 or 2.5' 'pg: try the length 2.0'
  says "'$pg' show $open '8 plies'" 'pg: bad length' 'pg: a length is in moves, as 2.0 or 2.5' 'pg: try the length 4.0'
  says "'$pg' search $open 4... new.pgc" 'pg: bad length' 'pg: a length is in moves, as 2.0 or 2.5' 'pg: try the length 4.0'
  says "'$pg' search $open soon new.pgc" 'pg: bad length' 'pg: a length is in moves, as 2.0 or 2.5'
  says "'$pg' check $queen 2.0 nothing games" 'pg: cannot open nothing' 'pg: No such file or directory (os error 2)'
  says "'$pg' check $queen 2.0 games games" 'pg: cannot open games' 'pg: another word names this file'
  says "'$pg' search $queen 2.0 new.pgc --games ./new.pgc" 'pg: cannot open ./new.pgc' 'pg: another word names this file'
  gzip -c good.pgc >../packed
  says "'$pg' check $queen 2.0 ../packed games" 'pg: not a certificate' 'pg: it looks packed by gzip; unpack it, or let `pg check` read it from a pipe'
  says "'$pg' answer ../packed" 'pg: not a certificate' 'pg: it looks packed by gzip; unpack it, or let `pg check` read it from a pipe'
  says "'$pg' page good.pgc" 'pg: standard output is a terminal: say --out FILE'
  says "'$pg' answer nothing" 'pg: cannot open nothing' 'pg: No such file or directory (os error 2)'
  says "'$pg' check $schweig 4.0 ../journeys.pgc ../knights" 'pg: unknown bound 5' 'pg: bound 5 is that by journeys: say --journeys'
  says "'$pg' check $schweig 4.0 ../tolls.pgc ../knights" 'pg: not a certificate' 'pg: tariffs stand before it: say --tolls'
  for word in journeys tolls; do
    on_terminal "'$pg' search $queen 2.0 new.pgc --nodes 3 --$word" | grep -x 'pg: .* reaches further: .*' >"$work/said-of-$word"
  done
  [ "$(cat "$work/said-of-journeys")" = "pg: this reaches further: pg solve $queen 2.0 --minutes 10" ] && [ ! -s "$work/said-of-tolls" ] ||
    { echo "not told which command reaches further" >&2; wrong=1; }
  says "'$pg' search $queen 3.0 new.pgc" 'pg: a game of 4 plies reaches the diagram' "pg: this shows it: pg solve $queen 2.0"
  on_terminal "'$pg' search $schweig 4.0 new.pgc --minutes 0" >"$work/said"
  printf '%s\n' 'pg: time limit reached' 'pg: no game known' "pg: this reaches further: pg solve $schweig 4.0 --minutes 10" \
    'pg: try `pg cooks` with a game, `pg show DIAGRAM LENGTH` for a forecast, or more --minutes' | diff - <(sed 2d "$work/said") >&2 &&
    sed -n 2p "$work/said" | grep -q '^pg: [0-9]* nodes\?, tree [0-9.]* of 4.0$' || { echo "a search whose time is over does not tell how far it is" >&2; wrong=1; }
  says "'$pg' search $cooked 3.5 new.pgc --nodes 8312" 'pg: node limit reached' 'pg: 8307 nodes, tree 3.5 of 3.5' 'pg: 2 games known: not sound' \
    "pg: this reaches further: pg solve $cooked 3.5 --minutes 10" 'pg: try `pg cooks` with a game, `pg show DIAGRAM LENGTH` for a forecast, or more --nodes'

  # A page of a long certificate that is refused shows how far its check is, takes that away, and prints nothing.
  { cat long.pgc; ones 96000000; } >../many.pgc
  script -qec "'$pg' page ../many.pgc >../page.html" /dev/null </dev/null | tr -d '\n' | tr '\r' '\n' >"$work/said"
  grep -q 'bytes [0-9]*% of file' "$work/said" || { echo "a long page does not show how far it is" >&2; wrong=1; }
  [ "$(tail -n 1 "$work/said")" = $'\e[Kpg: truncated certificate' ] && [ ! -s ../page.html ] || { echo "a refused page leaves something" >&2; wrong=1; }

  # A long search on 10 columns: what it shows does not wrap, has the time, the share, the tree, the nodes to expect and the games, and is taken away.
  script -qec "stty cols 10; '$pg' search $stalemate 9.5 new.pgc --nodes 30000000" /dev/null </dev/null >"$work/said"
  wraps=$'\e\\[?7h' cuts=$'\e\\[?7l' up=$'\e\\[A' clears=$'\r\e\\[K'
  grep -q "${clears}${cuts}[0-9:]* [0-9]*% of nodes, tree [0-9.]* of 9.5, [0-9]*k nodes\( of ~[0-9]*[kMG]\)\?, [0-9]* games\?${wraps}" "$work/said" || { echo "a long search does not show how far it is" >&2; wrong=1; }
  tr -d '\n' <"$work/said" | grep -q "$wraps"$'\r'"$up${clears}pg: node limit reached" || { echo "the line of a search is not taken away" >&2; wrong=1; }
  on_terminal "TERM=dumb '$pg' search $stalemate 9.5 new.pgc --nodes 30000000" >"$work/said"
  grep -q $'\e' "$work/said" && { echo "a dumb terminal gets escape sequences" >&2; wrong=1; }

  # A long search that is interrupted leaves a whole line, and the cursor below it.
  for seconds in 1.2 1.6 2.1; do
    script -qec "timeout --foreground -s INT $seconds '$pg' search $endless 17.0 ../interrupted --nodes 3000000000" /dev/null </dev/null >"$work/said"
    [ "$(tail -c 7 "$work/said"; echo .)" = $'\e[?7h\r\n.' ] || { echo "an interrupted search does not leave a whole line" >&2; wrong=1; }
  done
fi
exit "$wrong"
